/* Sleeps of 0 to 255 blocks in and out of sections. Thread T takes as many
 * locks as its argument says, up to the four that a thread may hold, and
 * releases them upwards or downwards. */
#include "tclocks.h"

#define ROUNDS 10
static struct { uint32_t count, shared; } cells[4];
static const uint8_t naps[8] = { 0, 1, 255, 2, 0, 17, 3, 128 };

TC_THREAD(sleeper, depth, self)
{
	uint32_t slept = 0;
	for (uint32_t i = 0; i < ROUNDS; i++) {
		for (uint32_t lock = 0; lock < depth; lock++) {
			tc_lock(lock);
			cells[lock].shared += (self + 1) * (i + 1);
			if ((i + lock) % 2) {
				tc_sleep(naps[(i + self) % 8]);
				slept++;
			}
		}
		for (uint32_t k = 0; k < depth; k++) {
			uint32_t lock = i % 2 ? k : depth - 1 - k;
			cells[lock].count++;
			tc_unlock(lock);
			if (k == 0 && depth > 2) {
				tc_sleep(i);	/* between two releases */
				slept++;
			}
		}
		tc_sleep(naps[i % 8]);
		slept++;
	}
	return slept;
}

TC_GUEST(TC_LIST(TC_RUN(sleeper, 1), TC_RUN(sleeper, 2), TC_RUN(sleeper, 3),
		 TC_RUN(sleeper, 4), TC_RUN(sleeper, 4), TC_RUN(sleeper, 0)),
	 TC_LIST(TC_GUARD(cells[0]), TC_GUARD(cells[1]), TC_GUARD(cells[2]),
		 TC_GUARD(cells[3])))

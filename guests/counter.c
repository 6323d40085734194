/* Eight threads and one lock that all want: each adds its argument, plus the
 * number of the round, 60 times. The sum is taken modulo 2^32. */
#include "tclocks.h"

#define ROUNDS 60
enum { COUNTER };
static struct { uint32_t value, rounds; } counter;

TC_THREAD(adder, argument, self)
{
	uint32_t mine = 0;
	(void)self;
	for (uint32_t i = 0; i < ROUNDS; i++) {
		tc_lock(COUNTER);
		counter.value += argument + i;
		counter.rounds++;
		tc_unlock(COUNTER);
		mine += argument + i;
	}
	return mine;
}

TC_GUEST(TC_LIST(TC_RUN(adder, 1), TC_RUN(adder, 20), TC_RUN(adder, 300),
		 TC_RUN(adder, 4000), TC_RUN(adder, 50000), TC_RUN(adder, 600000),
		 TC_RUN(adder, 0xFFFFFFFF), TC_RUN(adder, 0x80000000)),
	 TC_LIST(TC_GUARD(counter)))

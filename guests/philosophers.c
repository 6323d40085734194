/* Five philosophers. A fork is a lock, and the fork with the lower number is
 * taken first, so nobody waits in a circle. The table's lock has the highest
 * number, so it can be taken with both forks in hand. Some sleep then. */
#include "tclocks.h"

#define SEATS 5
#define MEALS 12
enum { TABLE = SEATS };
static struct { uint32_t as_left, as_right; } forks[SEATS];
static struct { uint32_t meals, by[SEATS]; } table;

/* Both forks are held. */
static void eat(uint32_t self, uint32_t left, uint32_t right)
{
	forks[left].as_left++;
	forks[right].as_right++;
	tc_lock(TABLE);
	table.meals++;
	table.by[self]++;
	tc_unlock(TABLE);
}

TC_THREAD(philosopher, nap, self)
{
	uint32_t left = self, right = self + 1 == SEATS ? 0 : self + 1;
	uint32_t low = left < right ? left : right;
	uint32_t high = left < right ? right : left;
	for (uint32_t i = 0; i < MEALS; i++) {
		tc_lock(low);
		if (i % 3 == 1)
			tc_sleep(nap);
		tc_lock(high);
		eat(self, left, right);
		if (i % 4 == 2)
			tc_sleep(1);
		tc_unlock(i % 2 ? low : high);
		tc_unlock(i % 2 ? high : low);
		if (i % 5 == 3)
			tc_sleep(2);
	}
	return MEALS;
}

TC_GUEST(TC_LIST(TC_RUN(philosopher, 0), TC_RUN(philosopher, 1), TC_RUN(philosopher, 2),
		 TC_RUN(philosopher, 3), TC_RUN(philosopher, 4)),
	 TC_LIST(TC_GUARD(forks[0]), TC_GUARD(forks[1]), TC_GUARD(forks[2]),
		 TC_GUARD(forks[3]), TC_GUARD(forks[4]), TC_GUARD(table)))

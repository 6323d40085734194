/* hot: eight threads that all want one lock, 1,250 times each: 10,000 sections. */
#include "tclocks.h"

enum { TOTAL, ROUNDS = 1250 };
static struct { uint32_t value, rounds; } total;

TC_THREAD(adder, argument, self)
{
	(void)self;
	for (int i = 0; i < ROUNDS; i++) {
		tc_lock(TOTAL);
		total.value += argument;
		total.rounds++;
		tc_unlock(TOTAL);
	}
	return argument;
}

TC_GUEST(TC_LIST(TC_RUN(adder, 1), TC_RUN(adder, 2), TC_RUN(adder, 3), TC_RUN(adder, 4),
		 TC_RUN(adder, 5), TC_RUN(adder, 6), TC_RUN(adder, 7), TC_RUN(adder, 8)),
	 TC_LIST(TC_GUARD(total)))

/* Two threads add their argument to one total, three times each. */
#include "tclocks.h"

enum { TOTAL };
static struct { uint32_t sum, additions; } total;

TC_THREAD(adder, argument, self)
{
	(void)self;
	for (int i = 0; i < 3; i++) {
		tc_lock(TOTAL);
		total.sum += argument;
		total.additions++;
		tc_unlock(TOTAL);
	}
	return argument;
}

TC_GUEST(TC_LIST(TC_RUN(adder, 5), TC_RUN(adder, 7)),
	 TC_LIST(TC_GUARD(total)))

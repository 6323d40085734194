/* queue: three threads draw a number under one lock, and are served under another, two times each.
 * The desk notes who was served, and the most that one was passed: by how many with a later number. */
#include "tclocks.h"

enum { NUMBERS, DESK, ROUNDS = 2 };
static struct { uint32_t next; } numbers;
static struct { uint32_t served, passes; } desk;

static void serve(uint32_t number)
{
	uint32_t passes = 0;
	for (uint32_t later = desk.served >> (number + 1); later; later >>= 1)
		passes += later & 1;
	if (passes > desk.passes)
		desk.passes = passes;
	desk.served |= 1u << number;
}

TC_THREAD(customer, argument, self)
{
	(void)self;
	for (int i = 0; i < ROUNDS; i++) {
		tc_lock(NUMBERS);
		uint32_t number = numbers.next++;
		tc_unlock(NUMBERS);
		tc_lock(DESK);
		serve(number);
		tc_unlock(DESK);
	}
	return argument;
}

TC_GUEST(TC_LIST(TC_RUN(customer, 0), TC_RUN(customer, 1), TC_RUN(customer, 2)),
	 TC_LIST(TC_GUARD(numbers), TC_GUARD(desk)))

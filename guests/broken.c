/* Threads 0 to 4 end while they hold locks: by a stack that runs out, a null
 * pointer, an access at no multiple of its width (with two locks held), spent
 * fuel, and EXIT. Threads 5 to 7 visit each lock and see whether it is broken. */
#include "tclocks.h"
#pragma GCC diagnostic ignored "-Winfinite-recursion"

#define LOCKS 7
#define MARK 0xA0000000
static struct { uint32_t mark, visits, seen_broken; } cells[LOCKS];

/* volatile, so that the compiler does not know that it stays 0 */
static uint32_t *volatile null_pointer;

static __attribute__((noinline)) uint32_t deepen(uint32_t depth)
{
	volatile uint32_t room[25];
	room[depth % 25] = depth;
	return deepen(depth + 1) + room[depth % 25];
}

static void mark(uint32_t lock, uint32_t self)
{
	tc_lock(lock);
	cells[lock].mark = MARK + self;
	tc_barrier();
}

TC_THREAD(run_out_of_stack, argument, self)
{
	mark(0, self);
	return deepen(argument);
}

TC_THREAD(follow_null, argument, self)
{
	mark(1, self);
	return null_pointer[argument];
}

TC_THREAD(misalign, argument, self)
{
	mark(2, self);
	mark(3, self);
	uintptr_t odd = (uintptr_t)&cells[3].mark + 2;
	__asm__ volatile("sw %0, 0(%1)" : : "r"(argument), "r"(odd) : "memory");
	return 0;
}

TC_THREAD(run_forever, argument, self)
{
	mark(4, self);
	for (;;)
		__asm__ volatile("" : : "r"(argument));
}

TC_THREAD(leave_locked, argument, self)
{
	mark(5, self);
	return argument;
}

TC_THREAD(visit, rounds, self)
{
	uint32_t seen = 0;
	(void)self;
	for (uint32_t i = 0; i < rounds; i++)
		for (uint32_t lock = 0; lock < LOCKS; lock++) {
			uint32_t broken = tc_lock(lock);
			cells[lock].visits++;
			cells[lock].seen_broken += broken;
			tc_unlock(lock);
			seen |= broken << lock;
		}
	return seen;
}

TC_GUEST(TC_LIST(TC_RUN(run_out_of_stack, 0), TC_RUN(follow_null, 0),
		 TC_RUN(misalign, 0), TC_RUN(run_forever, 0), TC_RUN(leave_locked, 5),
		 TC_RUN(visit, 3), TC_RUN(visit, 5), TC_RUN(visit, 7)),
	 TC_LIST(TC_GUARD(cells[0]), TC_GUARD(cells[1]), TC_GUARD(cells[2]),
		 TC_GUARD(cells[3]), TC_GUARD(cells[4]), TC_GUARD(cells[5]),
		 TC_GUARD(cells[6])))

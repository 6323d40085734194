/* A bounded buffer that ends in every interleaving, since nobody waits in it.
 * Where a producer finds it full, it takes an item out itself and goes on. A
 * consumer tries a fixed number of times, and sleeps where there is none. The
 * last thread to leave takes out what is left. A loop that waits until another
 * thread has put or taken something ends as spent where that one can't run. */
#include "tclocks.h"

#define SLOTS 4
#define ITEMS 20
#define THREADS 4
enum { BUFFER };
static struct {
	uint32_t put, taken, put_sum, taken_sum, left;
	uint32_t slots[SLOTS];
} buffer;

/* The lock is held in each of these. */
static int is_full(void) { return buffer.put - buffer.taken == SLOTS; }
static int is_empty(void) { return buffer.put == buffer.taken; }

static void put(uint32_t item)
{
	buffer.slots[buffer.put % SLOTS] = item;
	buffer.put++;
	buffer.put_sum += item;
}

static void take(void)
{
	uint32_t item = buffer.slots[buffer.taken % SLOTS];
	buffer.slots[buffer.taken % SLOTS] = 0;
	buffer.taken++;
	buffer.taken_sum += item;
}

static void leave(void)
{
	tc_lock(BUFFER);
	if (++buffer.left == THREADS)
		while (!is_empty())
			take();
	tc_unlock(BUFFER);
}

/* Answers how often it had to make room. */
TC_THREAD(producer, argument, self)
{
	uint32_t helped = 0;
	(void)self;
	for (uint32_t i = 0; i < ITEMS; i++) {
		tc_lock(BUFFER);
		if (is_full()) {
			take();
			helped++;
		}
		put(argument + i);
		tc_unlock(BUFFER);
	}
	leave();
	return helped;
}

/* Answers how many items it took. */
TC_THREAD(consumer, tries, self)
{
	uint32_t taken = 0;
	(void)self;
	for (uint32_t i = 0; i < tries; i++) {
		tc_lock(BUFFER);
		int found = !is_empty();
		if (found)
			take();
		tc_unlock(BUFFER);
		if (found)
			taken++;
		else
			tc_sleep(1);
	}
	leave();
	return taken;
}

TC_GUEST(TC_LIST(TC_RUN(consumer, 30), TC_RUN(producer, 100), TC_RUN(producer, 1000),
		 TC_RUN(consumer, 30)),
	 TC_LIST(TC_GUARD(buffer)))

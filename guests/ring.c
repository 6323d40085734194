/* A ring of six slots in which nobody waits: each of six threads puts an item
 * and then takes one, 25 times. Each thread has at most one item in the ring,
 * so a put finds a free slot and a take finds an item, in every interleaving.
 * Some sleep inside the section or between the two. */
#include "tclocks.h"

#define THREADS 6
#define ITEMS 25
enum { RING };
static struct {
	uint32_t head, tail, put_sum, taken_sum, taken_xor, misfits;
	uint32_t slots[THREADS];
} ring;

static void put(uint32_t item)
{
	if (ring.tail - ring.head == THREADS)
		ring.misfits++;
	ring.slots[ring.tail % THREADS] = item;
	ring.tail++;
	ring.put_sum += item;
}

static void take(void)
{
	if (ring.tail == ring.head)
		ring.misfits++;
	uint32_t item = ring.slots[ring.head % THREADS];
	ring.slots[ring.head % THREADS] = 0;
	ring.head++;
	ring.taken_sum += item;
	ring.taken_xor ^= item;
}

TC_THREAD(passer, argument, self)
{
	for (uint32_t i = 0; i < ITEMS; i++) {
		tc_lock(RING);
		put(argument ^ i);
		if (i % 5 == 0)
			tc_sleep(self);
		tc_unlock(RING);
		if (i % 4 == 0)
			tc_sleep(i);
		tc_lock(RING);
		take();
		tc_unlock(RING);
	}
	return ITEMS;
}

TC_GUEST(TC_LIST(TC_RUN(passer, 0x11110000), TC_RUN(passer, 0x22220000),
		 TC_RUN(passer, 0x33330000), TC_RUN(passer, 0x44440000),
		 TC_RUN(passer, 0x55550000), TC_RUN(passer, 0xFFFFFF00)),
	 TC_LIST(TC_GUARD(ring)))

/* pair: a writer gives two words the same new value, three times, and a reader reads both. Each word
 * has a lock of its own, and neither holds two locks. A third word, the edition, is counted up before
 * and behind each change; who finds it as it was has read a whole pair. */
#include "tclocks.h"

enum { EDITION, LEFT, RIGHT, READ, CHANGES = 3 };
static struct { uint32_t value; } edition, left, right;
static struct { uint32_t left, right; } read;

static uint32_t get(uint32_t lock, const uint32_t *word)
{
	tc_lock(lock);
	uint32_t value = *word;
	tc_unlock(lock);
	return value;
}

static void put(uint32_t lock, uint32_t *word, uint32_t value)
{
	tc_lock(lock);
	*word = value;
	tc_unlock(lock);
}

/* Takes its time. Each thread has thoughts of its own. */
static uint32_t thoughts;

static void think(void)
{
	for (int i = 0; i < 100; i++)
		thoughts = thoughts * 5 + 1;
}

TC_THREAD(writer, start, self)
{
	(void)self;
	for (uint32_t i = 1; i <= CHANGES; i++) {
		think();
		put(EDITION, &edition.value, 2 * i - 1);
		put(LEFT, &left.value, start + i);
		put(RIGHT, &right.value, start + i);
		put(EDITION, &edition.value, 2 * i);
	}
	return 0;
}

TC_THREAD(reader, tries, self)
{
	(void)self;
	while (tries--) {
		uint32_t before = get(EDITION, &edition.value);
		think();
		uint32_t first = get(LEFT, &left.value);
		think();
		uint32_t second = get(RIGHT, &right.value);
		think();
		if (before % 2 || get(EDITION, &edition.value) != before)
			continue;
		tc_lock(READ);
		read.left = first;
		read.right = second;
		tc_unlock(READ);
		break;
	}
	return 0;
}

TC_GUEST(TC_LIST(TC_RUN(writer, 0), TC_RUN(reader, 4)),
	 TC_LIST(TC_GUARD(edition), TC_GUARD(left), TC_GUARD(right), TC_GUARD(read)))

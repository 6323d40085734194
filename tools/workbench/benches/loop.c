/* Runs a loop in each of THREADS threads beside one another. The loop shares nothing, reads and writes registers
   alone, and keeps all that a processor has busy, so several threads take longer than one only as far as the host has
   fewer processors than threads, or such as share a core. bench several compiles it and runs it.

   Usage: loop THREADS TURNS */
#include <pthread.h>
#include <stdlib.h>

static unsigned long turns;

static void *turn(void *given)
{
	unsigned long a = 1, b = 2, c = 3, d = 4, e = 5, f = 6;
	for (unsigned long left = turns; left > 0; left--) {
		a += left ^ b;
		b += a >> 3;
		c ^= left + d;
		d += c << 1;
		e += left;
		f ^= e;
		__asm__ volatile("" : "+r"(a), "+r"(b), "+r"(c), "+r"(d), "+r"(e), "+r"(f));
	}
	return given;
}

int main(int words, char **word_at)
{
	unsigned long threads = words == 3 ? strtoul(word_at[1], NULL, 10) : 0;
	if (threads < 1 || threads > 8)
		return 1;
	turns = strtoul(word_at[2], NULL, 10);
	pthread_t others[8];
	for (unsigned long other = 1; other < threads; other++)
		if (pthread_create(&others[other], NULL, turn, NULL) != 0)
			return 2;
	turn(NULL);
	for (unsigned long other = 1; other < threads; other++)
		pthread_join(others[other], NULL);
	return 0;
}

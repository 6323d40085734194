/* Counts one word up, ADDITIONS times in all, by THREADS threads beside one another, each of which multiplies a
   number of its own for some tens of nanoseconds behind each addition. What several threads take more than one is
   what it costs that each block of a run is stamped by the one clock of its workers. bench several compiles it
   and runs it.

   Usage: clock THREADS ADDITIONS */
#include <pthread.h>
#include <stdatomic.h>
#include <stdlib.h>

static _Alignas(64) atomic_ulong word;
static unsigned long each;

enum { PRODUCTS = 32 };

static void *count(void *given)
{
	volatile unsigned long own = 1;
	for (unsigned long left = each; left > 0; left--) {
		atomic_fetch_add(&word, 1);
		for (int product = 0; product < PRODUCTS; product++)
			own = own * 3 + 1;
	}
	return given;
}

int main(int words, char **word_at)
{
	unsigned long threads = words == 3 ? strtoul(word_at[1], NULL, 10) : 0;
	if (threads < 1 || threads > 8)
		return 1;
	each = strtoul(word_at[2], NULL, 10) / threads;
	pthread_t others[8];
	for (unsigned long other = 1; other < threads; other++)
		if (pthread_create(&others[other], NULL, count, NULL) != 0)
			return 2;
	count(NULL);
	for (unsigned long other = 1; other < threads; other++)
		pthread_join(others[other], NULL);
	return 0;
}

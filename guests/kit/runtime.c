/* runtime.c - the four functions of the C library that a compiler may call
 * even where there is no C library. */
#include <stddef.h>
#include <stdint.h>

/* Keeps the compiler from making a call of memset out of memset's own loop. */
#if defined(__clang__)
#define PLAIN __attribute__((no_builtin("memcpy", "memmove", "memset", "memcmp")))
#else
#define PLAIN __attribute__((optimize("no-tree-loop-distribute-patterns")))
#endif

PLAIN void *memcpy(void *restrict to, const void *restrict from, size_t count)
{
	uint8_t *target = to;
	const uint8_t *source = from;
	while (count--)
		*target++ = *source++;
	return to;
}

PLAIN void *memmove(void *to, const void *from, size_t count)
{
	uint8_t *target = to;
	const uint8_t *source = from;
	if (target <= source)
		while (count--)
			*target++ = *source++;
	else
		while (count--)
			target[count] = source[count];
	return to;
}

PLAIN void *memset(void *to, int value, size_t count)
{
	uint8_t *target = to;
	while (count--)
		*target++ = (uint8_t)value;
	return to;
}

PLAIN int memcmp(const void *left, const void *right, size_t count)
{
	const uint8_t *a = left, *b = right;
	for (; count--; a++, b++)
		if (*a != *b)
			return *a - *b;
	return 0;
}

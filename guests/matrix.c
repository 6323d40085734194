/* One product of two matrices of 8 by 8, one row for each thread. A thread
 * computes its row in its own memory, and takes the lock once, to hand it in.
 * It is built for rv32i, which has no multiplication, so the compiler calls a
 * function for it. */
#include "tclocks.h"

#define SIZE 8
enum { RESULT };
static struct { uint32_t rows; int32_t trace, row[SIZE][SIZE]; } result;
static int32_t right[SIZE][SIZE];	/* in no guard, so each thread has its own */

TC_THREAD(multiply_row, argument, self)
{
	int32_t left[SIZE], row[SIZE];
	for (uint32_t i = 0; i < SIZE; i++) {
		left[i] = (int32_t)(argument * (self + 1) + i * 37) - 5000;
		for (uint32_t j = 0; j < SIZE; j++)
			right[i][j] = (int32_t)((i * 31 + j * 17) % 101) - 50;
	}
	for (int j = 0; j < SIZE; j++) {
		row[j] = 0;
		for (int i = 0; i < SIZE; i++)
			row[j] += left[i] * right[i][j];
	}
	tc_lock(RESULT);
	for (int j = 0; j < SIZE; j++)
		result.row[self][j] = row[j];
	result.rows++;
	result.trace += row[self];
	tc_unlock(RESULT);
	return (uint32_t)row[SIZE - 1];
}

TC_GUEST(TC_LIST(TC_RUN(multiply_row, 1000), TC_RUN(multiply_row, 1000),
		 TC_RUN(multiply_row, 1000), TC_RUN(multiply_row, 1000),
		 TC_RUN(multiply_row, 1000), TC_RUN(multiply_row, 1000),
		 TC_RUN(multiply_row, 1000), TC_RUN(multiply_row, 1000)),
	 TC_LIST(TC_GUARD(result)))

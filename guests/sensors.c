/* Eight sensors and one table of what they measured. The kit builds this guest
 * for rv32im, so that each product and quotient here is one instruction; which
 * one stands beside it. */
#include "tclocks.h"

#define READINGS 24
#define KINDS 7
enum { TABLE };
static struct { int32_t sum; uint32_t readings, kind[KINDS]; } table;

TC_THREAD(sensor, argument, self)
{
	const uint32_t gain = 0xC0000000 + self;	/* about 3/4 of 2^32 */
	const int32_t drift = -0x40000000 + (int32_t)self;	/* about -1/4 of it */
	const uint32_t width = 1000 + self;
	int32_t sum = 0;
	uint32_t drawn = argument;
	for (uint32_t i = 0; i < READINGS; i++) {
		drawn = drawn * 1664525 + 1013904223;	/* mul */
		int32_t raw = (int32_t)((uint64_t)drawn * 200001 >> 32) - 100000;	/* mulhu */
		int32_t reading = (int32_t)((int64_t)raw * gain >> 32)	/* mulhsu */
			+ (int32_t)((int64_t)raw * drift >> 32);	/* mulh */
		sum += reading;
		tc_lock(TABLE);
		table.sum += reading;
		table.readings++;
		table.kind[drawn / width % KINDS]++;	/* divu, remu */
		tc_unlock(TABLE);
	}
	int32_t parts = -(int32_t)(self + 2);
	return (uint32_t)(sum / parts * 100 + sum % parts);	/* div, rem */
}

TC_GUEST(TC_LIST(TC_RUN(sensor, 1), TC_RUN(sensor, 20), TC_RUN(sensor, 300),
		 TC_RUN(sensor, 4000), TC_RUN(sensor, 50000), TC_RUN(sensor, 600000),
		 TC_RUN(sensor, 0xFFFFFFFF), TC_RUN(sensor, 0x80000000)),
	 TC_LIST(TC_GUARD(table)))

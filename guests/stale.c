/* One pot with a stamp that counts changes, modulo 4. A payer puts seven coins
 * in, one by one. A teller adds its fee three times: it looks at the pot and
 * the stamp, reckons without the lock, and writes back what it reckoned if the
 * stamp is still the same; else it adds the fee to what is there now. */
#include "tclocks.h"

#define COINS 7
#define FEES 3
#define STAMPS 4
enum { POT };
static struct { uint32_t sum, stamp; } pot;

/* The lock is held. */
static void change(uint32_t sum)
{
	pot.sum = sum;
	pot.stamp = (pot.stamp + 1) % STAMPS;
}

/* Looks at a coin for some time. */
static uint32_t weigh(uint32_t coin)
{
	uint32_t weight = coin;
	for (int i = 0; i < 100; i++)
		weight = weight * 2 ^ coin;
	return weight;
}

/* Answers a number of its coins' weights. */
TC_THREAD(payer, coin, self)
{
	uint32_t weight = self;
	for (int i = 0; i < COINS; i++) {
		weight += weigh(coin + weight);
		tc_lock(POT);
		change(pot.sum + coin);
		tc_unlock(POT);
	}
	return weight;
}

TC_THREAD(teller, fee, self)
{
	(void)self;
	for (int i = 0; i < FEES; i++) {
		tc_lock(POT);
		uint32_t stamp = pot.stamp, sum = pot.sum + fee;
		tc_unlock(POT);
		tc_lock(POT);
		change(pot.stamp == stamp ? sum : pot.sum + fee);
		tc_unlock(POT);
	}
	return fee * FEES;
}

TC_GUEST(TC_LIST(TC_RUN(payer, 10), TC_RUN(teller, 1)),
	 TC_LIST(TC_GUARD(pot)))

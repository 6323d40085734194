/* Eight tellers move money between eight accounts, one lock each. A transfer
 * holds both locks, taken in ascending order and released in either order.
 * Balances may become negative, so the end does not depend on the order of the
 * transfers, and their sum stays 36000. */
#include "tclocks.h"

#define ACCOUNTS 8
#define TRANSFERS 40
struct account { int32_t balance; uint32_t in, out, moves; };
static struct account accounts[ACCOUNTS] = {
	{ 1000, 0, 0, 0 }, { 2000, 0, 0, 0 }, { 3000, 0, 0, 0 }, { 4000, 0, 0, 0 },
	{ 5000, 0, 0, 0 }, { 6000, 0, 0, 0 }, { 7000, 0, 0, 0 }, { 8000, 0, 0, 0 },
};

static uint32_t state;	/* in no guard, so each thread has its own */

static uint32_t next_random(void)
{
	state = state * 1103515245u + 12345u;
	return state >> 16 & 0x7FFF;
}

/* Both locks are held. */
static void move(uint32_t from, uint32_t to, uint32_t amount)
{
	accounts[from].balance -= (int32_t)amount;
	accounts[from].out += amount;
	accounts[from].moves++;
	accounts[to].balance += (int32_t)amount;
	accounts[to].in += amount;
	accounts[to].moves++;
}

TC_THREAD(teller, argument, self)
{
	uint32_t moved = 0;
	state = argument + self;
	for (int i = 0; i < TRANSFERS; i++) {
		uint32_t from = next_random() % ACCOUNTS;
		uint32_t to = next_random() % ACCOUNTS;
		uint32_t amount = next_random() % 256;
		if (from == to)
			to = (to + 1) % ACCOUNTS;
		uint32_t low = from < to ? from : to;
		uint32_t high = from < to ? to : from;
		tc_lock(low);
		tc_lock(high);
		move(from, to, amount);
		tc_unlock(amount % 2 ? low : high);
		tc_unlock(amount % 2 ? high : low);
		moved += amount;
	}
	return moved;
}

TC_GUEST(TC_LIST(TC_RUN(teller, 11), TC_RUN(teller, 22), TC_RUN(teller, 33),
		 TC_RUN(teller, 44), TC_RUN(teller, 55), TC_RUN(teller, 66),
		 TC_RUN(teller, 77), TC_RUN(teller, 88)),
	 TC_LIST(TC_GUARD(accounts[0]), TC_GUARD(accounts[1]), TC_GUARD(accounts[2]),
		 TC_GUARD(accounts[3]), TC_GUARD(accounts[4]), TC_GUARD(accounts[5]),
		 TC_GUARD(accounts[6]), TC_GUARD(accounts[7])))

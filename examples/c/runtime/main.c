/* main.c: six fibers compute on two workers for a second, two mostly sleep. Prints the shares. */
#include "runtime.h"
#include <stdio.h>

enum { COMPUTING = 6, SLEEPING = 2, WORKERS = 2, NAP = 10000000 };

static uint64_t ends_at;
static unsigned naps[SLEEPING];
static struct runtime_share shares[COMPUTING + SLEEPING];

static void compute(void *with)
{
	(void)with;
	while (runtime_now() < ends_at)
		runtime_point();
}

static void nap(void *with)
{
	for (unsigned *count = with; runtime_now() < ends_at; ++*count)
		runtime_sleep(NAP);
}

int main(void)
{
	double ns = 0, weight = 0;

	ends_at = runtime_now() + 1000000000;
	runtime_open(WORKERS);
	for (unsigned at = 0; at < COMPUTING + SLEEPING; at++)
		runtime_add(at < 4 ? 0 : at < COMPUTING ? 5 : 10, at < COMPUTING ? compute : nap,
			    &naps[at % SLEEPING], &shares[at]);
	printf("%u pulls\n", runtime_run());
	for (unsigned at = 0; at < COMPUTING; at++)
		ns += (double)shares[at].ns, weight += (double)shares[at].weight;
	for (unsigned at = 0; at < COMPUTING; at++)
		printf("fiber %u: %.1f %% of the time, %.1f %% of the weight\n", at,
		       100 * (double)shares[at].ns / ns, 100 * (double)shares[at].weight / weight);
	for (unsigned at = 0; at < SLEEPING; at++)
		printf("fiber %u slept %u times\n", COMPUTING + at, naps[at]);
	return 0;
}

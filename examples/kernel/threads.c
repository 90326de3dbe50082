/*
 * threads.c: what the threads do. This is compiled as a program is, with the registers of SSE; the
 * kernel is compiled without, and keeps them.
 */
#include "kernel.h"

static void ask(uint64_t what)
{
	__asm__ volatile("int $48" : : "D"(what) : "memory");
}

/* It computes its own number, in a register of SSE, over and over. */
void thread_main(uint64_t number, const struct plan *plan, const volatile uint64_t *ran)
{
	volatile double own = (double)number;

	for (uint64_t round = 1; round <= plan->rounds; round++) {
		for (double x = own; *ran < round * plan->runs; x = (x + own) * 0.5)
			if (x != own)
				ask(ASKS_FAULT);
		if (plan->sleeps)
			ask(plan->sleeps);
	}
	ask(ASKS_END);
}

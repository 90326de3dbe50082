/* kernel.h: what the kernel and its threads know of each other. */
#ifndef KERNEL_H
#define KERNEL_H

#include <eevdf.h>

/* A thread computes for `runs` ticks and sleeps for `sleeps`, so many rounds, and ends. */
struct plan { int64_t nice; uint64_t slice_ns, runs, sleeps, rounds; };

/*
 * What a thread asks for by interrupt 48, in rdi: to sleep for so many ticks, to end, or to end the
 * run, as its registers aren't what it has left in them.
 */
#define ASKS_END 0
#define ASKS_FAULT ((uint64_t)-1)

/* Where a thread begins, with its number, its plan and the ticks that it ran for. */
void thread_main(uint64_t number, const struct plan *plan, const volatile uint64_t *ran);

#endif

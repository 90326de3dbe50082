/* runtime.h: user-level threads, here fibers, on a few threads of the system, here workers. */
#ifndef RUNTIME_H
#define RUNTIME_H
#include <stdint.h>
enum { RUNTIME_FIBERS = 64, RUNTIME_WORKERS = 8 };
/* What a fiber has had of the workers' time, in ns, and what it weighs. */
struct runtime_share { uint64_t ns; int64_t weight; };
void runtime_open(unsigned workers);	/* before all others */
/* before the run: a fiber, and where to count what it has had */
void runtime_add(int64_t nice, void (*run)(void *), void *with, struct runtime_share *share);
unsigned runtime_run(void);		/* until each fiber has returned; how many were pulled */
uint64_t runtime_now(void);		/* a steady clock, in ns */
void runtime_point(void);		/* in a fiber, often: lets others run in their turn */
void runtime_sleep(uint64_t ns);	/* in a fiber: sleeps for so long, or a little longer */
#endif

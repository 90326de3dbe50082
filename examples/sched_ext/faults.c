/* faults.c: planted faults, after which all tasks have to go on in Linux's own class. */
#define _GNU_SOURCE
#include "machine.h"

#include <sys/prctl.h>

enum { GOING = 5 };

/* The first of them sleeps and wakes, under the name of those that the planted fault loses. */
static _Noreturn void go_on(volatile uint64_t *steps, bool sleeps)
{
	if (sleeps)
		prctl(PR_SET_NAME, "lost");
	for (;; ++*steps) {
		compute_until(now_ns() + MILLISECOND);
		if (sleeps)
			sleep_ns(MILLISECOND);
	}
}

void try_fault(int fault)
{
	volatile uint64_t *steps = shared(GOING * sizeof *steps);
	pid_t children[GOING];
	uint64_t before[GOING];
	bool has_put_out;
	int still = 0;

	for (int at = 0; at < GOING; at++) {
		children[at] = fork_as("going", 0);
		if (children[at] == 0)
			go_on(&steps[at], at == 0);
	}
	sleep_ns(200 * MILLISECOND);
	plant(fault);
	has_put_out = has_ended(20);
	for (int at = 0; at < GOING; at++)
		before[at] = steps[at];
	sleep_ns(SECOND);
	for (int at = 0; at < GOING; at++) {
		still += steps[at] == before[at];
		end_child(children[at]);
	}
	say("%sfault %d: the scheduler is %s, and of %d tasks %d stand still",
	    has_put_out && !still ? "" : "FAULT: ", fault,
	    has_put_out ? "put out" : "STILL THERE", GOING, still);
}

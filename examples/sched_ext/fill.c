/*
 * fill.c: forks until Linux refuses one, since no CPU has room for a further task, and has all the
 * tasks that there are then come to one CPU.
 */
#define _GNU_SOURCE
#include "machine.h"

#include <errno.h>
#include <signal.h>
#include <string.h>
#include <sys/wait.h>
#include <unistd.h>

/*
 * Children are forked up to some more than the numbers of all CPUs, and told to run a few at a
 * time.
 */
enum { NUMBERS = 1024, MORE = 100, AT_A_TIME = 50, SECONDS_FOR_STEP = 10 };

static volatile uint64_t *own_steps;

static void take_step(int signal_number)
{
	(void)signal_number;
	++*own_steps;
}

static _Noreturn void take_steps(volatile uint64_t *steps)
{
	own_steps = steps;
	for (;;)
		pause();
}

static int fork_children(pid_t *children, volatile uint64_t *steps, int most)
{
	int count = 0;

	while (count < most) {
		pid_t child = fork();

		if (child == 0)
			take_steps(&steps[count]);
		if (child < 0)
			break;
		children[count++] = child;
	}
	return count;
}

/* Whether a fork is done again, once a child has ended. */
static bool is_done_again(pid_t child)
{
	pid_t again;

	end_child(child);
	sleep_ns(200 * MILLISECOND);
	again = fork();
	if (again == 0)
		_exit(0);
	if (again > 0)
		waitpid(again, NULL, 0);
	return again > 0;
}

/* Children may run on the first CPU alone, and each is told to take a step. How many take none. */
static int count_still(const pid_t *children, const volatile uint64_t *steps, int count)
{
	int64_t last = now_ns() + (int64_t)SECONDS_FOR_STEP * SECOND;
	int still;

	for (int at = 0; at < count; at++) {
		stay_on_cpu(children[at], 0);
		kill(children[at], SIGUSR1);
	}
	do {
		sleep_ns(MILLISECOND);
		still = 0;
		for (int at = 0; at < count; at++)
			still += steps[at] == 0;
	} while (still && now_ns() < last);
	return still;
}

void fork_until_refused(void)
{
	int most = NUMBERS * (int)sysconf(_SC_NPROCESSORS_ONLN) + MORE;
	volatile uint64_t *steps = shared((size_t)most * sizeof *steps);
	pid_t *children = shared((size_t)most * sizeof *children);
	int count, refused, still = 0;
	bool is_done;

	signal(SIGUSR1, take_step);
	count = fork_children(children, steps, most);
	refused = count < most ? errno : 0;
	is_done = is_done_again(children[count - 1]);
	for (int at = 0; at < count - 1; at += AT_A_TIME) {
		int some = count - 1 - at < AT_A_TIME ? count - 1 - at : AT_A_TIME;

		still += count_still(&children[at], &steps[at], some);
	}
	for (int at = 0; at < count - 1; at++)
		end_child(children[at]);
	say("%s%s: forks: %d children, and the next is refused: %s; "
	    "once one has ended a fork is %s; all come to one CPU, and %d stand still",
	    refused == EAGAIN && is_done && !still ? "" : "FAULT: ", name_of_class(), count,
	    refused ? strerror(refused) : "no", is_done ? "done" : "refused", still);
}

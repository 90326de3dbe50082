/*
 * real_time.c: tasks of real time that leave no time to the others, and tasks that change their
 * class while a scheduler ends.
 */
#define _GNU_SOURCE
#include "common.h"
#include "machine.h"

#include <sched.h>
#include <sys/wait.h>
#include <unistd.h>

enum { GOING = 5, TURNING = 2 };

static _Noreturn void go_on(volatile uint64_t *steps)
{
	for (;; ++*steps)
		compute_until(now_ns() + MILLISECOND);
}

/* A task of real time for each CPU, which doesn't sleep for so long. */
static void fork_spinners(pid_t *spinners, int count, int seconds)
{
	struct sched_param first = { 1 };

	for (int at = 0; at < count; at++) {
		spinners[at] = fork_as("spinning", 0);
		if (spinners[at] == 0) {
			if (!stay_on_cpu(0, at) || sched_setscheduler(0, SCHED_FIFO, &first))
				_exit(1);
			compute_until(now_ns() + (int64_t)seconds * SECOND);
			_exit(0);
		}
	}
}

static uint64_t sum_of(const volatile uint64_t *steps)
{
	uint64_t sum = 0;

	for (int at = 0; at < GOING; at++)
		sum += steps[at];
	return sum;
}

/*
 * Each CPU has a task of real time that spins, and this process is above them. How many steps the
 * others get on meanwhile, whether the scheduler is put out, and whether all go on afterwards.
 */
void spin_in_real_time(int seconds)
{
	volatile uint64_t *steps = shared(GOING * sizeof *steps);
	struct sched_param above = { 2 }, none = { 0 };
	int cpus = (int)sysconf(_SC_NPROCESSORS_ONLN), still = 0;
	pid_t children[GOING], spinners[MAX_CPUS];
	uint64_t before[GOING], at_first;
	bool was_loaded = is_loaded(), is_there;
	const char *name = name_of_class();

	for (int at = 0; at < GOING; at++) {
		children[at] = fork_as("going", 0);
		if (children[at] == 0)
			go_on(&steps[at]);
	}
	sched_setscheduler(0, SCHED_FIFO, &above);
	fork_spinners(spinners, cpus, seconds);
	sleep_ns(500 * MILLISECOND);
	at_first = sum_of(steps);
	sleep_ns(((int64_t)seconds - 1) * SECOND);
	say("%s: %d tasks of real time spin, and the others take %llu steps in %d s", name, cpus,
	    (unsigned long long)(sum_of(steps) - at_first), seconds - 1);
	for (int at = 0; at < cpus; at++)
		waitpid(spinners[at], NULL, 0);
	sched_setscheduler(0, SCHED_OTHER, &none);
	is_there = is_loaded();
	for (int at = 0; at < GOING; at++)
		before[at] = steps[at];
	sleep_ns(SECOND);
	for (int at = 0; at < GOING; at++) {
		still += steps[at] == before[at];
		end_child(children[at]);
	}
	say("%safterwards %s, and of %d tasks %d stand still", still ? "FAULT: " : "",
	    !was_loaded ? "all is as before" :
	    is_there ? "the scheduler is still there" : "the scheduler is put out", GOING, still);
}

/*
 * Computes until then, and is now a task of real time, now one of the others, or always the latter.
 */
static _Noreturn void turn_until(int64_t last, bool turns)
{
	struct sched_param first = { 1 }, none = { 0 };

	while (now_ns() < last) {
		if (turns)
			sched_setscheduler(0, SCHED_FIFO, &first);
		compute_until(now_ns() + MILLISECOND / 4);
		if (turns)
			sched_setscheduler(0, SCHED_OTHER, &none);
		compute_until(now_ns() + 2 * MILLISECOND);
	}
	_exit(0);
}

/*
 * Ends the scheduler beside two tasks for each CPU that compute for so many seconds, and says how
 * long that took. This process is above them.
 */
static void end_beside(int seconds, bool turns)
{
	int count = TURNING * (int)sysconf(_SC_NPROCESSORS_ONLN);
	int64_t last = now_ns() + (int64_t)seconds * SECOND, began;
	struct sched_param above = { 2 }, none = { 0 };
	const char *name = name_of_class();
	pid_t children[TURNING * MAX_CPUS];
	bool has_been_ended;

	for (int at = 0; at < count; at++) {
		children[at] = fork_as("turning", 0);
		if (children[at] == 0)
			turn_until(last, turns);
	}
	sched_setscheduler(0, SCHED_FIFO, &above);
	sleep_ns(500 * MILLISECOND);
	began = now_ns();
	has_been_ended = unload_plain();
	say("%s%s: it ends in %lld ms beside %d tasks that %s, for %lld ms more",
	    has_been_ended ? "" : "FAULT: ", name, (long long)(now_ns() - began) / MILLISECOND,
	    count, turns ? "change their class" : "compute",
	    (long long)(last - began) / MILLISECOND);
	sched_setscheduler(0, SCHED_OTHER, &none);
	for (int at = 0; at < count; at++)
		waitpid(children[at], NULL, 0);
}

void end_beside_turning(int seconds)
{
	end_beside(seconds, true);
}

void end_beside_computing(int seconds)
{
	end_beside(seconds, false);
}

/*
 * hunt.c: a hunt for a task that stands still. Tasks compute, yield, sleep, talk, fork, and change
 * their own and each other's nice level, CPUs and class, and all have to get on, to the end.
 */
#define _GNU_SOURCE
#include "common.h"
#include "machine.h"

#include <sched.h>
#include <stdlib.h>
#include <string.h>
#include <sys/resource.h>
#include <sys/wait.h>
#include <unistd.h>

/* A task that takes no step for so long after the end stands still. */
enum { HUNTED = 24, SECONDS_FOR_LAST_STEP = 10 };

static struct hunted {
	volatile pid_t processes[HUNTED];
	volatile uint64_t steps[HUNTED];
	volatile int64_t longest_ns[HUNTED];	/* the most from one step to the next */
	int pipes[HUNTED][2];
	bool only_cpus;	/* they compute, sleep, and change each other's CPUs, and do nothing else */
	volatile bool is_over;	/* they mostly sleep, so that whoever still waits has its turn */
} *hunted;

static uint64_t drawn(uint64_t *word, uint64_t below)
{
	*word = *word * 6364136223846793005u + 1442695040888963407u;
	return (*word >> 33) % below;
}

static void change_cpus(pid_t process, uint64_t *word)
{
	int count = (int)sysconf(_SC_NPROCESSORS_ONLN);
	cpu_set_t cpus;

	CPU_ZERO(&cpus);
	CPU_SET(drawn(word, (uint64_t)count), &cpus);
	for (int cpu = 0; cpu < count; cpu++)
		if (drawn(word, 2))
			CPU_SET(cpu, &cpus);
	sched_setaffinity(process, sizeof cpus, &cpus);
}

static void change_class(pid_t process, uint64_t *word)
{
	static const int classes[] = { SCHED_OTHER, SCHED_OTHER, SCHED_BATCH, SCHED_IDLE };
	struct sched_param none = { 0 };

	sched_setscheduler(process, classes[drawn(word, 4)], &none);
}

/* A little while in the class of real time, which no other task of this CPU has meanwhile. */
static void be_real_time(uint64_t *word)
{
	struct sched_param first = { 1 }, none = { 0 };

	sched_setscheduler(0, SCHED_FIFO, &first);
	compute_until(now_ns() + (int64_t)drawn(word, MILLISECOND));
	sched_setscheduler(0, SCHED_OTHER, &none);
}

static void fork_one(void)
{
	pid_t child = fork();

	if (child == 0)
		_exit(0);
	if (child > 0)
		waitpid(child, NULL, 0);
}

/* One letter to the next task, which it reads some time; the pipe is full where it doesn't. */
static void talk(int number)
{
	int to = hunted->pipes[(number + 1) % HUNTED][1];
	char letter = 'x', read_letter;

	if (write(to, &letter, 1) < 0 || read(hunted->pipes[number][0], &read_letter, 1) < 0)
		return;
}

static void take_step(int number, uint64_t *word)
{
	static const uint64_t steps_on_cpus[] = { 0, 4, 9, 9 };
	pid_t other = hunted->processes[drawn(word, HUNTED)];

	switch (hunted->only_cpus ? steps_on_cpus[drawn(word, 4)] : drawn(word, 12)) {
	case 0: case 1: case 2:
		compute_until(now_ns() + (int64_t)drawn(word, 5 * MILLISECOND));
		break;
	case 3:
		sched_yield();
		break;
	case 4: case 5:
		sleep_ns((int64_t)drawn(word, 5 * MILLISECOND));
		break;
	case 6:
		talk(number);
		break;
	case 7:
		fork_one();
		break;
	case 8:
		setpriority(PRIO_PROCESS, (id_t)other, (int)drawn(word, 40) - 20);
		break;
	case 9:
		change_cpus(other, word);
		break;
	case 10:
		change_class(other, word);
		break;
	default:
		be_real_time(word);
	}
}

static _Noreturn void be_hunted(int number)
{
	uint64_t word = (uint64_t)number + 1;
	int64_t before = now_ns();

	hunted->processes[number] = getpid();
	for (;;) {
		int64_t now;

		if (hunted->is_over)
			sleep_ns(50 * MILLISECOND);
		else
			take_step(number, &word);
		now = now_ns();
		if (now - before > hunted->longest_ns[number])
			hunted->longest_ns[number] = now - before;
		before = now;
		hunted->steps[number]++;
	}
}

static void begin_hunted(bool only_cpus)
{
	hunted = shared(sizeof *hunted);
	hunted->only_cpus = only_cpus;
	for (int at = 0; at < HUNTED; at++) {
		hunted->processes[at] = getpid();
		if (pipe2(hunted->pipes[at], 02000000 | 04000))	/* O_CLOEXEC | O_NONBLOCK */
			say("FAULT: no pipe");
	}
	for (int at = 0; at < HUNTED; at++) {
		pid_t child = fork_as("hunted", 0);

		if (child == 0)
			be_hunted(at);
		hunted->processes[at] = child;
	}
}

/* How many take no further step. */
static int count_still(void)
{
	int64_t last = now_ns() + (int64_t)SECONDS_FOR_LAST_STEP * SECOND;
	uint64_t before[HUNTED];
	int still;

	for (int at = 0; at < HUNTED; at++)
		before[at] = hunted->steps[at];
	do {
		sleep_ns(10 * MILLISECOND);
		still = 0;
		for (int at = 0; at < HUNTED; at++)
			still += hunted->steps[at] == before[at];
	} while (still && now_ns() < last);
	return still;
}

/*
 * A task of nice level 19 may rightly wait for long beside heavy ones, and Linux's watchdog doesn't
 * know that. So hunts are shorter than it allows.
 */
void hunt(int seconds, bool only_cpus)
{
	int64_t longest = 0;
	uint64_t steps = 0;
	const char *name;
	int still;

	begin_hunted(only_cpus);
	sleep_ns((int64_t)seconds * SECOND);
	hunted->is_over = true;
	still = count_still();
	name = name_of_class();
	for (int at = 0; at < HUNTED; at++) {
		end_child(hunted->processes[at]);
		close(hunted->pipes[at][0]);
		close(hunted->pipes[at][1]);
		steps += hunted->steps[at];
		if (hunted->longest_ns[at] > longest)
			longest = hunted->longest_ns[at];
	}
	longest /= MILLISECOND;
	say("%s%s: the hunt: %d tasks took %llu steps, the longest of %lld ms, and %d stand still",
	    still || longest > WATCHDOG_MS ? "FAULT: " : "", name, HUNTED,
	    (unsigned long long)steps, (long long)longest, still);
}

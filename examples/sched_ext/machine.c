/* machine.c: does what the words on Linux's command line say, and turns the machine off. */
#define _GNU_SOURCE
#include "machine.h"

#include <errno.h>
#include <sched.h>
#include <signal.h>
#include <stdarg.h>
#include <stdio.h>
#include <stdlib.h>
#include <string.h>
#include <sys/mman.h>
#include <sys/mount.h>
#include <sys/prctl.h>
#include <sys/reboot.h>
#include <sys/resource.h>
#include <sys/stat.h>
#include <sys/wait.h>
#include <time.h>
#include <unistd.h>

void say(const char *text, ...)
{
	va_list more;

	va_start(more, text);
	vprintf(text, more);
	va_end(more);
	printf("\n");
	fflush(stdout);
}

static int64_t read_clock(clockid_t clock)
{
	struct timespec time;

	if (clock_gettime(clock, &time))
		return -1;
	return (int64_t)time.tv_sec * SECOND + time.tv_nsec;
}

int64_t now_ns(void)
{
	return read_clock(CLOCK_MONOTONIC);
}

int64_t had_ns(pid_t process)
{
	clockid_t clock;

	return clock_getcpuclockid(process, &clock) ? -1 : read_clock(clock);
}

void sleep_until(int64_t at)
{
	struct timespec time = { at / SECOND, at % SECOND };

	while (clock_nanosleep(CLOCK_MONOTONIC, TIMER_ABSTIME, &time, NULL))
		;
}

void sleep_ns(int64_t ns)
{
	sleep_until(now_ns() + ns);
}

/*
 * The pauses let qemu go on with another CPU: where time is counted by instructions, qemu 7.2 does
 * so only where a CPU pauses or has nothing to do.
 */
void compute_until(int64_t at)
{
	while (now_ns() < at) {
		for (volatile int round = 0; round < 200; round++)
			;
		__builtin_ia32_pause();
	}
}

void *shared(size_t size)
{
	void *memory = mmap(NULL, size, PROT_READ | PROT_WRITE, MAP_SHARED | MAP_ANONYMOUS, -1, 0);

	if (memory == MAP_FAILED) {
		say("FAULT: no memory");
		_exit(1);
	}
	return memory;
}

/* The child has its level from its first instant on: it takes it over from this process. */
pid_t fork_as(const char *name, int nice)
{
	pid_t child;

	setpriority(PRIO_PROCESS, 0, nice);
	child = fork();
	if (child == 0) {
		prctl(PR_SET_NAME, name);
		prctl(PR_SET_TIMERSLACK, 1ul);
		let_go();
		return 0;
	}
	setpriority(PRIO_PROCESS, 0, 0);
	if (child < 0)
		say("FAULT: no child");
	return child;
}

bool stay_on_cpu(pid_t process, int cpu)
{
	cpu_set_t cpus;

	CPU_ZERO(&cpus);
	CPU_SET((size_t)cpu, &cpus);
	return sched_setaffinity(process, sizeof cpus, &cpus) == 0;
}

void end_child(pid_t child)
{
	if (child <= 0)
		return;
	kill(child, SIGKILL);
	while (waitpid(child, NULL, 0) < 0 && errno == EINTR)
		;
}

/* run.sh looks for this line: where the machine comes to no end after it, that is a fault. */
static void do_load(int number)
{
	const char *parameters = getenv("module");

	(void)number;
	if (load(parameters ? parameters : ""))
		say("the scheduler is loaded");
	else
		say("FAULT: the scheduler isn't loaded");
}

static void do_unload(int number)
{
	(void)number;
	say(unload() ? "the module is unloaded" : "FAULT: the module isn't unloaded");
}

static void do_load_plain(int number)
{
	(void)number;
	say("%s", load_plain() ? "the plain scheduler is loaded" :
				 "FAULT: the plain scheduler isn't loaded");
}

static void do_unload_plain(int number)
{
	(void)number;
	say("%s", unload_plain() ? "the plain scheduler has ended" :
				   "FAULT: the plain scheduler hasn't ended");
}

static void do_hunt(int number)
{
	hunt(number, false);
}

static void do_cpus(int number)
{
	hunt(number, true);
}

static void do_forks(int number)
{
	(void)number;
	fork_until_refused();
}

static const struct {
	const char *name;
	void (*action)(int number);
} actions[] = {
	{ "load", do_load },
	{ "unload", do_unload },
	{ "load_plain", do_load_plain },
	{ "unload_plain", do_unload_plain },
	{ "shares", measure_shares },
	{ "naps", measure_naps },
	{ "hunt", do_hunt },
	{ "cpus", do_cpus },
	{ "forks", do_forks },
	{ "fault", try_fault },
	{ "plant", plant },
	{ "real_time", spin_in_real_time },
	{ "turning", end_beside_turning },
	{ "computing", end_beside_computing },
};

/* A word is a name, and a number behind "=". */
static void do_word(const char *word)
{
	size_t length = strcspn(word, "=");
	int number = word[length] ? atoi(word + length + 1) : 0;

	for (size_t at = 0; at < sizeof actions / sizeof actions[0]; at++) {
		const char *name = actions[at].name;

		if (strlen(name) == length && !strncmp(name, word, length)) {
			actions[at].action(number);
			return;
		}
	}
	say("FAULT: no word %s", word);
}

int main(int count, char **words)
{
	mkdir("/proc", 0755);
	mkdir("/sys", 0755);
	if (mount("proc", "/proc", "proc", 0, NULL) || mount("sysfs", "/sys", "sysfs", 0, NULL))
		say("FAULT: /proc and /sys aren't there");
	prctl(PR_SET_TIMERSLACK, 1ul);
	say("%d CPUs", (int)sysconf(_SC_NPROCESSORS_ONLN));
	for (int at = 1; at < count; at++) {
		say("-- %s", words[at]);
		do_word(words[at]);
	}
	say("done");
	sync();
	reboot(RB_AUTOBOOT);
	return 1;
}

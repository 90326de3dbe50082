/* measures.c: the shares of tasks that compute and of some that nap, and how late one wakes. */
#define _GNU_SOURCE
#include "machine.h"

#include <stdio.h>
#include <stdlib.h>
#include <unistd.h>

enum { HOGS = 4, WAKES = 20000, PERIOD = 10 * MILLISECOND };

static const int levels[HOGS] = { 0, 0, 5, 5 };

struct lateness {
	int count;
	int64_t late[WAKES];
};

static _Noreturn void compute(void)
{
	for (;;)
		compute_until(INT64_MAX);
}

/* Sleeps to the next beginning of a period, and keeps how late it came to run. */
static _Noreturn void sleep_and_wake(struct lateness *lateness)
{
	for (int64_t next = now_ns() + PERIOD;; next += PERIOD) {
		sleep_until(next);
		if (lateness->count < WAKES)
			lateness->late[lateness->count++] = now_ns() - next;
		compute_until(now_ns() + 100000);
	}
}

static int compare(const void *one, const void *other)
{
	int64_t a = *(const int64_t *)one, b = *(const int64_t *)other;

	return (a > b) - (a < b);
}

/* How late in microseconds at most: half the wakes, 9 of 10, 99 of 100, and all. */
static void say_lateness(const char *name, struct lateness *lateness)
{
	int count = lateness->count;
	int64_t *late = lateness->late;

	if (count == 0) {
		say("FAULT: %s: nobody woke", name);
		return;
	}
	qsort(late, (size_t)count, sizeof *late, compare);
	say("%s: %s: %d wakes, late by at most %lld %lld %lld %lld us", name_of_class(), name,
	    count, (long long)late[count / 2] / 1000, (long long)late[count * 9 / 10] / 1000,
	    (long long)late[count * 99 / 100] / 1000, (long long)late[count - 1] / 1000);
}

static void say_parts(const char *name, const pid_t *children, const int64_t *before, int count)
{
	int64_t had[HOGS + 1], all = 0;
	char text[128];
	size_t length = 0;

	for (int at = 0; at < count; at++) {
		had[at] = had_ns(children[at]) - before[at];
		all += had[at];
	}
	for (int at = 0; at < count; at++)
		length += (size_t)snprintf(text + length, sizeof text - length, " %.2f",
					   100.0 * (double)had[at] / (double)all);
	say("%s: %s:%s %%", name_of_class(), name, text);
}

/* Two hogs of nice level 0 and two of 5, beside one that mostly sleeps. */
void measure_shares(int seconds)
{
	struct lateness *lateness = shared(sizeof *lateness);
	pid_t hogs[HOGS], sleeper;
	int64_t before[HOGS];

	for (int at = 0; at < HOGS; at++) {
		hogs[at] = fork_as("hog", levels[at]);
		if (hogs[at] == 0)
			compute();
	}
	sleeper = fork_as("sleeper", 0);
	if (sleeper == 0)
		sleep_and_wake(lateness);
	sleep_ns(500 * MILLISECOND);
	for (int at = 0; at < HOGS; at++)
		before[at] = had_ns(hogs[at]);
	sleep_ns((int64_t)seconds * SECOND);
	say_parts("shares", hogs, before, HOGS);
	end_child(sleeper);
	for (int at = 0; at < HOGS; at++)
		end_child(hogs[at]);
	say_lateness("the sleeper", lateness);
}

/*
 * So many that run for a while, sleep for another and go on, beside so many that never sleep. What
 * all of the former had.
 */
static void measure_napping(int nappers, int64_t run_ns, int64_t nap_ns, int others, int seconds)
{
	enum { MOST = 16 };
	pid_t children[MOST];
	int64_t before[MOST], all = 0, napped = 0;
	int count = nappers + others;

	for (int at = 0; at < count; at++) {
		children[at] = fork_as(at < nappers ? "napping" : "hog", 0);
		if (children[at] == 0) {
			while (at < nappers) {
				compute_until(now_ns() + run_ns);
				sleep_ns(nap_ns);
			}
			compute();
		}
	}
	sleep_ns(500 * MILLISECOND);
	for (int at = 0; at < count; at++)
		before[at] = had_ns(children[at]);
	sleep_ns((int64_t)seconds * SECOND);
	for (int at = 0; at < count; at++) {
		int64_t had = had_ns(children[at]) - before[at];

		all += had;
		napped += at < nappers ? had : 0;
	}
	for (int at = 0; at < count; at++)
		end_child(children[at]);
	say("%s: naps: %d of %lld us after %lld us each, beside %d: %.2f %%, where %.2f is theirs",
	    name_of_class(), nappers, (long long)nap_ns / 1000, (long long)run_ns / 1000, others,
	    100.0 * (double)napped / (double)all, 100.0 * nappers / count);
}

void measure_naps(int seconds)
{
	measure_napping(1, 4 * MILLISECOND, MICROSECOND, 7, seconds);
	measure_napping(2, 2 * MILLISECOND, MICROSECOND, 1, seconds);
	measure_napping(2, MILLISECOND / 2, MICROSECOND, 1, seconds);
	measure_napping(2, MILLISECOND / 2, MILLISECOND / 2, 1, seconds);
}

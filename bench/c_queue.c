/*
 * c_queue.c MIX TASKS TURNS: turns of calls of one queue through C, on the inputs of
 * `measures queue`, and the same checksum of the answers (docs/speed.md has both). The mixes are
 * tick-pick, tick-sleep-pick-wake, and some that `measures queue` hasn't. tick-run: a drawn task is
 * made to run, as by a kernel that has chosen itself. pull-take-put: another queue, without tasks,
 * pulls the candidate, which goes back through a hand. pull-take-renumber-put: the hand is given a
 * number on its way, which is the task's own, since that is free where it goes. pick: picks, each
 * 1024th of them after a tick, since a turn would else take a whole number of instructions.
 * fair-pick and fair-tick-pick: the calls of pick and tick-pick beside bounds; their answers are
 * the same, and so is the checksum.
 */
#include <eevdf.h>
#include <inttypes.h>
#include <stdbool.h>
#include <stdio.h>
#include <stdlib.h>
#include <string.h>

enum { DRAWN = 16384, WARM_UP = 4096 };

static const uint64_t slices[] = { 100000,  300000,  700000,  1000000,  2000000,  3000000,
				   3000000, 3000000, 6000000, 10000000, 20000000, 100000000 };
static eevdf_queue queue, other;
static eevdf_hand hand;
static eevdf_bounds bounds;
static uint64_t state, sum, lengths[DRAWN], chosen[DRAWN], sleepers[2 * EEVDF_TASKS];
static size_t length_at, first_sleeper, last_sleeper;
static int64_t running;

/* The generator SplitMix64. */
static uint64_t drawn(uint64_t below)
{
	uint64_t word = state += 0x9e3779b97f4a7c15u;

	word = (word ^ word >> 30) * 0xbf58476d1ce4e5b9u;
	word = (word ^ word >> 27) * 0x94d049bb133111ebu;
	return (word ^ word >> 31) % below;
}

static int64_t drawn_nice(void)
{
	uint64_t kind = drawn(16);

	if (kind < 7)
		return 0;
	return kind < 15 ? (int64_t)drawn(21) - 10 : (int64_t)drawn(40) - 20;
}

static void admit(uint64_t task, uint64_t tasks, bool is_fair)
{
	int64_t nice = drawn_nice();
	uint64_t slice = slices[drawn(12)];
	int64_t start = (int64_t)drawn(10000000);

	if (tasks == 1) {
		nice = 0;
		slice = 3000000;
	}
	if (is_fair)
		eevdf_fair_admit(&bounds, &queue, task, nice, slice, start);
	else
		eevdf_admit(&queue, task, nice, slice, start);
}

/* Beside each length `measures queue` draws a task, and a nice level for other mixes. */
static void draw_lengths(uint64_t tasks)
{
	for (size_t at = 0; at < DRAWN; at++) {
		lengths[at] = 1 + drawn(2000000);
		chosen[at] = drawn(tasks);
		drawn(21);
	}
}

static inline void add(int64_t answer)
{
	sum = sum * 31 + (uint32_t)answer;
}

/* 0: nobody runs. 1: it is charged. 2: its request is used up too. 3: it can't be charged. */
static inline void add_tick(int64_t answer)
{
	add(answer >= 0 ? answer + 1 : answer == EEVDF_ABSENT ? 0 : 3);
}

static inline void tick(uint64_t ns)
{
	add_tick(eevdf_tick(&queue, ns));
}

static inline void fair_tick(uint64_t ns)
{
	add_tick(eevdf_fair_tick(&bounds, &queue, ns));
}

static inline void pick(void)
{
	running = eevdf_pick(&queue);
	add(running >= 0 ? running : -1);
}

static inline void fair_pick(void)
{
	running = eevdf_fair_pick(&bounds, &queue);
	add(running >= 0 ? running : -1);
}

static inline uint64_t length(void)
{
	return lengths[length_at++ % DRAWN];
}

static void tick_run(void)
{
	uint64_t task = chosen[length_at % DRAWN];

	tick(length());
	add(eevdf_run(&queue, task));
}

static void sleep_pick(void)
{
	eevdf_sleep(&queue, (uint64_t)running);
	sleepers[last_sleeper++ % (2 * EEVDF_TASKS)] = (uint64_t)running;
	pick();
}

static void sleep_pick_wake(void)
{
	sleep_pick();
	eevdf_wake(&queue, sleepers[first_sleeper++ % (2 * EEVDF_TASKS)]);
	if (running < 0)
		pick();
}

static int64_t pull_take(void)
{
	int64_t pulled = eevdf_pull(&other, &queue);

	add(pulled);
	eevdf_take(&other, &hand, (uint64_t)pulled);
	return pulled;
}

/* Puts back what was pulled, if anything was. A look at the answer would be counted too. */
static void put(void)
{
	const int64_t answer = eevdf_put(&queue, &hand);

	(void)answer;
}

static void pull_take_put(void)
{
	pull_take();
	put();
}

static void pull_take_renumber_put(void)
{
	eevdf_hand_renumber(&hand, (uint64_t)pull_take());
	put();
}

static void warm_up(bool is_fair)
{
	running = is_fair ? eevdf_fair_pick(&bounds, &queue) : eevdf_pick(&queue);
	for (size_t at = 0; at < WARM_UP; at++) {
		if (is_fair) {
			fair_tick(lengths[at]);
			fair_pick();
		} else {
			tick(lengths[at]);
			pick();
		}
	}
}

static void open_queue(uint64_t tasks, bool is_fair)
{
	state = 0x45455644462d3031u + tasks;
	eevdf_open(&queue);
	eevdf_fair_open(&bounds);
	for (uint64_t task = 0; task < tasks; task++)
		admit(task, tasks, is_fair);
	draw_lengths(tasks);
	warm_up(is_fair);
}

static void picks(uint64_t turns)
{
	for (; turns > 0; turns--) {
		if (turns % 1024 == 0)
			tick(length());
		pick();
	}
}

static void fair_picks(uint64_t turns)
{
	for (; turns > 0; turns--) {
		if (turns % 1024 == 0)
			fair_tick(length());
		fair_pick();
	}
}

int main(int count, char **words)
{
	uint64_t tasks, turns;

	if (count != 4)
		return 2;
	tasks = strtoul(words[2], NULL, 10);
	turns = strtoul(words[3], NULL, 10);
	open_queue(tasks, strncmp(words[1], "fair-", 5) == 0);
	if (strcmp(words[1], "tick-pick") == 0) {
		for (; turns > 0; turns--) {
			tick(length());
			pick();
		}
	} else if (strcmp(words[1], "fair-tick-pick") == 0) {
		for (; turns > 0; turns--) {
			fair_tick(length());
			fair_pick();
		}
	} else if (strcmp(words[1], "pick") == 0) {
		picks(turns);
	} else if (strcmp(words[1], "fair-pick") == 0) {
		fair_picks(turns);
	} else if (strcmp(words[1], "tick-run") == 0) {
		for (; turns > 0; turns--)
			tick_run();
	} else if (strcmp(words[1], "pull-take-put") == 0) {
		eevdf_open(&other);
		eevdf_hand_open(&hand);
		do
			pull_take_put();
		while (--turns > 0);
	} else if (strcmp(words[1], "pull-take-renumber-put") == 0) {
		eevdf_open(&other);
		eevdf_hand_open(&hand);
		do
			pull_take_renumber_put();
		while (--turns > 0);
	} else {
		for (uint64_t at = 0; at < tasks / 8; at++)
			sleep_pick();
		for (; turns > 0; turns--) {
			tick(length());
			sleep_pick_wake();
		}
	}
	printf("%016" PRIx64 "\n", sum);
	eevdf_close(&queue);
	return 0;
}

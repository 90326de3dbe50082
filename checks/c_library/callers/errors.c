/*
 * errors.c: each error of each call once, in the order in which the header names them, and that it
 * has changed nothing; and that the library is of the header's version and sizes. Ends with 1 where
 * an answer or a state is another.
 */
#include "state.h"

#include <stdbool.h>
#include <stdio.h>
#include <stdlib.h>

enum { SLICE = 3000000 };

static eevdf_queue queue, other;
static eevdf_hand hand, full;
static bool refuses;
static unsigned failed, looked_at;

eevdf_memory eevdf_alloc(size_t size, size_t align)
{
	static unsigned char none;
	void *block = refuses ? NULL : malloc(size);

	(void)align;
	return block ? (eevdf_memory){ 1, block } : (eevdf_memory){ 0, &none };
}

void eevdf_dealloc(void *block)
{
	free(block);
}

static void fail(const char *what, int64_t answer)
{
	printf("FAILED: %s: %d\n", what, (int)answer);
	failed++;
}

/* Looks whether a call answers this, and changes nothing. */
#define ANSWERS(wanted, call)								\
	do {										\
		struct state before[] = { state_of(&queue, &hand), state_of(&other, &full) };	\
		int64_t answer = (call);						\
		struct state after[] = { state_of(&queue, &hand), state_of(&other, &full) };	\
											\
		looked_at++;								\
		if (answer != (wanted) || memcmp(before, after, sizeof before) != 0)	\
			fail(#call, answer);						\
	} while (0)

#define DONE(call)									\
	do {										\
		int64_t answer = (call);						\
											\
		if (answer != 0)							\
			fail(#call, answer);						\
	} while (0)

static int64_t admit_without_memory(uint64_t task, int64_t start)
{
	int64_t answer;

	refuses = true;
	answer = eevdf_admit(&queue, task, 0, SLICE, start);
	refuses = false;
	return answer;
}

/* Of an empty queue, and of an empty hand. */
static void look_at_empty(void)
{
	int64_t number = 0;
	eevdf_entry entry = { 0, 0, 0, 0 };
	eevdf_sleeper sleeper = { 0, 0, 0 };
	eevdf_place place = { 0, 0 };
	eevdf_parcel parcel = { 0, 0, 0, 0, 0 };

	ANSWERS(EEVDF_ABSENT, eevdf_pick(&queue));
	ANSWERS(EEVDF_ABSENT, eevdf_peek(&queue));
	ANSWERS(EEVDF_ABSENT, eevdf_tick(&queue, 1));
	ANSWERS(EEVDF_ABSENT, eevdf_time_to_resched(&queue));
	ANSWERS(EEVDF_ABSENT, eevdf_yield(&queue));
	ANSWERS(EEVDF_ABSENT, eevdf_run(&queue, 0));
	ANSWERS(EEVDF_ABSENT, eevdf_stop(&queue));
	ANSWERS(EEVDF_ABSENT, eevdf_running(&queue));
	ANSWERS(EEVDF_ABSENT, eevdf_candidate(&queue));
	ANSWERS(EEVDF_ABSENT, eevdf_sleep(&queue, 0));
	ANSWERS(EEVDF_ABSENT, eevdf_doze(&queue, 0, &number));
	ANSWERS(EEVDF_ABSENT, eevdf_wake(&queue, 0));
	ANSWERS(EEVDF_ABSENT, eevdf_end(&queue, 0));
	ANSWERS(EEVDF_ABSENT, eevdf_renice(&queue, 0, 0));
	ANSWERS(EEVDF_ABSENT, eevdf_set_slice(&queue, 0, SLICE));
	ANSWERS(EEVDF_ABSENT, eevdf_set(&queue, 0, 0, SLICE));
	ANSWERS(EEVDF_ABSENT, eevdf_begin(&queue, 0, 0, SLICE));
	ANSWERS(0, eevdf_rebase(&queue, &number));
	if (number != 0)
		fail("an empty queue at the time 0 is moved", number);
	ANSWERS(EEVDF_ABSENT, eevdf_entry_of(&queue, 0, &entry));
	ANSWERS(EEVDF_ABSENT, eevdf_sleeper_of(&queue, 0, &sleeper));
	ANSWERS(EEVDF_ABSENT, eevdf_place_of(&queue, 0, &place));
	ANSWERS(EEVDF_ABSENT, eevdf_lag(&queue, 0, &number));
	ANSWERS(EEVDF_ABSENT, eevdf_hand_task(&hand));
	ANSWERS(EEVDF_ABSENT, eevdf_hand_parcel(&hand, &parcel));
	ANSWERS(EEVDF_ABSENT, eevdf_hand_renumber(&hand, 0));
	ANSWERS(EEVDF_ABSENT, eevdf_take(&queue, &hand, 0));
	ANSWERS(EEVDF_ABSENT, eevdf_take_any(&queue, &hand));
	ANSWERS(EEVDF_ABSENT, eevdf_put(&queue, &hand));
	ANSWERS(EEVDF_ABSENT, eevdf_put_asleep(&queue, &hand));
	ANSWERS(EEVDF_ABSENT, eevdf_pull(&queue, &other));
	ANSWERS(EEVDF_ABSENT, eevdf_pull_task(&queue, &other, 0));
	ANSWERS(0, eevdf_is_asleep(&queue, 0));
	ANSWERS(0, eevdf_contains(&queue, 0));
}

/*
 * Numbers a little past their limits, and far from them. Each comes with what would be another
 * error, which is named later.
 */
static void look_at_numbers(void)
{
	static const uint64_t tasks[] = { EEVDF_TASKS, UINT32_MAX + 1ull, UINT64_MAX };
	static const int64_t levels[] = {
		EEVDF_NICE_MIN - 1, EEVDF_NICE_MAX + 1, INT64_MIN, INT64_MAX, 1ll << 32,
	};
	static const uint64_t slices[] = {
		0, EEVDF_SLICE_MIN - 1, EEVDF_SLICE_MAX + 1, (1ull << 32) + SLICE, UINT64_MAX,
	};
	static const int64_t starts[] = {
		EEVDF_TIME_MAX + 1, -EEVDF_TIME_MAX - 1, INT64_MAX, INT64_MIN,
	};
	static const uint64_t ticks[] = { 0, EEVDF_TICK_MAX + 1, (1ull << 32) + 1, UINT64_MAX };
	int64_t number = 0;
	eevdf_entry entry = { 0, 0, 0, 0 };
	eevdf_sleeper sleeper = { 0, 0, 0 };
	eevdf_place place = { 0, 0 };

	for (size_t at = 0; at < sizeof tasks / sizeof *tasks; at++) {
		ANSWERS(EEVDF_INVALID, eevdf_admit(&queue, tasks[at], 0, SLICE, 0));
		ANSWERS(EEVDF_INVALID, eevdf_run(&queue, tasks[at]));
		ANSWERS(EEVDF_INVALID, eevdf_sleep(&queue, tasks[at]));
		ANSWERS(EEVDF_INVALID, eevdf_doze(&queue, tasks[at], &number));
		ANSWERS(EEVDF_INVALID, eevdf_wake(&queue, tasks[at]));
		ANSWERS(EEVDF_INVALID, eevdf_end(&queue, tasks[at]));
		ANSWERS(EEVDF_INVALID, eevdf_renice(&queue, tasks[at], 0));
		ANSWERS(EEVDF_INVALID, eevdf_set_slice(&queue, tasks[at], SLICE));
		ANSWERS(EEVDF_INVALID, eevdf_set(&queue, tasks[at], 0, SLICE));
		ANSWERS(EEVDF_INVALID, eevdf_begin(&queue, tasks[at], 0, SLICE));
		ANSWERS(EEVDF_INVALID, eevdf_hand_renumber(&hand, tasks[at]));
		ANSWERS(EEVDF_INVALID, eevdf_hand_renumber(&full, tasks[at]));
		ANSWERS(EEVDF_INVALID, eevdf_take(&queue, &full, tasks[at]));
		ANSWERS(EEVDF_INVALID, eevdf_pull_task(&other, &queue, tasks[at]));
		ANSWERS(EEVDF_INVALID, eevdf_entry_of(&queue, tasks[at], &entry));
		ANSWERS(EEVDF_INVALID, eevdf_sleeper_of(&queue, tasks[at], &sleeper));
		ANSWERS(EEVDF_INVALID, eevdf_place_of(&queue, tasks[at], &place));
		ANSWERS(EEVDF_INVALID, eevdf_lag(&queue, tasks[at], &number));
		ANSWERS(EEVDF_INVALID, eevdf_is_asleep(&queue, tasks[at]));
		ANSWERS(EEVDF_INVALID, eevdf_contains(&queue, tasks[at]));
	}
	for (size_t at = 0; at < sizeof levels / sizeof *levels; at++) {
		ANSWERS(EEVDF_INVALID, eevdf_admit(&queue, 1, levels[at], SLICE, 0));
		ANSWERS(EEVDF_INVALID, eevdf_renice(&queue, 15, levels[at]));
		ANSWERS(EEVDF_INVALID, eevdf_set(&queue, 15, levels[at], SLICE));
		ANSWERS(EEVDF_INVALID, eevdf_set(&queue, 3, levels[at], SLICE));
		ANSWERS(EEVDF_INVALID, eevdf_begin(&queue, 1, levels[at], SLICE));
		ANSWERS(EEVDF_INVALID, eevdf_begin(&queue, 3, levels[at], SLICE));
		ANSWERS(EEVDF_INVALID, eevdf_can_place(&queue, levels[at], SLICE, 0));
	}
	for (size_t at = 0; at < sizeof slices / sizeof *slices; at++) {
		ANSWERS(EEVDF_INVALID, eevdf_admit(&queue, 1, 0, slices[at], 0));
		ANSWERS(EEVDF_INVALID, eevdf_set_slice(&queue, 15, slices[at]));
		ANSWERS(EEVDF_INVALID, eevdf_set(&queue, 15, 0, slices[at]));
		ANSWERS(EEVDF_INVALID, eevdf_set(&queue, 3, 0, slices[at]));
		ANSWERS(EEVDF_INVALID, eevdf_begin(&queue, 1, 0, slices[at]));
		ANSWERS(EEVDF_INVALID, eevdf_begin(&queue, 3, 0, slices[at]));
		ANSWERS(EEVDF_INVALID, eevdf_can_place(&queue, 0, slices[at], 0));
	}
	for (size_t at = 0; at < sizeof starts / sizeof *starts; at++)
		ANSWERS(EEVDF_INVALID, eevdf_admit(&queue, 1, 0, SLICE, starts[at]));
	for (size_t at = 0; at < sizeof ticks / sizeof *ticks; at++)
		ANSWERS(EEVDF_INVALID, eevdf_tick(&other, ticks[at]));
	ANSWERS(EEVDF_INVALID, eevdf_can_place(&queue, 0, SLICE, 2 * SLICE + 1));
	ANSWERS(EEVDF_INVALID, eevdf_can_place(&queue, 0, SLICE, -2 * SLICE - 1));
	ANSWERS(1, eevdf_can_place(&queue, 0, SLICE, 2 * SLICE));
}

/* Tasks 1 and 3 are here, of which 3 sleeps, and task 2 is in the other hand. */
static void look_at_places(void)
{
	int64_t lag = 0;
	eevdf_entry entry = { 0, 0, 0, 0 };
	eevdf_sleeper sleeper = { 0, 0, 0 };
	eevdf_place place = { 0, 0 };
	eevdf_parcel parcel = { 0, 0, 0, 0, 0 };

	ANSWERS(EEVDF_PRESENT, admit_without_memory(1, EEVDF_TIME_MAX));
	ANSWERS(EEVDF_PRESENT, eevdf_admit(&queue, 3, 0, SLICE, 0));
	ANSWERS(EEVDF_NO_MEMORY, admit_without_memory(4, EEVDF_TIME_MAX));
	ANSWERS(EEVDF_RANGE, eevdf_admit(&queue, 4, 0, SLICE, EEVDF_TIME_MAX));
	ANSWERS(EEVDF_PRESENT, eevdf_wake(&queue, 1));
	DONE(eevdf_run(&queue, 1));
	ANSWERS(EEVDF_ABSENT, eevdf_run(&queue, 3));
	ANSWERS(EEVDF_ABSENT, eevdf_run(&queue, 4));
	ANSWERS(1, eevdf_running(&queue));
	eevdf_stop(&queue);
	ANSWERS(EEVDF_ABSENT, eevdf_sleep(&queue, 3));
	ANSWERS(EEVDF_ABSENT, eevdf_doze(&queue, 1, &lag));
	ANSWERS(EEVDF_ABSENT, eevdf_doze(&queue, 3, &lag));
	ANSWERS(EEVDF_ABSENT, eevdf_place_of(&queue, 1, &place));
	ANSWERS(EEVDF_ABSENT, eevdf_place_of(&queue, 3, &place));
	if (lag != 0 || place.high != 0 || place.low != 0)
		fail("an error writes a lag or a place", lag);
	ANSWERS(EEVDF_ABSENT, eevdf_renice(&queue, 3, 1));
	ANSWERS(EEVDF_ABSENT, eevdf_set(&queue, 4, 1, SLICE));
	ANSWERS(EEVDF_PRESENT, eevdf_begin(&queue, 1, 1, SLICE));
	ANSWERS(EEVDF_ABSENT, eevdf_begin(&queue, 4, 1, SLICE));
	ANSWERS(EEVDF_ABSENT, eevdf_entry_of(&queue, 3, &entry));
	ANSWERS(EEVDF_ABSENT, eevdf_sleeper_of(&queue, 1, &sleeper));
	ANSWERS(0, eevdf_sleeper_of(&queue, 3, &sleeper));
	ANSWERS(0, eevdf_lag(&queue, 3, &lag));
	if (sleeper.lag != lag || sleeper.nice != 0 || sleeper.slice_ns != SLICE)
		fail("a sleeping task has another lag, nice level or slice", sleeper.lag);
	ANSWERS(0, eevdf_hand_parcel(&full, &parcel));
	if (parcel.task != 2 || parcel.nice != 0 || parcel.slice_ns != SLICE || parcel.lag != 0)
		fail("the task in a hand is another", (int64_t)parcel.task);
	ANSWERS(1, eevdf_is_asleep(&queue, 3));
	ANSWERS(EEVDF_BUSY, eevdf_take(&queue, &full, 1));
	ANSWERS(EEVDF_BUSY, eevdf_take(&queue, &full, 9));
	ANSWERS(EEVDF_BUSY, eevdf_take_any(&queue, &full));
	ANSWERS(EEVDF_BUSY, eevdf_take_any(&other, &full));
	ANSWERS(EEVDF_ABSENT, eevdf_time_to_resched(&queue));
	ANSWERS(1, eevdf_peek(&queue));
	ANSWERS(2, eevdf_hand_task(&full));
	DONE(eevdf_admit(&queue, 2, 0, SLICE, 0));
	ANSWERS(EEVDF_PRESENT, eevdf_put(&queue, &full));
	ANSWERS(EEVDF_PRESENT, eevdf_put_asleep(&queue, &full));
}

/*
 * In the queue are 6 and 7, and it is so late there that no task of the other one can be placed. In
 * the other one 3 runs, and 7 is the candidate.
 */
static void look_at_pulls(void)
{
	DONE(eevdf_admit(&other, 3, 0, SLICE, 0));
	DONE(eevdf_admit(&other, 4, 0, SLICE, 0));
	DONE(eevdf_admit(&other, 7, 0, SLICE, 0));
	DONE(eevdf_pick(&other) - 3);
	ANSWERS(7, eevdf_candidate(&other));
	ANSWERS(EEVDF_BALANCED, eevdf_pull(&queue, &other));
	ANSWERS(EEVDF_BALANCED, eevdf_pull_task(&queue, &other, 7));
	ANSWERS(EEVDF_BALANCED, eevdf_pull_task(&queue, &other, 4));
	DONE(eevdf_admit(&other, 2, 0, SLICE, 0));
	ANSWERS(EEVDF_PRESENT, eevdf_pull(&queue, &other));
	ANSWERS(EEVDF_PRESENT, eevdf_pull_task(&queue, &other, 7));
	ANSWERS(EEVDF_RANGE, eevdf_pull_task(&queue, &other, 4));
	ANSWERS(EEVDF_ABSENT, eevdf_pull_task(&queue, &other, 3));
	ANSWERS(EEVDF_ABSENT, eevdf_pull_task(&queue, &other, 5));
	DONE(eevdf_end(&other, 7));
	DONE(eevdf_admit(&other, 8, 0, SLICE, 0));
	ANSWERS(EEVDF_RANGE, eevdf_pull(&queue, &other));
	DONE(eevdf_sleep(&other, 3));
	ANSWERS(EEVDF_ABSENT, eevdf_pull_task(&queue, &other, 3));
}

/* A task that runs on after ten yields has a request that no tick uses up, and before it has one. */
static void look_at_yields(void)
{
	DONE(eevdf_admit(&other, 9, 0, EEVDF_SLICE_MAX, 0));
	DONE(eevdf_pick(&other) - 9);
	for (int64_t yields = 1; yields <= 10; yields++) {
		ANSWERS(yields * EEVDF_SLICE_MAX, eevdf_time_to_resched(&other));
		DONE(eevdf_yield(&other));
	}
	ANSWERS(EEVDF_ABSENT, eevdf_time_to_resched(&other));
	ANSWERS(9, eevdf_running(&other));
	DONE(eevdf_end(&other, 9));
}

/* A queue whose tasks stand at the upper end of the range. */
static void look_at_range(void)
{
	const int64_t last = EEVDF_TIME_MAX - SLICE;

	eevdf_close(&queue);
	DONE(eevdf_admit(&queue, 5, 0, SLICE, last));
	DONE(eevdf_pick(&queue) - 5);
	ANSWERS(EEVDF_RANGE, eevdf_tick(&queue, EEVDF_TICK_MAX));
	ANSWERS(EEVDF_RANGE, eevdf_tick(&queue, SLICE));
	ANSWERS(SLICE, eevdf_time_to_resched(&queue));
	ANSWERS(EEVDF_RANGE, eevdf_yield(&queue));
	ANSWERS(EEVDF_RANGE, eevdf_renice(&queue, 5, 19));
	ANSWERS(EEVDF_RANGE, eevdf_set(&queue, 5, 19, EEVDF_SLICE_MIN));
	DONE(eevdf_sleep(&queue, 5));
	DONE(eevdf_admit(&queue, 6, 0, SLICE, last));
	DONE(eevdf_admit(&queue, 7, 0, EEVDF_SLICE_MIN, EEVDF_TIME_MAX - EEVDF_SLICE_MIN));
	ANSWERS(EEVDF_RANGE, eevdf_wake(&queue, 5));
	ANSWERS(EEVDF_RANGE, eevdf_put(&queue, &full));
	ANSWERS(0, eevdf_can_place(&queue, 0, SLICE, 0));
	ANSWERS(1, eevdf_can_place(&queue, 0, EEVDF_SLICE_MIN, EEVDF_SLICE_MIN));
	ANSWERS(2, eevdf_hand_task(&full));
}

int main(void)
{
	if (eevdf_version() != EEVDF_VERSION)
		fail("eevdf_version", eevdf_version());
	if (eevdf_queue_size() != EEVDF_QUEUE_SIZE)
		fail("eevdf_queue_size", eevdf_queue_size());
	if (eevdf_hand_size() != EEVDF_HAND_SIZE)
		fail("eevdf_hand_size", eevdf_hand_size());
	eevdf_open(&queue);
	eevdf_open(&other);
	eevdf_hand_open(&hand);
	eevdf_hand_open(&full);
	look_at_empty();
	DONE(eevdf_admit(&other, 2, 0, SLICE, 0));
	DONE(eevdf_take(&other, &full, 2));
	DONE(eevdf_admit(&queue, 3, 0, SLICE, 0));
	DONE(eevdf_pick(&queue) - 3);
	DONE(eevdf_sleep(&queue, 3));
	DONE(eevdf_admit(&queue, 1, 0, SLICE, 0));
	look_at_numbers();
	look_at_places();
	look_at_yields();
	look_at_range();
	look_at_pulls();
	eevdf_hand_close(&full);
	eevdf_hand_close(&hand);
	eevdf_close(&queue);
	eevdf_close(&other);
	printf("%u answers looked at, %u of them wrong\n", looked_at, failed);
	return failed > 0;
}

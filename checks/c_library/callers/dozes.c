/*
 * dozes.c: a task that dozes leaves with a debt, keeps nothing of it, and is held to its place:
 * a rebase, another nice level and another slice take nothing from it; a fresh start, a hand and an
 * end take it all. A place that many rebases have lowered or raised comes in both halves. Ends with
 * 1 where an answer or a number is another.
 */
#include <eevdf.h>
#include <stdio.h>
#include <stdlib.h>

enum { SLICE = 3000000, DOZER = 9, OTHER = 10, REBASES = 32 };

static eevdf_queue queue;
static eevdf_hand hand;
static unsigned failed, looked_at;

eevdf_memory eevdf_alloc(size_t size, size_t align)
{
	(void)align;
	return (eevdf_memory){ 1, malloc(size) };
}

void eevdf_dealloc(void *block)
{
	free(block);
}

static void look(const char *what, int64_t found, int64_t wanted)
{
	looked_at++;
	if (found == wanted)
		return;
	printf("FAILED: %s: %lld where it is %lld\n", what, (long long)found, (long long)wanted);
	failed++;
}

static void look_at_place(const char *what, int64_t high, uint64_t low)
{
	eevdf_place place = { 77, 77 };

	look(what, eevdf_place_of(&queue, DOZER, &place), 0);
	look(what, place.high, high);
	look(what, (int64_t)place.low, (int64_t)low);
}

/* Where a task has no place nothing is written. */
static void look_at_no_place(const char *what)
{
	eevdf_place place = { 77, 77 };

	look(what, eevdf_place_of(&queue, DOZER, &place), EEVDF_ABSENT);
	look(what, place.high, 77);
	look(what, (int64_t)place.low, 77);
}

/* The first task runs ten slices beside the other one, and dozes. */
static void doze_with_a_debt(int64_t start)
{
	eevdf_sleeper sleeper = { 1, 1, 1 };
	int64_t lag = 77;

	eevdf_open(&queue);
	look("admit", eevdf_admit(&queue, DOZER, 0, SLICE, start), 0);
	look("admit", eevdf_admit(&queue, OTHER, 0, SLICE, start), 0);
	look("pick", eevdf_pick(&queue), DOZER);
	look("tick", eevdf_tick(&queue, 10 * SLICE), 1);
	look("doze of one that waits", eevdf_doze(&queue, OTHER, &lag), EEVDF_ABSENT);
	look("lag of one that waits", lag, 77);
	look("doze", eevdf_doze(&queue, DOZER, &lag), 0);
	look("lag of a doze, cut to two slices", lag, -2 * SLICE);
	look("doze of one that dozes", eevdf_doze(&queue, DOZER, &lag), EEVDF_ABSENT);
	look("lag of one that dozes", lag, -2 * SLICE);
	look("running", eevdf_running(&queue), EEVDF_ABSENT);
	look("is_asleep", eevdf_is_asleep(&queue, DOZER), 1);
	look("sleeper_of", eevdf_sleeper_of(&queue, DOZER, &sleeper), 0);
	look("lag that is kept", sleeper.lag, 0);
	look("nice level that is kept", sleeper.nice, 0);
	look("slice that is kept", (int64_t)sleeper.slice_ns, SLICE);
}

static void look_at_wake(void)
{
	eevdf_entry entry = { 0, 0, 0, 0 };
	int64_t by = 0;

	doze_with_a_debt(-10);
	look_at_place("place", 0, 10 * SLICE - 10);
	look("rebase", eevdf_rebase(&queue, &by), 0);
	look("by", by, -10);
	look_at_place("place after a rebase", 0, 10 * SLICE);
	look("set_slice", eevdf_set_slice(&queue, DOZER, 2 * SLICE), 0);
	look("set", eevdf_set(&queue, DOZER, 0, SLICE), 0);
	look_at_place("place after another slice", 0, 10 * SLICE);
	look("wake", eevdf_wake(&queue, DOZER), 0);
	look_at_no_place("place of one that is runnable");
	look("entry_of", eevdf_entry_of(&queue, DOZER, &entry), 0);
	look("virtual runtime", entry.vruntime, 10 * SLICE);
	look("deadline", entry.deadline, 11 * SLICE);
	eevdf_close(&queue);
}

/* What takes the place away: then a wake is at the virtual time. */
static void look_at_lost_places(void)
{
	eevdf_entry entry = { 0, 0, 0, 0 };

	doze_with_a_debt(0);
	look("begin", eevdf_begin(&queue, DOZER, 0, SLICE), 0);
	look_at_no_place("place of one that begins anew");
	look("wake", eevdf_wake(&queue, DOZER), 0);
	look("entry_of", eevdf_entry_of(&queue, DOZER, &entry), 0);
	look("virtual runtime of one that begins anew", entry.vruntime, 0);
	eevdf_close(&queue);
	doze_with_a_debt(0);
	eevdf_hand_open(&hand);
	look("take", eevdf_take(&queue, &hand, DOZER), 0);
	look_at_no_place("place of one in a hand");
	look("put_asleep", eevdf_put_asleep(&queue, &hand), 0);
	look_at_no_place("place of one that comes back");
	eevdf_close(&queue);
	doze_with_a_debt(0);
	look("end", eevdf_end(&queue, DOZER), 0);
	look("admit", eevdf_admit(&queue, DOZER, 0, SLICE, 0), 0);
	look("run", eevdf_run(&queue, DOZER), 0);
	look("sleep", eevdf_sleep(&queue, DOZER), 0);
	look_at_no_place("place of another of this number");
	eevdf_close(&queue);
}

/* One that wakes early is put by its lag where that is later than its place. */
static void look_at_placement(void)
{
	eevdf_entry entry = { 0, 0, 0, 0 };
	int64_t lag = 0;

	eevdf_open(&queue);
	look("admit", eevdf_admit(&queue, DOZER, 0, SLICE, -5), 0);
	look("admit", eevdf_admit(&queue, OTHER, 0, SLICE, -1), 0);
	look("run", eevdf_run(&queue, DOZER), 0);
	look("doze", eevdf_doze(&queue, DOZER, &lag), 0);
	look("lag that it is owed", lag, 2);
	look_at_place("place below 0", -1, UINT64_MAX - 4);
	look("run", eevdf_run(&queue, OTHER), 0);
	look("tick", eevdf_tick(&queue, 101), 0);
	look("wake", eevdf_wake(&queue, DOZER), 0);
	look("entry_of", eevdf_entry_of(&queue, DOZER, &entry), 0);
	look("virtual runtime by its lag", entry.vruntime, 100 - 4);
	eevdf_close(&queue);
}

/* Rebases by 2^64 in all, while it dozes. */
static void rebase_far(int64_t time)
{
	int64_t by = 0;

	for (int turn = 0; turn < REBASES; turn++) {
		look("end", eevdf_end(&queue, OTHER), 0);
		look("admit", eevdf_admit(&queue, OTHER, 0, SLICE, time), 0);
		look("rebase", eevdf_rebase(&queue, &by), 0);
		look("by", by, time);
	}
}

static void look_at_far_places(void)
{
	const int64_t time = EEVDF_TIME_MAX / 2;
	eevdf_entry entry = { 0, 0, 0, 0 };

	doze_with_a_debt(0);
	rebase_far(time);
	look_at_place("place that is far lower", -1, 10 * SLICE);
	rebase_far(-time);
	look_at_place("place as it was", 0, 10 * SLICE);
	rebase_far(-time);
	look_at_place("place that is far higher", 1, 10 * SLICE);
	look("wake that is out of range", eevdf_wake(&queue, DOZER), EEVDF_RANGE);
	look_at_place("place after it", 1, 10 * SLICE);
	rebase_far(time);
	rebase_far(time);
	look("wake", eevdf_wake(&queue, DOZER), 0);
	look("entry_of", eevdf_entry_of(&queue, DOZER, &entry), 0);
	look("virtual runtime where the place is far lower", entry.vruntime, 0);
	eevdf_close(&queue);
}

int main(void)
{
	look_at_wake();
	look_at_lost_places();
	look_at_placement();
	look_at_far_places();
	printf("%u things looked at, %u of them wrong\n", looked_at, failed);
	return failed > 0;
}

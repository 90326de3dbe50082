/*
 * moved.c: makes the same drawn calls on a queue and a hand that stay where they are, and on others
 * that are copied to another place before each turn, where the bytes that they leave are
 * overwritten. Both answer alike and are in the same state. Ends with 1 where they differ, or where
 * a block of a task isn't given back in the end.
 */
#include "state.h"

#include <stdio.h>
#include <stdlib.h>

enum { TURNS = 1000, TASKS = STATE_TASKS, MARK = 0xa5, PLACES = 3 };

/* The calls that change a queue or a hand; the first ones are drawn more often. */
enum {
	ADMIT, PICK, TICK, OFTEN,
	YIELD = OFTEN, RUN, STOP, SLEEP, DOZE, WAKE, END, RENICE, SET_SLICE, SET, BEGIN, REBASE,
	TAKE, TAKE_ANY, RENUMBER, PUT, PUT_ASLEEP,
	CALLS
};

/* A queue and a hand, in one of several places each. */
struct side {
	eevdf_queue queues[PLACES];
	eevdf_hand hands[PLACES];
	unsigned at;
};

struct call {
	uint64_t kind, task, slice_ns, ns;
	int64_t nice;
};

static struct side still, moving;
static uint64_t word = 1;
static int blocks;

eevdf_memory eevdf_alloc(size_t size, size_t align)
{
	(void)align;
	blocks++;
	return (eevdf_memory){ 1, malloc(size) };
}

void eevdf_dealloc(void *block)
{
	blocks--;
	free(block);
}

static uint64_t drawn(uint64_t below)
{
	word = word * 6364136223846793005u + 1442695040888963407u;
	return (word >> 33) % below;
}

/* Copies both to the next place, and overwrites what they leave. */
static void move(struct side *side)
{
	const unsigned from = side->at, to = (from + 1) % PLACES;

	memcpy(&side->queues[to], &side->queues[from], sizeof(eevdf_queue));
	memset(&side->queues[from], MARK, sizeof(eevdf_queue));
	memcpy(&side->hands[to], &side->hands[from], sizeof(eevdf_hand));
	memset(&side->hands[from], MARK, sizeof(eevdf_hand));
	side->at = to;
}

static int64_t answer_to(struct side *side, const struct call *call)
{
	eevdf_queue *queue = &side->queues[side->at];
	eevdf_hand *hand = &side->hands[side->at];
	int64_t number = 0;

	switch (call->kind) {
	case ADMIT:
		eevdf_floor_time(queue, &number);
		return eevdf_admit(queue, call->task, call->nice, call->slice_ns, number);
	case PICK:
		return eevdf_pick(queue);
	case TICK:
		return eevdf_tick(queue, call->ns);
	case YIELD:
		return eevdf_yield(queue);
	case RUN:
		return eevdf_run(queue, call->task);
	case STOP:
		return eevdf_stop(queue);
	case SLEEP:
		return eevdf_sleep(queue, (uint64_t)eevdf_running(queue));
	case DOZE:
		return eevdf_doze(queue, (uint64_t)eevdf_running(queue), &number) + (number > 0);
	case WAKE:
		return eevdf_wake(queue, call->task);
	case END:
		return eevdf_end(queue, call->task);
	case RENICE:
		return eevdf_renice(queue, call->task, call->nice);
	case SET_SLICE:
		return eevdf_set_slice(queue, call->task, call->slice_ns);
	case SET:
		return eevdf_set(queue, call->task, call->nice, call->slice_ns);
	case BEGIN:
		return eevdf_begin(queue, call->task, call->nice, call->slice_ns);
	case REBASE:
		return eevdf_rebase(queue, &number) + number;
	case TAKE:
		return eevdf_take(queue, hand, call->task);
	case TAKE_ANY:
		return eevdf_take_any(queue, hand);
	case RENUMBER:
		return eevdf_hand_renumber(hand, call->task);
	case PUT:
		return eevdf_put(queue, hand);
	default:
		return eevdf_put_asleep(queue, hand);
	}
}

static struct state state_of_side(const struct side *side)
{
	return state_of(&side->queues[side->at], &side->hands[side->at]);
}

static void open(struct side *side)
{
	eevdf_open(&side->queues[side->at]);
	eevdf_hand_open(&side->hands[side->at]);
}

static void close(struct side *side)
{
	eevdf_close(&side->queues[side->at]);
	eevdf_hand_close(&side->hands[side->at]);
}

int main(void)
{
	unsigned failed = 0, done = 0;

	open(&still);
	open(&moving);
	for (unsigned turn = 0; turn < TURNS; turn++) {
		const uint64_t kind = drawn(2 * CALLS);
		const struct call call = {
			.kind = kind < CALLS ? kind : kind % OFTEN,
			.task = drawn(TASKS),
			.slice_ns = EEVDF_SLICE_MIN + drawn(3000000),
			.ns = EEVDF_TICK_MIN + drawn(3000000),
			.nice = (int64_t)drawn(40) + EEVDF_NICE_MIN,
		};
		int64_t answer = answer_to(&still, &call);
		struct state wanted = state_of_side(&still), found;

		move(&moving);
		if (answer_to(&moving, &call) != answer)
			failed++;
		found = state_of_side(&moving);
		if (!is_same(&wanted, &found))
			failed++;
		done += answer >= 0;
	}
	move(&moving);
	close(&still);
	close(&moving);
	if (blocks != 0)
		failed++;
	printf("%u turns, of %u the call did something, %u things wrong\n", TURNS, done, failed);
	return failed != 0;
}

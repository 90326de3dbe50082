/*
 * blocks.c: makes the same drawn calls on a queue whose tasks have blocks that the library asks for,
 * and on another whose tasks come in blocks of the caller's and leave them: eevdf_admit_in in the
 * place of eevdf_admit, eevdf_end_out in that of eevdf_end, eevdf_hand_end_out in that of
 * eevdf_hand_close. Both answer alike and are in the same state. On the other queue the library asks
 * for nothing and gives nothing back but by `block`; the bytes around each block stay as they are,
 * and each comes back. Without a block, and where there is one already, these calls say so and
 * change nothing. Ends with 1 where it isn't so.
 */
#include "state.h"

#include <stdbool.h>
#include <stdio.h>
#include <stdlib.h>

enum { TURNS = 4000, TASKS = STATE_TASKS, EDGE = 64, MARK = 0xa5, BLOCK = EEVDF_TASK_SIZE, BLOCKS = 64 };

/* The calls that change a queue or a hand; the first ones are drawn more often. */
enum {
	ADMIT, END, PICK, TICK, OFTEN,
	YIELD = OFTEN, RUN, STOP, SLEEP, DOZE, WAKE, RENICE, SET_SLICE, SET, BEGIN, REBASE, TAKE,
	TAKE_ANY, RENUMBER, PUT, PUT_ASLEEP, END_HELD,
	CALLS
};

struct side {
	eevdf_queue queue;
	eevdf_hand hand;
	bool is_given;
};

struct call {
	uint64_t kind, task, slice_ns, ns;
	int64_t nice, start;
};

static struct side asked, given = { .is_given = true };
static uint64_t word = 1;
static unsigned char *rooms[BLOCKS];
static int asked_for;
static unsigned failed;
static bool may_ask = true;

eevdf_memory eevdf_alloc(size_t size, size_t align)
{
	(void)align;
	failed += !may_ask;
	asked_for++;
	return (eevdf_memory){ 1, malloc(size) };
}

void eevdf_dealloc(void *block)
{
	failed += !may_ask;
	asked_for--;
	free(block);
}

static uint64_t drawn(uint64_t below)
{
	word = word * 6364136223846793005u + 1442695040888963407u;
	return (word >> 33) % below;
}

/* A block with marked bytes around it. */
static eevdf_block new_block(void)
{
	for (unsigned at = 0; at < BLOCKS; at++)
		if (!rooms[at]) {
			rooms[at] = malloc(BLOCK + 2 * EDGE);
			memset(rooms[at], MARK, BLOCK + 2 * EDGE);
			return (eevdf_block){ rooms[at] + EDGE };
		}
	abort();
}

/* Frees the block that has come back, or that wasn't taken. */
static void free_block(eevdf_block block)
{
	unsigned char *room = (unsigned char *)block.at - EDGE;

	for (unsigned at = 0; at < BLOCKS; at++)
		if (rooms[at] == room) {
			for (unsigned edge = 0; edge < EDGE; edge++)
				failed += room[edge] != MARK || room[EDGE + BLOCK + edge] != MARK;
			rooms[at] = NULL;
			free(room);
			return;
		}
	failed++;
}

/* Without a block a task isn't admitted, and nothing changes. */
static void admit_in_none(struct side *side, const struct call *call, int64_t answer_with)
{
	const bool is_early = answer_with == EEVDF_INVALID || answer_with == EEVDF_PRESENT;
	eevdf_block none = { NULL };
	struct state before = state_of(&side->queue, &side->hand), after;
	int64_t answer = eevdf_admit_in(&side->queue, &none, call->task, call->nice, call->slice_ns, call->start);

	after = state_of(&side->queue, &side->hand);
	failed += answer != (is_early ? answer_with : EEVDF_NO_MEMORY) || none.at || !is_same(&before, &after);
}

/* Where there is a block already a task isn't ended, and nothing changes. */
static void end_out_full(struct side *side, uint64_t task)
{
	eevdf_block block = new_block(), full = block;
	struct state before = state_of(&side->queue, &side->hand), after;
	int64_t answer = eevdf_end_out(&side->queue, &full, task);

	after = state_of(&side->queue, &side->hand);
	failed += answer != (task < EEVDF_TASKS ? EEVDF_BUSY : EEVDF_INVALID) || full.at != block.at || !is_same(&before, &after);
	free_block(block);
}

static int64_t admit(struct side *side, const struct call *call)
{
	eevdf_block block, left;
	int64_t answer;

	if (!side->is_given)
		return eevdf_admit(&side->queue, call->task, call->nice, call->slice_ns, call->start);
	block = left = new_block();
	answer = eevdf_admit_in(&side->queue, &left, call->task, call->nice, call->slice_ns, call->start);
	failed += left.at != (answer == 0 ? NULL : block.at);
	if (answer != 0) {
		free_block(block);
		admit_in_none(side, call, answer);
	}
	return answer;
}

static int64_t end(struct side *side, uint64_t task)
{
	eevdf_block block = { NULL };
	int64_t answer;

	if (!side->is_given)
		return eevdf_end(&side->queue, task);
	end_out_full(side, task);
	answer = eevdf_end_out(&side->queue, &block, task);
	failed += (answer == 0) != (block.at != NULL);
	if (block.at)
		free_block(block);
	return answer;
}

/* Where there is a block already the task of a hand isn't ended, and nothing changes. */
static void hand_end_out_full(struct side *side)
{
	eevdf_block block = new_block(), full = block;
	struct state before = state_of(&side->queue, &side->hand), after;
	int64_t answer = eevdf_hand_end_out(&side->hand, &full);

	after = state_of(&side->queue, &side->hand);
	failed += answer != EEVDF_BUSY || full.at != block.at || !is_same(&before, &after);
	free_block(block);
}

/* Ends the task of a hand, if there is one. */
static int64_t end_held(struct side *side)
{
	const int64_t task = eevdf_hand_task(&side->hand), wanted = task < 0 ? EEVDF_ABSENT : 0;
	eevdf_block block = { NULL };

	if (!side->is_given) {
		eevdf_hand_close(&side->hand);
		return wanted;
	}
	hand_end_out_full(side);
	failed += eevdf_hand_end_out(&side->hand, &block) != wanted;
	failed += (block.at != NULL) != (wanted == 0) || eevdf_hand_task(&side->hand) != EEVDF_ABSENT;
	if (block.at)
		free_block(block);
	return wanted;
}

static int64_t answer_to(struct side *side, const struct call *call)
{
	eevdf_queue *queue = &side->queue;
	eevdf_hand *hand = &side->hand;
	int64_t number = 0;

	switch (call->kind) {
	case ADMIT:
		return admit(side, call);
	case END:
		return end(side, call->task);
	case PICK:
		return eevdf_pick(queue);
	case TICK:
		return eevdf_tick(queue, call->ns);
	case YIELD:
		return eevdf_yield(queue);
	case RUN:
		return eevdf_run(queue, call->task);
	case STOP:
		return eevdf_stop(queue);
	case SLEEP:
		return eevdf_sleep(queue, (uint64_t)eevdf_running(queue));
	case DOZE:
		return eevdf_doze(queue, (uint64_t)eevdf_running(queue), &number) + (number > 0);
	case WAKE:
		return eevdf_wake(queue, call->task);
	case RENICE:
		return eevdf_renice(queue, call->task, call->nice);
	case SET_SLICE:
		return eevdf_set_slice(queue, call->task, call->slice_ns);
	case SET:
		return eevdf_set(queue, call->task, call->nice, call->slice_ns);
	case BEGIN:
		return eevdf_begin(queue, call->task, call->nice, call->slice_ns);
	case REBASE:
		return eevdf_rebase(queue, &number) + number;
	case TAKE:
		return eevdf_take(queue, hand, call->task);
	case TAKE_ANY:
		return eevdf_take_any(queue, hand);
	case RENUMBER:
		return eevdf_hand_renumber(hand, call->task);
	case PUT:
		return eevdf_put(queue, hand);
	case PUT_ASLEEP:
		return eevdf_put_asleep(queue, hand);
	default:
		return end_held(side);
	}
}

/* A call whose numbers are now and then out of their limits, or so late that a deadline is. */
static struct call drawn_call(void)
{
	const uint64_t kind = drawn(2 * CALLS);
	struct call call = {
		.kind = kind < CALLS ? kind : kind % OFTEN,
		.task = drawn(100) ? drawn(TASKS) : EEVDF_TASKS,
		.slice_ns = drawn(100) ? EEVDF_SLICE_MIN + drawn(3000000) : 1,
		.ns = EEVDF_TICK_MIN + drawn(3000000),
		.nice = (int64_t)drawn(40) + EEVDF_NICE_MIN,
	};

	eevdf_floor_time(&asked.queue, &call.start);
	if (drawn(20) == 0)
		call.start = EEVDF_TIME_MAX;
	return call;
}

/* Ends the tasks one by one, and that of the hand, if there is one. */
static void end_all(struct side *side)
{
	for (uint64_t task = 0; task < TASKS; task++)
		end(side, task);
	end_held(side);
	eevdf_close(&side->queue);
	eevdf_hand_close(&side->hand);
}

int main(void)
{
	unsigned done = 0;

	eevdf_open(&asked.queue);
	eevdf_hand_open(&asked.hand);
	eevdf_open(&given.queue);
	eevdf_hand_open(&given.hand);
	for (unsigned turn = 0; turn < TURNS; turn++) {
		const struct call call = drawn_call();
		struct state wanted, found;
		int64_t answer;

		may_ask = true;
		answer = answer_to(&asked, &call);
		wanted = state_of(&asked.queue, &asked.hand);
		may_ask = false;
		failed += answer_to(&given, &call) != answer;
		found = state_of(&given.queue, &given.hand);
		failed += !is_same(&wanted, &found);
		done += answer >= 0;
	}
	end_all(&given);
	may_ask = true;
	end_all(&asked);
	failed += asked_for != 0;
	for (unsigned at = 0; at < BLOCKS; at++)
		failed += rooms[at] != NULL;
	printf("%u turns, of %u the call did something, %u things wrong\n", TURNS, done, failed);
	return failed != 0;
}

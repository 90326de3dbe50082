/*
 * fair.c: makes the same drawn calls on a queue with bounds beside it, by the eevdf_fair_ calls, and
 * on another by those that they stand for. Both answer alike and are in the same state, and an error
 * leaves what the bounds say. At every moment the virtual time is past the deadline of no runnable
 * task by more than they say, reckoned here from all entries, to the last unit. Ends with 1 where it
 * isn't so.
 */
#include "state.h"

#include <stdbool.h>
#include <stdio.h>
#include <stdlib.h>

enum { TURNS = 40000, EPOCH = 80, TASKS = STATE_TASKS, MARK = 0xa5, EDGE = 64, LEVELS = EEVDF_NICE_MAX - EEVDF_NICE_MIN + 1 };

/* The calls that change a queue or a hand; the first ones are drawn more often. */
enum {
	ADMIT, ADMIT_IN, END, PICK, TICK, OFTEN,
	YIELD = OFTEN, RUN, STOP, SLEEP, DOZE, WAKE, RENICE, SET_SLICE, SET, BEGIN, REBASE, TAKE,
	TAKE_ANY, PUT, PUT_ASLEEP, NO_BLOCK,
	CALLS
};

__extension__ typedef __int128 wide;

struct side {
	eevdf_queue queue;
	eevdf_hand hand;
	bool is_fair;
};

struct call {
	uint64_t kind, task, slice_ns, ns;
	int64_t nice, start;
};

static struct side fair = { .is_fair = true }, plain;
static struct {
	unsigned char before[EDGE];
	eevdf_bounds bounds;
	unsigned char after[EDGE];
} room;
static uint64_t word = 1;
/* Of the queues that stand: how many tasks there are, how long a tick is at most, and how far from the virtual time a start is. */
static uint64_t numbers, longest, off;
static int64_t weight[LEVELS];
static unsigned failed;
static bool refuses;

eevdf_memory eevdf_alloc(size_t size, size_t align)
{
	static uint64_t none;

	(void)align;
	return refuses ? (eevdf_memory){ 0, &none } : (eevdf_memory){ 1, malloc(size) };
}

void eevdf_dealloc(void *block)
{
	free(block);
}

static uint64_t drawn(uint64_t below)
{
	word = word * 6364136223846793005u + 1442695040888963407u;
	return (word >> 33) % below;
}

/* What each nice level weighs, as a queue with one such task says. */
static void read_weights(void)
{
	static eevdf_queue queue;

	eevdf_open(&queue);
	for (int level = 0; level < LEVELS; level++) {
		eevdf_admit(&queue, 0, EEVDF_NICE_MIN + level, EEVDF_SLICE_MIN, 0);
		weight[level] = eevdf_load(&queue);
		eevdf_end(&queue, 0);
	}
	eevdf_close(&queue);
}

static int64_t admit_in(struct side *side, const struct call *call, void *at)
{
	eevdf_block block = { at };
	int64_t answer;

	if (side->is_fair)
		answer = eevdf_fair_admit_in(&room.bounds, &side->queue, &block, call->task, call->nice, call->slice_ns, call->start);
	else
		answer = eevdf_admit_in(&side->queue, &block, call->task, call->nice, call->slice_ns, call->start);
	failed += block.at != (answer == 0 ? NULL : at);
	free(block.at);
	return answer;
}

/* A call that has another beside bounds. */
static int64_t answer_beside(struct side *side, const struct call *call)
{
	eevdf_bounds *bounds = &room.bounds;
	eevdf_queue *queue = &side->queue;
	int64_t number = 0;

	switch (call->kind) {
	case ADMIT:
		return eevdf_fair_admit(bounds, queue, call->task, call->nice, call->slice_ns, call->start);
	case PICK:
		return eevdf_fair_pick(bounds, queue);
	case TICK:
		return eevdf_fair_tick(bounds, queue, call->ns);
	case RUN:
		return eevdf_fair_run(bounds, queue, call->task);
	case WAKE:
		return eevdf_fair_wake(bounds, queue, call->task);
	case RENICE:
		return eevdf_fair_renice(bounds, queue, call->task, call->nice);
	case SET:
		return eevdf_fair_set(bounds, queue, call->task, call->nice, call->slice_ns);
	case REBASE:
		return eevdf_fair_rebase(bounds, queue, &number) + number;
	default:
		return eevdf_fair_put(bounds, queue, &side->hand);
	}
}

static int64_t answer_alone(struct side *side, const struct call *call)
{
	eevdf_queue *queue = &side->queue;
	int64_t number = 0;

	switch (call->kind) {
	case ADMIT:
		return eevdf_admit(queue, call->task, call->nice, call->slice_ns, call->start);
	case PICK:
		return eevdf_pick(queue);
	case TICK:
		return eevdf_tick(queue, call->ns);
	case RUN:
		return eevdf_run(queue, call->task);
	case WAKE:
		return eevdf_wake(queue, call->task);
	case RENICE:
		return eevdf_renice(queue, call->task, call->nice);
	case SET:
		return eevdf_set(queue, call->task, call->nice, call->slice_ns);
	case REBASE:
		return eevdf_rebase(queue, &number) + number;
	default:
		return eevdf_put(queue, &side->hand);
	}
}

static int64_t answer_to(struct side *side, const struct call *call)
{
	eevdf_queue *queue = &side->queue;
	int64_t lag = 0;

	switch (call->kind) {
	case ADMIT_IN:
		return admit_in(side, call, malloc(EEVDF_TASK_SIZE));
	case NO_BLOCK:
		return admit_in(side, call, NULL);
	case END:
		return eevdf_end(queue, call->task);
	case YIELD:
		return eevdf_yield(queue);
	case STOP:
		return eevdf_stop(queue);
	case SLEEP:
		return eevdf_sleep(queue, (uint64_t)eevdf_running(queue));
	case DOZE:
		return eevdf_doze(queue, (uint64_t)eevdf_running(queue), &lag);
	case SET_SLICE:
		return eevdf_set_slice(queue, call->task, call->slice_ns);
	case BEGIN:
		return eevdf_begin(queue, call->task, call->nice, call->slice_ns);
	case TAKE:
		return eevdf_take(queue, &side->hand, call->task);
	case TAKE_ANY:
		return eevdf_take_any(queue, &side->hand);
	case PUT_ASLEEP:
		return eevdf_put_asleep(queue, &side->hand);
	default:
		return side->is_fair ? answer_beside(side, call) : answer_alone(side, call);
	}
}

/* A call whose numbers are now and then out of their limits, or so late that a deadline is. */
static struct call drawn_call(void)
{
	const uint64_t kind = drawn(2 * CALLS);
	struct call call = {
		.kind = kind < CALLS ? kind : kind % OFTEN,
		.task = drawn(100) ? drawn(numbers) : EEVDF_TASKS,
		.slice_ns = drawn(100) ? EEVDF_SLICE_MIN + drawn(3000000) : 1,
		.ns = drawn(100) ? EEVDF_TICK_MIN + drawn(longest) : 0,
		.nice = drawn(100) ? (int64_t)drawn(LEVELS) + EEVDF_NICE_MIN : EEVDF_NICE_MAX + 1,
	};

	eevdf_floor_time(&plain.queue, &call.start);
	call.start += (int64_t)drawn(2 * off + 1) - (int64_t)off;
	if (drawn(100) == 0)
		call.start = EEVDF_TIME_MAX;
	return call;
}

/* What the bounds say of all and of each. */
struct said {
	int64_t of_all, in_time, of[TASKS], answer[TASKS];
};

static struct said said_now(void)
{
	struct said said;

	memset(&said, 0, sizeof said);
	said.of_all = eevdf_fair_lateness_bound(&room.bounds, &fair.queue);
	failed += eevdf_fair_lateness_bound_in_time(&room.bounds, &fair.queue, &said.in_time) != 0;
	for (uint64_t task = 0; task < TASKS; task++)
		said.answer[task] = eevdf_fair_lateness_bound_of(&room.bounds, &fair.queue, task, &said.of[task]);
	return said;
}

/* The virtual time is past no deadline by more than is said. Gives by how much it is past one, at most. */
static int64_t look_at_lateness(const struct said *said, const struct state *state)
{
	wide moment = 0;
	int64_t load = state->load, latest = 0;

	for (unsigned task = 0; task < TASKS; task++)
		if (state->is_runnable[task] == 0)
			moment += (wide)state->entry[task].vruntime * weight[state->entry[task].nice - EEVDF_NICE_MIN];
	for (unsigned task = 0; task < TASKS; task++) {
		const int64_t deadline = state->entry[task].deadline;
		int64_t late;

		failed += said->answer[task] != state->is_runnable[task];
		if (state->is_runnable[task] != 0) {
			failed += said->of[task] != 0;
			continue;
		}
		failed += moment > ((wide)deadline + said->of_all) * load;
		failed += moment > ((wide)deadline + said->of[task]) * load;
		late = (int64_t)((moment - (wide)deadline * load) / load);
		latest = late > latest ? late : latest;
	}
	failed += state->len == 0 && said->of_all != 0;
	/* so many nanoseconds take the virtual time so far, and one less doesn't */
	failed += (wide)said->in_time * 1024 < (wide)said->of_all * load;
	failed += said->in_time > 0 && ((wide)said->in_time - 1) * 1024 >= (wide)said->of_all * load;
	return latest;
}

static void open_all(void)
{
	numbers = 2 + drawn(drawn(2) ? 3 : TASKS - 1);
	longest = drawn(2) ? 300000 : 3000000;
	off = drawn(2) ? 0 : 1000000;
	memset(&room, MARK, sizeof room);
	eevdf_open(&fair.queue);
	eevdf_hand_open(&fair.hand);
	eevdf_open(&plain.queue);
	eevdf_hand_open(&plain.hand);
	eevdf_fair_open(&room.bounds);
}

static void close_all(void)
{
	eevdf_hand_close(&fair.hand);
	eevdf_hand_close(&plain.hand);
	eevdf_close(&fair.queue);
	eevdf_close(&plain.queue);
	for (unsigned at = 0; at < EDGE; at++)
		failed += room.before[at] != MARK || room.after[at] != MARK;
}

/* A drawn call, on both sides. Whether it did something, and by how much the virtual time is past a deadline then. */
static bool take_turn(int64_t *late)
{
	const struct call call = drawn_call();
	const struct said before = said_now();
	struct said after;
	struct state found, wanted;
	int64_t answer;

	refuses = drawn(20) == 0;
	answer = answer_to(&fair, &call);
	failed += answer_to(&plain, &call) != answer;
	found = state_of(&fair.queue, &fair.hand);
	wanted = state_of(&plain.queue, &plain.hand);
	failed += !is_same(&found, &wanted);
	after = said_now();
	*late = look_at_lateness(&after, &found);
	if (answer < 0 && call.kind != REBASE)
		failed += memcmp(&before, &after, sizeof after) != 0;
	return answer >= 0;
}

int main(void)
{
	unsigned done = 0, late_turns = 0;

	failed += eevdf_bounds_size() != EEVDF_BOUNDS_SIZE;
	read_weights();
	open_all();
	for (unsigned turn = 0; turn < TURNS; turn++) {
		int64_t late = 0;

		/* what a task out of its place has moved counts until deadlines are past it, so begin anew again and again */
		if (turn % EPOCH == 0 && turn > 0) {
			close_all();
			open_all();
		}
		done += take_turn(&late);
		late_turns += late > 0;
	}
	close_all();
	printf("%u turns, of %u the call did something, after %u a request was late, %u things wrong\n", TURNS, done, late_turns, failed);
	return failed != 0;
}

/*
 * stack.c: makes every call but those that rebase on a painted stack, then these too, and prints
 * how deep the paint is gone: in many turns over 1024 tasks, and at the deepest trees that there
 * can be. The functions for memory take from a pool, and call nothing. Ends with 1 where that is
 * more than the limits, 1024 bytes, and 1536 with those that rebase, which go over the whole tree,
 * or where a plan of a tree isn't kept.
 */
#define _GNU_SOURCE
#include "deepest.h"
#include <eevdf.h>
#include <stdbool.h>
#include <stdio.h>
#include <string.h>
#include <ucontext.h>

enum { STACK = 65536, PAINT = 0xa5, LIMIT = 1024, REBASE_LIMIT = 1536, TURNS = 100000 };

/*
 * Of a planned tree: how far apart its deadlines are, when a task starts that is early, the number
 * of one that comes besides, and one that stands for none.
 */
enum { GAP = EEVDF_SLICE_MIN, EARLY = -2 * GAP, VISITOR = EEVDF_TASKS - 1, NOBODY = EEVDF_TASKS };

/* The calls by which a task leaves its place in the tree, at once for another one or not. */
enum { TICK, YIELD, SET_SLICE, RENICE, SET, SLEEP, TAKE, TAKE_ANY, END, END_OUT, WAYS };

static _Alignas(16) unsigned char stack[STACK];
static _Alignas(16) unsigned char pool[EEVDF_TASKS + 8][EEVDF_TASK_SIZE];
static void *unused[EEVDF_TASKS + 8];
static unsigned unused_count;
static bool rebases, gives_blocks;
static struct plan plan;
static unsigned other_picks;
static eevdf_queue queue, other;
static eevdf_hand hand;
static eevdf_bounds bounds;
static eevdf_shares shares;
static eevdf_share_mark mark;
static const unsigned char *top;
static uint64_t word = 1;
static ucontext_t outside, inside;

eevdf_memory eevdf_alloc(size_t size, size_t align)
{
	if (size > EEVDF_TASK_SIZE || align > 8 || unused_count == 0)
		return (eevdf_memory){ 0, pool };
	return (eevdf_memory){ 1, unused[--unused_count] };
}

void eevdf_dealloc(void *block)
{
	unused[unused_count++] = block;
}

/* Any answer will do: such a call is made for the stack that it takes. */
static inline void ignore(int64_t answer)
{
	(void)answer;
}

static inline uint64_t drawn(uint64_t below)
{
	word = word * 6364136223846793005u + 1442695040888963407u;
	return (word >> 33) % below;
}

/* A task comes in a block of the caller's. Where it can't, the block goes back. */
static inline void admit_in(uint64_t task, int64_t nice, uint64_t slice_ns, int64_t start)
{
	eevdf_block block = { unused[--unused_count] };

	eevdf_admit_in(&queue, &block, task, nice, slice_ns, start);
	if (block.at)
		eevdf_dealloc(block.at);
}

static inline void end_out(uint64_t task)
{
	eevdf_block block = { NULL };

	eevdf_end_out(&queue, &block, task);
	if (block.at)
		eevdf_dealloc(block.at);
}

static inline void hand_end_out(void)
{
	eevdf_block block = { NULL };

	eevdf_hand_end_out(&hand, &block);
	if (block.at)
		eevdf_dealloc(block.at);
}

/* The other queue pulls the candidate, and another task if it waits, and gives both back. */
static inline void pull(uint64_t task)
{
	int64_t pulled = eevdf_pull(&other, &queue);

	if (pulled >= 0) {
		eevdf_take(&other, &hand, (uint64_t)pulled);
		ignore(eevdf_put(&queue, &hand));
	}
	if (eevdf_pull_task(&other, &queue, task) >= 0) {
		eevdf_take(&other, &hand, task);
		ignore(eevdf_put(&queue, &hand));
	}
}

/* A turn of each call that a queue has in its life. */
static inline void turn(void)
{
	uint64_t task = drawn(EEVDF_TASKS);
	int64_t running = eevdf_pick(&queue), number = 0;
	eevdf_entry entry = { 0, 0, 0, 0 };
	eevdf_sleeper sleeper = { 0, 0, 0 };
	eevdf_place place = { 0, 0 };
	eevdf_parcel parcel = { 0, 0, 0, 0, 0 };

	eevdf_peek(&queue);
	eevdf_time_to_resched(&queue);
	eevdf_tick(&queue, 1 + drawn(3000000));
	eevdf_yield(&queue);
	if (task % 2 == 0)
		eevdf_sleep(&queue, (uint64_t)running);
	else
		eevdf_doze(&queue, (uint64_t)running, &number);
	eevdf_place_of(&queue, (uint64_t)running, &place);
	eevdf_renice(&queue, task, (int64_t)drawn(40) - 20);
	eevdf_set_slice(&queue, task, 100000 + drawn(1000000));
	eevdf_set_slice(&queue, (uint64_t)running, 3000000);
	eevdf_set(&queue, task, (int64_t)drawn(40) - 20, 100000 + drawn(1000000));
	eevdf_set(&queue, (uint64_t)running, (int64_t)drawn(40) - 20, 3000000);
	eevdf_begin(&queue, task, (int64_t)drawn(40) - 20, 3000000);
	eevdf_take(&queue, &hand, task);
	eevdf_hand_parcel(&hand, &parcel);
	eevdf_hand_renumber(&hand, task);
	ignore(eevdf_put(&other, &hand));
	eevdf_pick(&other);
	eevdf_take(&other, &hand, task);
	ignore(eevdf_put_asleep(&queue, &hand));
	eevdf_sleeper_of(&queue, task, &sleeper);
	eevdf_wake(&queue, task);
	eevdf_wake(&queue, (uint64_t)running);
	if (rebases && task == 0)
		eevdf_rebase(&queue, &number);
	if (eevdf_take_any(&queue, &hand) >= 0)
		ignore(eevdf_put(&queue, &hand));
	pull(task);
	eevdf_candidate(&queue);
	eevdf_len(&queue);
	eevdf_load(&queue);
	eevdf_floor_time(&queue, &number);
	eevdf_run(&queue, task);
	eevdf_running(&queue);
	eevdf_entry_of(&queue, task, &entry);
	eevdf_lag(&queue, task, &number);
	eevdf_is_asleep(&queue, task);
	eevdf_contains(&queue, task);
	eevdf_can_place(&queue, 0, 3000000, 5999999);
	eevdf_hand_task(&hand);
	eevdf_stop(&queue);
	end_out(task);
	admit_in(task, (int64_t)drawn(40) - 20, 3000000, number);
	eevdf_take(&queue, &hand, task);
	hand_end_out();
	admit_in(task, (int64_t)drawn(40) - 20, 3000000, number);
	eevdf_end(&queue, task);
	eevdf_admit(&queue, task, (int64_t)drawn(40) - 20, 100000 + drawn(1000000), number);
}

/* The same by the calls beside bounds, which needn't be true for it. */
static inline void turn_beside_bounds(void)
{
	const uint64_t task = drawn(EEVDF_TASKS), running = (uint64_t)eevdf_fair_pick(&bounds, &queue);
	eevdf_block block = { NULL };
	int64_t number = 0;

	eevdf_fair_tick(&bounds, &queue, 1 + drawn(3000000));
	eevdf_fair_renice(&bounds, &queue, task, (int64_t)drawn(40) - 20);
	eevdf_fair_set(&bounds, &queue, task, (int64_t)drawn(40) - 20, 3000000);
	eevdf_sleep(&queue, running);
	eevdf_fair_wake(&bounds, &queue, running);
	eevdf_fair_run(&bounds, &queue, task);
	eevdf_take(&queue, &hand, task);
	eevdf_fair_put(&bounds, &queue, &hand);
	eevdf_fair_lateness_bound(&bounds, &queue);
	eevdf_fair_lateness_bound_in_time(&bounds, &queue, &number);
	eevdf_fair_lateness_bound_of(&bounds, &queue, task, &number);
	eevdf_fair_share_tick(&shares, &bounds, &queue, 1 + drawn(3000000));
	eevdf_fair_share_bound(&shares, &queue, task, &mark, &number);
	eevdf_fair_share_mark(&shares, &queue, task, &mark);
	eevdf_floor_time(&queue, &number);
	eevdf_end_out(&queue, &block, task);
	eevdf_fair_admit_in(&bounds, &queue, &block, task, (int64_t)drawn(40) - 20, 3000000, number);
	eevdf_end(&queue, task);
	eevdf_fair_admit(&bounds, &queue, task, (int64_t)drawn(40) - 20, 3000000, number);
	if (rebases && task == 0)
		eevdf_fair_rebase(&bounds, &queue, &number);
	if (rebases && task == 1)
		eevdf_fair_share_rebase(&shares, &bounds, &queue, &number);
}

static void make_turns(void)
{
	top = __builtin_frame_address(0);
	eevdf_version();
	eevdf_open(&queue);
	eevdf_open(&other);
	eevdf_hand_open(&hand);
	for (uint64_t task = 0; task < EEVDF_TASKS; task++)
		eevdf_admit(&queue, task, (int64_t)(task % 40) - 20, 3000000,
			    (int64_t)drawn(10000000));
	eevdf_fair_open(&bounds);
	eevdf_bounds_size();
	eevdf_fair_share_open(&shares);
	eevdf_shares_size();
	for (unsigned at = 0; at < TURNS; at++) {
		turn();
		turn_beside_bounds();
	}
	eevdf_take(&queue, &hand, 0);
	eevdf_hand_close(&hand);
	eevdf_close(&queue);
	eevdf_close(&other);
}

static inline void admit(uint64_t task, int64_t start, int64_t deadline)
{
	if (gives_blocks)
		admit_in(task, 0, (uint64_t)(deadline - start), start);
	else
		eevdf_admit(&queue, task, 0, (uint64_t)(deadline - start), start);
}

/*
 * Makes the planned tree, level by level. All tasks start at 0 but for one that starts earlier: it
 * is the only eligible one, wherever it stands.
 */
static inline void grow(unsigned early)
{
	eevdf_open(&queue);
	for (int level = 1; level <= plan.levels; level++)
		for (unsigned place = 0; place < plan.count; place++)
			if (plan.level_of[place] == level)
				admit(place, place == early ? EARLY : 0,
				      ((int64_t)place + 1) * GAP);
}

/*
 * The only eligible task is let run, leaves its place in one of the ways, and comes back unless it
 * has ended.
 */
static inline void leave(int way, uint64_t task)
{
	eevdf_entry entry = { 0, 0, 0, 0 };
	int64_t lag = 0;

	other_picks += eevdf_pick(&queue) != (int64_t)task;
	eevdf_tick(&queue, 1);
	eevdf_peek(&queue);
	other_picks += eevdf_pick(&queue) != (int64_t)task;
	eevdf_candidate(&queue);
	eevdf_entry_of(&queue, task, &entry);
	eevdf_lag(&queue, task, &lag);
	switch (way) {
	case TICK:
		eevdf_tick(&queue, (uint64_t)eevdf_time_to_resched(&queue));
		break;
	case YIELD:
		eevdf_yield(&queue);
		break;
	case SET_SLICE:
		eevdf_set_slice(&queue, task, entry.slice_ns);
		break;
	case RENICE:
		eevdf_renice(&queue, task, 0);
		break;
	case SET:
		eevdf_set(&queue, task, 0, entry.slice_ns);
		break;
	case SLEEP:
		eevdf_sleep(&queue, task);
		eevdf_wake(&queue, task);
		break;
	case TAKE:
		eevdf_take(&queue, &hand, task);
		ignore(eevdf_put(&queue, &hand));
		break;
	case TAKE_ANY:
		ignore(eevdf_take_any(&queue, &hand));
		ignore(eevdf_put(&queue, &hand));
		break;
	case END:
		eevdf_end(&queue, task);
		break;
	case END_OUT:
		end_out(task);
		break;
	}
}

/* The task of a place leaves in each way, from a tree as planned each time. */
static inline void leave_place(unsigned place)
{
	for (int way = 0; way < WAYS; way++) {
		gives_blocks = way == END_OUT;
		grow(place);
		leave(way, place);
		eevdf_close(&queue);
	}
}

/*
 * Another task comes into the gap before a place, leaves, comes back, and ends. To be put there by
 * TICK or YIELD it comes into another gap first. In any gap it makes at most the lower of two sides
 * higher, so the tree has its levels again when it has ended.
 */
static inline void visit_place(unsigned place)
{
	int64_t deadline = (int64_t)place * GAP + GAP / 2;

	for (int way = 0; way < WAYS; way++) {
		bool comes_later = way == TICK || way == YIELD;

		gives_blocks = way == END_OUT;
		admit(VISITOR, EARLY, comes_later ? (EARLY + deadline) / 2 : deadline);
		leave(way, VISITOR);
		eevdf_end(&queue, VISITOR);
	}
}

/* Every call that goes down a tree, at the low places of the planned one. */
static void make_calls_at_plan(void)
{
	top = __builtin_frame_address(0);
	eevdf_hand_open(&hand);
	for (unsigned place = 0; place < plan.count; place++)
		if (is_near_low(&plan, place))
			leave_place(place);
	grow(NOBODY);
	for (unsigned place = 0; place <= plan.count; place++)
		if (is_near_low(&plan, place))
			visit_place(place);
	eevdf_open(&other);
	for (unsigned place = 0; place < plan.count; place++)
		if (is_near_low(&plan, place) && eevdf_pull_task(&other, &queue, place) >= 0)
			eevdf_end(&other, place);
	while (eevdf_pull(&other, &queue) >= 0)
		;
	eevdf_close(&other);
	eevdf_close(&queue);
}

static void rebase_plan(void)
{
	int64_t by = 0;

	top = __builtin_frame_address(0);
	grow(0);
	eevdf_rebase(&queue, &by);
	eevdf_close(&queue);
}

/* How many bytes of the stack the calls take. */
static int depth_of(void (*calls)(void))
{
	const unsigned char *lowest = stack;

	memset(stack, PAINT, sizeof stack);
	getcontext(&inside);
	inside.uc_stack.ss_sp = stack;
	inside.uc_stack.ss_size = sizeof stack;
	inside.uc_link = &outside;
	makecontext(&inside, calls, 0);
	swapcontext(&outside, &inside);
	while (*lowest == PAINT)
		lowest++;
	return (int)(top - lowest);
}

/* The same at the deepest trees, of the shape at which it is most. */
static int depth_at_plans(void (*calls)(void))
{
	int most = 0;

	for (unsigned shape = 0; shape < SHAPES; shape++) {
		int depth;

		plan_tree(&plan, shape);
		depth = depth_of(calls);
		if (depth > most)
			most = depth;
	}
	return most;
}

int main(void)
{
	int in_turns, in_turns_with_rebase, at_plans, at_plans_with_rebase;

	for (unsigned at = 0; at < sizeof pool / sizeof *pool; at++)
		eevdf_dealloc(pool[at]);
	in_turns = depth_of(make_turns);
	rebases = true;
	in_turns_with_rebase = depth_of(make_turns);
	at_plans = depth_at_plans(make_calls_at_plan);
	at_plans_with_rebase = depth_at_plans(rebase_plan);
	printf("at most %d bytes of stack in %d turns over %d tasks, and %d with eevdf_rebase; at "
	       "trees of %d levels %d and %d; with those of the caller\n", in_turns, TURNS,
	       EEVDF_TASKS, in_turns_with_rebase, plan.levels, at_plans, at_plans_with_rebase);
	return in_turns > LIMIT || at_plans > LIMIT || in_turns_with_rebase > REBASE_LIMIT ||
	       at_plans_with_rebase > REBASE_LIMIT || plan.levels != plan.most ||
	       other_picks > 0 || unused_count != sizeof pool / sizeof *pool;
}

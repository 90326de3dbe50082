/*
 * calls.h: a drawn list of calls on two queues and a hand, and the checksum of their answers, the
 * same in a program and in Linux.
 */
#ifndef CALLS_H
#define CALLS_H

#include <eevdf.h>

enum { CALLS = 3000000, NUMBERS = 96 };

struct game {
	eevdf_queue queues[2];
	eevdf_hand hand;
	uint64_t word, checksum;
};

static inline uint64_t drawn(struct game *game, uint64_t below)
{
	game->word = game->word * 6364136223846793005u + 1442695040888963407u;
	return (game->word >> 33) % below;
}

static inline void add(struct game *game, int64_t answer)
{
	game->checksum = (game->checksum ^ (uint64_t)answer) * 1099511628211u;
}

/* A call that lets time go by, or asks who is next. */
static inline int64_t take_turn(struct game *game, eevdf_queue *queue, uint64_t task)
{
	switch (drawn(game, 5)) {
	case 0:
		return eevdf_tick(queue, 1 + drawn(game, 4000000));
	case 1:
		return eevdf_yield(queue);
	case 2:
		return eevdf_time_to_resched(queue);
	case 3:
		return eevdf_run(queue, task);
	default:
		return eevdf_peek(queue);
	}
}

/*
 * Gives back the block that a call has given, or hasn't taken. What the call answered, and 1 more
 * where there is a block.
 */
static inline int64_t with_block(int64_t answer, eevdf_block block)
{
	if (!block.at)
		return answer;
	eevdf_dealloc(block.at);
	return answer + 1;
}

static inline int64_t time_of(const eevdf_queue *queue)
{
	int64_t time = 0;

	eevdf_floor_time(queue, &time);
	return time;
}

/* A new task in a block of the caller's. */
static inline int64_t admit_in(eevdf_queue *queue, uint64_t task, int64_t nice, uint64_t slice_ns)
{
	eevdf_memory memory = eevdf_alloc(EEVDF_TASK_SIZE, 8);
	eevdf_block block = { memory.ok ? memory.block : NULL };
	int64_t answer = eevdf_admit_in(queue, &block, task, nice, slice_ns, time_of(queue));

	return with_block(answer, block);
}

/* A call that changes what there is of a task. */
static inline int64_t change_task(struct game *game, eevdf_queue *queue, uint64_t task)
{
	int64_t nice = (int64_t)drawn(game, 40) + EEVDF_NICE_MIN;
	uint64_t slice_ns = EEVDF_SLICE_MIN + drawn(game, 5000000);
	int64_t lag = 0;

	switch (drawn(game, 9)) {
	case 0:
		return eevdf_admit(queue, task, nice, slice_ns, time_of(queue));
	case 1:
		return admit_in(queue, task, nice, slice_ns);
	case 2:
		return eevdf_renice(queue, task, nice);
	case 3:
		return eevdf_set_slice(queue, task, slice_ns);
	case 4:
		return eevdf_set(queue, task, nice, slice_ns);
	case 5:
		return eevdf_begin(queue, task, nice, slice_ns);
	case 6:
		return eevdf_wake(queue, task);
	case 7:
		eevdf_doze(queue, (uint64_t)eevdf_running(queue), &lag);
		return lag;
	default:
		return eevdf_sleep(queue, (uint64_t)eevdf_running(queue));
	}
}

/* A call that moves a task, or ends it. */
static inline int64_t move_task(struct game *game, eevdf_queue *queue, uint64_t task)
{
	eevdf_queue *other = &game->queues[queue == &game->queues[0]];
	eevdf_block block = { NULL };
	int64_t answer;

	switch (drawn(game, 15)) {
	case 0:
		return eevdf_take(queue, &game->hand, task);
	case 1:
		return eevdf_take_any(queue, &game->hand);
	case 2:
		return eevdf_put_asleep(queue, &game->hand);
	case 3:
		return eevdf_end(queue, task);
	case 4:
		answer = eevdf_end_out(queue, &block, task);
		return with_block(answer, block);
	case 5:
		answer = eevdf_hand_end_out(&game->hand, &block);
		return with_block(answer, block);
	case 6:
		return eevdf_pull(queue, other);
	case 7:
		return eevdf_pull_task(queue, other, task);
	case 8:
		return eevdf_hand_renumber(&game->hand, task);
	default:
		return eevdf_put(queue, &game->hand);
	}
}

static inline int64_t read_task(struct game *game, eevdf_queue *queue, uint64_t task)
{
	eevdf_entry entry = { 0, 0, 0, 0 };
	eevdf_place place = { 0, 0 };
	int64_t number = 0;

	switch (drawn(game, 4)) {
	case 0:
		eevdf_lag(queue, task, &number);
		return number;
	case 1:
		eevdf_entry_of(queue, task, &entry);
		return entry.deadline;
	case 2:
		eevdf_place_of(queue, task, &place);
		return place.high ^ (int64_t)place.low;
	default:
		return eevdf_candidate(queue);
	}
}

/* All calls from a fresh start. Answers their checksum. */
static inline uint64_t play(struct game *game)
{
	int64_t by = 0;

	game->word = 1;
	game->checksum = 14695981039346656037u;
	eevdf_open(&game->queues[0]);
	eevdf_open(&game->queues[1]);
	eevdf_hand_open(&game->hand);
	for (unsigned at = 0; at < CALLS; at++) {
		eevdf_queue *queue = &game->queues[drawn(game, 2)];
		uint64_t kind = drawn(game, 8), task = drawn(game, NUMBERS);

		add(game, kind < 3 ? eevdf_pick(queue) :
			  kind < 5 ? take_turn(game, queue, task) :
			  kind == 5 ? change_task(game, queue, task) :
			  kind == 6 ? move_task(game, queue, task) : read_task(game, queue, task));
		if (at % 65536 == 0) {
			eevdf_rebase(queue, &by);
			add(game, by);
		}
	}
	eevdf_hand_close(&game->hand);
	eevdf_close(&game->queues[0]);
	eevdf_close(&game->queues[1]);
	return game->checksum;
}

#endif

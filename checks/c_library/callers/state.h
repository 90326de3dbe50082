/* state.h: all that can be read of a queue and a hand, to compare two moments. */
#ifndef STATE_H
#define STATE_H

#include <eevdf.h>
#include <string.h>

enum { STATE_TASKS = 16 };

struct state {
	int64_t len, load, time, running, peek, until, candidate, in_hand;
	int64_t is_runnable[STATE_TASKS], is_asleep[STATE_TASKS], is_here[STATE_TASKS];
	int64_t lag[STATE_TASKS], is_dozing[STATE_TASKS];
	eevdf_entry entry[STATE_TASKS];
	eevdf_sleeper sleeper[STATE_TASKS];
	eevdf_place place[STATE_TASKS];
	eevdf_parcel parcel;
};

static inline struct state state_of(const eevdf_queue *queue, const eevdf_hand *hand)
{
	struct state state;

	memset(&state, 0, sizeof state);
	state.len = eevdf_len(queue);
	state.load = eevdf_load(queue);
	eevdf_floor_time(queue, &state.time);
	state.running = eevdf_running(queue);
	state.peek = eevdf_peek(queue);
	state.until = eevdf_time_to_resched(queue);
	state.candidate = eevdf_candidate(queue);
	state.in_hand = eevdf_hand_task(hand);
	eevdf_hand_parcel(hand, &state.parcel);
	for (uint64_t task = 0; task < STATE_TASKS; task++) {
		state.is_runnable[task] = eevdf_entry_of(queue, task, &state.entry[task]);
		eevdf_sleeper_of(queue, task, &state.sleeper[task]);
		state.is_dozing[task] = eevdf_place_of(queue, task, &state.place[task]);
		state.is_asleep[task] = eevdf_is_asleep(queue, task);
		state.is_here[task] = eevdf_contains(queue, task);
		eevdf_lag(queue, task, &state.lag[task]);
	}
	return state;
}

static inline int is_same(const struct state *one, const struct state *other)
{
	return memcmp(one, other, sizeof *one) == 0;
}

#endif

/*
 * memory.c: the bytes around queues, hands and blocks stay as they are; the library asks for one
 * block of one size in each admit that gets so far, for nothing in any other call, and gives back
 * each block once; where a request is refused the admit says so, changes nothing, and can be made
 * again. Each request of a walk through the calls is refused in turn. Ends with 1 where it isn't
 * so.
 */
#include "state.h"

#include <stdbool.h>
#include <stdio.h>
#include <stdlib.h>

enum { SLICE = 3000000, TASKS = 12, EDGE = 64, MARK = 0xa5, BLOCKS = 64, BLOCK = EEVDF_TASK_SIZE };

struct edged_queue {
	_Alignas(16) unsigned char before[EDGE];
	eevdf_queue queue;
	unsigned char after[EDGE];
};

struct edged_hand {
	_Alignas(16) unsigned char before[EDGE];
	eevdf_hand hand;
	unsigned char after[EDGE];
};

static struct edged_queue first, second;
static struct edged_hand between;
static eevdf_bounds bounds;
static unsigned char *blocks[BLOCKS];
static unsigned requests, refused_request, given_back, failed;

static void fail(const char *what)
{
	printf("FAILED: %s, with request %u refused\n", what, refused_request);
	failed++;
}

static bool is_marked(const unsigned char *edge)
{
	for (unsigned at = 0; at < EDGE; at++)
		if (edge[at] != MARK)
			return false;
	return true;
}

eevdf_memory eevdf_alloc(size_t size, size_t align)
{
	static unsigned char none;
	unsigned char *room;

	if (size != BLOCK || align > 8)
		fail("a request isn't for a block of EEVDF_TASK_SIZE bytes");
	if (++requests == refused_request)
		return (eevdf_memory){ 0, &none };
	room = malloc(size + 2 * EDGE);
	memset(room, MARK, size + 2 * EDGE);
	for (unsigned at = 0; at < BLOCKS; at++)
		if (!blocks[at]) {
			blocks[at] = room;
			return (eevdf_memory){ 1, room + EDGE };
		}
	abort();
}

void eevdf_dealloc(void *block)
{
	unsigned char *room = (unsigned char *)block - EDGE;

	for (unsigned at = 0; at < BLOCKS; at++)
		if (blocks[at] == room) {
			if (!is_marked(room) || !is_marked(room + EDGE + BLOCK))
				fail("the bytes around a block have changed");
			blocks[at] = NULL;
			free(room);
			given_back++;
			return;
		}
	fail("a block is given back that the library doesn't have");
}

/* The calls that ask for a block, by turns. */
static int64_t admit_by_turns(eevdf_queue *queue, uint64_t task, int64_t nice, int64_t start)
{
	if (task % 2 == 0)
		return eevdf_admit(queue, task, nice, SLICE, start);
	return eevdf_fair_admit(&bounds, queue, task, nice, SLICE, start);
}

/* Admits a task; where the request is refused, looks that nothing has changed and does it again. */
static void admit(eevdf_queue *queue, uint64_t task)
{
	const unsigned made = requests;
	const int64_t nice = (int64_t)task - 6;
	struct state before = state_of(queue, &between.hand), after;
	int64_t answer = admit_by_turns(queue, task, nice, 0);

	if (requests != made + 1)
		fail("an admit makes another number of requests than one");
	if (requests != refused_request) {
		if (answer != 0)
			fail("an admit isn't done");
		return;
	}
	after = state_of(queue, &between.hand);
	if (answer != EEVDF_NO_MEMORY || !is_same(&before, &after))
		fail("an admit without memory says something else, or changes something");
	if (admit_by_turns(queue, task, nice, 0) != 0)
		fail("an admit can't be done again");
}

static void turns(eevdf_queue *queue, unsigned count)
{
	while (count-- > 0) {
		eevdf_run(queue, (uint64_t)eevdf_pick(queue));
		if (eevdf_tick(queue, 1000000) == 1 && count % 3 == 0)
			eevdf_yield(queue);
	}
}

/* Any answer will do: such a call is made for what it asks for. */
static void ignore(int64_t answer)
{
	(void)answer;
}

/* Calls that move tasks, none of which asks for memory. */
static void move(eevdf_queue *from, eevdf_queue *to, uint64_t task)
{
	int64_t running = eevdf_pick(from), number = 0;

	eevdf_peek(from);
	eevdf_time_to_resched(from);
	if (task % 2 == 0)
		eevdf_sleep(from, (uint64_t)running);
	else
		eevdf_doze(from, (uint64_t)running, &number);
	eevdf_set_slice(from, (uint64_t)running, SLICE / 2);
	eevdf_set_slice(from, task, 2 * SLICE);
	eevdf_set(from, (uint64_t)running, 1, SLICE);
	eevdf_set(from, task, -1, SLICE);
	if (task % 3 == 0)
		eevdf_begin(from, (uint64_t)running, 2, SLICE);
	eevdf_take(from, &between.hand, task);
	ignore(task % 2 == 0 ? eevdf_put(to, &between.hand) : eevdf_put_asleep(to, &between.hand));
	eevdf_wake(from, (uint64_t)running);
	eevdf_wake(to, task);
	eevdf_renice(to, task, 3);
	eevdf_rebase(to, &number);
	ignore(eevdf_take_any(to, &between.hand));
	running = eevdf_hand_task(&between.hand);
	eevdf_hand_renumber(&between.hand, EEVDF_TASKS - 1);
	eevdf_hand_renumber(&between.hand, (uint64_t)running);
	ignore(eevdf_put(to, &between.hand));
	ignore(eevdf_pull(from, to));
	ignore(eevdf_pull(to, from));
	ignore(eevdf_pull_task(to, from, task));
	eevdf_stop(from);
}

/* An admit whose deadline would leave the range asks for a block first, and gives it back. */
static void admit_out_of_range(eevdf_queue *queue, uint64_t task)
{
	const unsigned made = requests, back = given_back;
	int64_t answer = admit_by_turns(queue, task, 0, EEVDF_TIME_MAX);
	bool is_refused = requests == refused_request;

	if (requests != made + 1)
		fail("an admit out of range makes another number of requests than one");
	if (answer != (is_refused ? EEVDF_NO_MEMORY : EEVDF_RANGE))
		fail("an admit out of range says something else");
	if (given_back != back + !is_refused)
		fail("an admit that answers RANGE keeps its block");
}

static void walk(void)
{
	unsigned made;

	eevdf_open(&first.queue);
	eevdf_open(&second.queue);
	eevdf_hand_open(&between.hand);
	eevdf_fair_open(&bounds);
	if (requests != 0)
		fail("a queue or a hand asks for memory where it is opened");
	for (uint64_t task = 0; task < TASKS; task++)
		admit(&first.queue, task);
	made = requests;
	for (uint64_t at = 0; at < 2; at++) {
		admit_by_turns(&first.queue, at, 0, 0);
		admit_by_turns(&first.queue, TASKS + at, EEVDF_NICE_MAX + 1, 0);
	}
	for (uint64_t task = 0; task < TASKS / 2; task++) {
		turns(&first.queue, 20);
		move(&first.queue, &second.queue, task);
		turns(&second.queue, 20);
	}
	if (requests != made)
		fail("a call that takes no memory asks for some");
	eevdf_end(&first.queue, TASKS - 1);
	eevdf_end(&second.queue, 1);
	if (requests != made)
		fail("the end of a task asks for memory");
	admit(&second.queue, TASKS - 1);
	admit_out_of_range(&second.queue, TASKS);
	admit_out_of_range(&second.queue, TASKS + 1);
	made = requests;
	eevdf_take(&first.queue, &between.hand, TASKS - 2);
	eevdf_hand_close(&between.hand);
	eevdf_sleep(&first.queue, (uint64_t)eevdf_pick(&first.queue));
	eevdf_close(&first.queue);
	eevdf_close(&second.queue);
	if (requests != made)
		fail("a call at the end of the walk asks for memory");
}

static void look_at_end(void)
{
	struct state state = state_of(&first.queue, &between.hand);

	if (state.len != 0 || state.load != 0 || state.in_hand != EEVDF_ABSENT)
		fail("a closed queue isn't empty, or a closed hand");
	for (unsigned task = 0; task < STATE_TASKS; task++)
		if (state.is_here[task] != 0)
			fail("a task is in a closed queue");
	for (unsigned at = 0; at < BLOCKS; at++)
		if (blocks[at])
			fail("a block isn't given back");
	if (!is_marked(first.before) || !is_marked(first.after))
		fail("the bytes around the first queue have changed");
	if (!is_marked(second.before) || !is_marked(second.after))
		fail("the bytes around the second queue have changed");
	if (!is_marked(between.before) || !is_marked(between.after))
		fail("the bytes around a hand have changed");
}

int main(void)
{
	unsigned met;

	do {
		memset(&first, MARK, sizeof first);
		memset(&second, MARK, sizeof second);
		memset(&between, MARK, sizeof between);
		requests = 0;
		walk();
		look_at_end();
		met = requests;
		refused_request++;
	} while (refused_request <= met && failed == 0);
	printf("%u requests refused in turn, %u blocks given back, %u things wrong\n",
	       refused_request - 1, given_back, failed);
	return failed > 0;
}

/*
 * moves.c: tasks go from the queue to which they belong to another, where they sleep, by a hand
 * under both locks. A task keeps its number where that is free, and else gets one that is. Where
 * the other queue has no room, somebody who isn't runnable there goes the other way.
 */
#include "queues.h"

struct cpu_queue *lock_home(struct task *task)
{
	for (;;) {
		struct cpu_queue *queue = queue_of(READ_ONCE(task->home));

		lock_queue(queue);
		if (READ_ONCE(task->home) == queue->cpu)
			return queue;
		unlock_queue(queue);
	}
}

void take_up(struct carried *carried, struct cpu_queue *queue, struct task *task, bool is_second)
{
	carried->task = task;
	carried->number = task->number;
	open_hand(&carried->hand, is_second);
	if (queue->on_cpu == task->linux_task) {
		charge(queue);
		queue->on_cpu = NULL;
	}
	is_taken_back(task);
	if (task->number != NO_NUMBER) {
		call_take(queue, &carried->hand, task->number);
		give_number(queue, task);
	}
	part(queue);
}

void put_down(struct carried *carried, struct cpu_queue *queue)
{
	struct task *task = carried->task;
	u64 number;

	join(queue, task);
	if (carried->number == NO_NUMBER)
		return;
	number = number_for(queue, carried->number);
	if (number != carried->number)
		call_hand_renumber(queue, &carried->hand, number);
	if (call_put_asleep(queue, &carried->hand) >= 0)
		take_number(queue, task, number);
}

struct task *who_can_go(struct cpu_queue *queue)
{
	struct task *task;

	for (unsigned int at = 0; (task = task_at(at)); at++) {
		if (READ_ONCE(task->home) != queue->cpu || task->is_ours)
			continue;
		if (task->number == NO_NUMBER || call_is_asleep(queue, task->number))
			return task;
	}
	return NULL;
}

/* Whether the task belongs to the other queue now. */
static bool move_asleep(struct task *task, struct cpu_queue *from, struct cpu_queue *to)
{
	struct task *other = has_room(to) ? NULL : who_can_go(to);
	struct carried going, coming;

	if (!other && !has_room(to))
		return false;
	take_up(&going, from, task, false);
	if (other) {
		take_up(&coming, to, other, true);
		put_down(&coming, from);
	}
	put_down(&going, to);
	return true;
}

struct cpu_queue *bring(struct task *task, int cpu)
{
	struct cpu_queue *to = queue_of(cpu);

	for (;;) {
		struct cpu_queue *from = queue_of(READ_ONCE(task->home));
		bool is_home;

		lock_two(from, to);
		is_home = READ_ONCE(task->home) == from->cpu;
		if (is_home && (from == to || move_asleep(task, from, to))) {
			if (from != to)
				unlock_queue(from);
			return to;
		}
		unlock_queue(to);
		if (is_home)
			return from;
		if (from != to)
			unlock_queue(from);
	}
}

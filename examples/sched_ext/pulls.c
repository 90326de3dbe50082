/*
 * pulls.c: tasks go to another CPU by the library's pulls, under the locks of both queues. A pull
 * knows of no CPUs that a task may run on, so where the candidate may not come, the waiting task of
 * latest deadline that may is pulled by its number.
 */
#include "queues.h"

#include <linux/module.h>

static unsigned int balance_us = 20000;
module_param(balance_us, uint, 0444);
MODULE_PARM_DESC(balance_us, "how often a CPU that has tasks pulls, in microseconds; 0: never");

atomic64_t pulled, pulled_when_busy;

static u64 balanced_at[MAX_CPUS];

/*
 * Whether Linux lets the task go on there. It may have changed its mind by the time that the task
 * is dispatched; confirm() of scheduler.c looks again then.
 */
bool may_run(const struct task_struct *linux_task, int cpu)
{
	if (task_cpu(linux_task) == cpu)
		return true;
	return !READ_ONCE(linux_task->migration_disabled) &&
	       cpumask_test_cpu(cpu, READ_ONCE(linux_task->cpus_ptr));
}

bool may_come(struct task *task, int cpu)
{
	return task->is_ours && may_run(task->linux_task, cpu);
}

/* The task of latest deadline that waits there and may come, or NULL. */
static struct task *last_that_may_come(struct cpu_queue *from, int cpu)
{
	struct task *task, *last = NULL;
	s64 deadline, latest = S64_MIN, running = call_running(from);

	list_for_each_entry(task, &from->waiting, waiting) {
		if (task->number == running || !may_come(task, cpu))
			continue;
		if (call_deadline(from, task->number, &deadline) < 0)
			continue;
		if (deadline > latest) {
			latest = deadline;
			last = task;
		}
	}
	return last;
}

/*
 * A pull has found that the loads would come closer, and that the task's number is taken here: it
 * comes by a hand, under one that is free. Where it can't be placed, it sleeps where it was, and
 * the refusal ends the scheduler.
 */
static s64 pull_by_hand(struct cpu_queue *to, struct cpu_queue *from, u64 task, u64 number)
{
	struct hand hand;
	s64 answer;

	open_hand(&hand, false);
	call_take(from, &hand, task);
	call_hand_renumber(to, &hand, number);
	answer = call_put(to, &hand);
	if (answer < 0) {
		call_hand_renumber(from, &hand, task);
		call_put_asleep(from, &hand);
	}
	return answer;
}

/* Pulls a task that waits and may come. There is room for it. */
static bool pull_one(struct cpu_queue *to, struct cpu_queue *from, struct task *task, bool is_named)
{
	u64 was = task->number, number = number_for(to, was);
	s64 answer = is_named ? call_pull_task(to, from, was) : call_pull(to, from);

	if (answer == EEVDF_PRESENT)
		answer = pull_by_hand(to, from, was, number);
	if (answer < 0)
		return false;
	give_number(from, task);
	part(from);
	take_number(to, task, number);
	join(to, task);
	is_left_to_us(to, task);
	return true;
}

/* Pulls a task where there is one that may come. Both locks are held. Whether one came. */
static bool pull_from(struct cpu_queue *to, struct cpu_queue *from)
{
	struct task *task = task_by_number(from, call_candidate(from));
	bool is_named = task && !may_come(task, to->cpu);

	if (is_named)
		task = last_that_may_come(from, to->cpu);
	return task && pull_one(to, from, task, is_named);
}

/*
 * The same for a CPU that has nobody to run: where it has no room, somebody who sleeps there goes
 * the other way. From a CPU that has two tasks a task comes that may.
 */
static bool pull_from_crowded(struct cpu_queue *to, struct cpu_queue *from)
{
	struct task *other = has_room(to) ? NULL : who_can_go(to);
	struct carried carried;
	bool has_come;

	if (call_len(from) < 2 || (!other && !has_room(to)))
		return false;
	if (other)
		take_up(&carried, to, other, true);
	has_come = pull_from(to, from);
	if (other)
		put_down(&carried, has_come ? from : to);
	return has_come;
}

/* By the hints the CPU of greatest load among those with two tasks that weren't tried, or NULL. */
static struct cpu_queue *most_loaded(unsigned long tried)
{
	struct cpu_queue *most = NULL;
	int cpu;

	for_each_online_cpu(cpu) {
		struct cpu_queue *queue = queue_of(cpu);

		if (tried & BIT(cpu) || READ_ONCE(queue->tasks_hint) < 2)
			continue;
		if (!most || READ_ONCE(queue->load_hint) > READ_ONCE(most->load_hint))
			most = queue;
	}
	return most;
}

/*
 * For a CPU that has nobody: tries each other one that has two tasks or more. Gives the queue with
 * its lock taken, whether a task came or not, so that the caller picks before anybody can pull the
 * task away again.
 */
struct cpu_queue *pull_for_idle(int cpu)
{
	struct cpu_queue *queue = queue_of(cpu), *from;
	unsigned long tried = BIT(cpu);

	while ((from = most_loaded(tried))) {
		bool has_come;

		tried |= BIT(from->cpu);
		lock_two(queue, from);
		has_come = pull_from_crowded(queue, from);
		unlock_queue(from);
		if (has_come) {
			atomic64_inc(&pulled);
			return queue;
		}
		unlock_queue(queue);
	}
	lock_queue(queue);
	return queue;
}

/* For a CPU that has tasks: now and then one pull, from the CPU of greatest load. */
struct cpu_queue *pull_for_balance(int cpu)
{
	struct cpu_queue *queue = queue_of(cpu), *from = most_loaded(BIT(cpu));
	u64 now = now_ns();

	if (!from || !balance_us || now < balanced_at[cpu] + (u64)balance_us * NSEC_PER_USEC) {
		lock_queue(queue);
		return queue;
	}
	balanced_at[cpu] = now;
	lock_two(queue, from);
	if (has_room(queue) && pull_from(queue, from))
		atomic64_inc(&pulled_when_busy);
	unlock_queue(from);
	return queue;
}

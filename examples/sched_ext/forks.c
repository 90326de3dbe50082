/*
 * forks.c: tasks begin and end. Each belongs to a queue that has room for it from its fork on, so
 * that it finds a number there whenever it comes.
 */
#include "scheduler.h"

/* The task belongs to the queue, if that has room for it. */
static bool join_with_room(struct cpu_queue *queue, struct task *task)
{
	unsigned long flags;
	bool has_joined;

	local_irq_save(flags);
	lock_queue(queue);
	has_joined = has_room(queue);
	if (has_joined)
		join(queue, task);
	unlock_queue(queue);
	local_irq_restore(flags);
	return has_joined;
}

s64 begin(struct task_struct *linux_task)
{
	/* a task that was there before may run, and Linux change this meanwhile */
	const struct cpumask *cpus = READ_ONCE(linux_task->cpus_ptr);
	struct task *task = begin_task(linux_task);
	int cpu;

	if (!task)
		return -EAGAIN;
	for_each_cpu_wrap(cpu, cpus, task_cpu(linux_task))
		if (join_with_room(queue_of(cpu), task))
			return 0;
	end_task(task, (eevdf_block){ NULL });
	return -EAGAIN;
}

/* It is in no queue any more, and its block is given back. */
static eevdf_block take_out(struct cpu_queue *queue, struct task *task)
{
	eevdf_block block = { NULL };

	if (task->number == NO_NUMBER)
		return block;
	if (queue->on_cpu == task->linux_task) {
		charge(queue);
		queue->on_cpu = NULL;
	}
	is_taken_back(task);
	call_end(queue, &block, task->number);
	give_number(queue, task);
	return block;
}

void end(struct task_struct *linux_task)
{
	struct task *task = task_of(linux_task);
	struct cpu_queue *queue;
	eevdf_block block;

	if (!task || is_planted(5))
		return;
	queue = lock_home(task);
	block = take_out(queue, task);
	part(queue);
	WRITE_ONCE(task->home, NOWHERE);
	unlock_queue(queue);
	end_task(task, block);
}

int place(struct task_struct *linux_task, int cpu)
{
	int least = cpu, other;

	for_each_cpu_and(other, linux_task->cpus_ptr, cpu_online_mask) {
		struct cpu_queue *queue = queue_of(other);
		bool is_less = READ_ONCE(queue->load_hint) < READ_ONCE(queue_of(least)->load_hint);

		if (has_room(queue) && (is_less || !has_room(queue_of(least))))
			least = other;
	}
	return least;
}

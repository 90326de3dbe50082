/*
 * scheduler.c: what Linux tells of its tasks, as calls on the queues. A task is runnable in a queue
 * as long as Linux has left it to this scheduler, or it runs. Else it sleeps there: it has fallen
 * asleep, or Linux changes it or moves it, and has it back meanwhile, or it is of another class.
 */
#include "scheduler.h"

#include <linux/delay.h>
#include <linux/module.h>

/*
 * A planted fault: 1 loses tasks that are named "lost" as they wake, and 2 makes a call that has to
 * fail. 3 waits before and after the second look at a task that comes from another CPU, and 4 waits
 * and doesn't look. 5 keeps what tasks have that end.
 */
static int planted;
module_param(planted, int, 0644);

bool is_planted(int fault)
{
	return READ_ONCE(planted) == fault;
}

atomic64_t picked, run_unpicked, cancelled;

/* A bit for each CPU that has found nothing to do. It is set before the CPU tries the others. */
static unsigned long looking;

/*
 * Which CPUs are told of a task that has come: each that looks for work, where two tasks are here;
 * this one, where it has nobody, and where somebody else is to run.
 */
static s64 whom_to_tell(struct cpu_queue *queue)
{
	s64 told = (s64)queue->cpu << CPU_SHIFT, running = call_running(queue);

	write_hints(queue);
	smp_mb();	/* with that of pick(): either the task is seen there, or the bit here */
	if (queue->tasks_hint >= 2)
		told |= READ_ONCE(looking) & ~BIT(queue->cpu);
	if (running < 0)
		told |= BIT(queue->cpu);
	else if (queue->on_cpu && (queue->is_due || call_peek(queue) != running))
		told |= PREEMPT;
	return told;
}

/* A task that Linux has preempted by another class waits, as the others do. */
static s64 stop_waiting_one(struct cpu_queue *queue, u64 number)
{
	return call_running(queue) == number ? call_stop(queue) : 0;
}

/*
 * Takes the lock of the queue where a task is to wait: that of the CPU where Linux has it, or where
 * 1024 are runnable there another one where it may run. NULL where that is so on all of these.
 */
static struct cpu_queue *settle(struct task *task)
{
	struct task_struct *linux_task = task->linux_task;
	struct cpu_queue *queue = bring(task, task_cpu(linux_task));
	int cpu;

	if (may_run(linux_task, queue->cpu))
		return queue;
	for_each_cpu_and(cpu, linux_task->cpus_ptr, cpu_online_mask) {
		unlock_queue(queue);
		queue = bring(task, cpu);
		if (may_run(linux_task, queue->cpu))
			return queue;
	}
	fail(queue, CALL_PUT_ASLEEP, task->number, -ENOSPC);
	unlock_queue(queue);
	return NULL;
}

s64 enqueue(struct task_struct *linux_task)
{
	struct task *task = task_of(linux_task);
	struct cpu_queue *queue;
	s64 answer;

	if (!task)
		return -ESRCH;
	if (is_planted(1) && !strcmp(linux_task->comm, "lost"))
		return 0;
	queue = settle(task);
	if (!queue)
		return -ENOSPC;
	if (is_planted(2))
		call_wake(queue, EEVDF_TASKS);
	answer = charge(queue);
	if (answer >= 0)
		answer = make_runnable(queue, task);
	if (answer >= 0)
		answer = stop_waiting_one(queue, task->number);
	if (answer >= 0) {
		is_left_to_us(queue, task);
		answer = whom_to_tell(queue);
	}
	unlock_queue(queue);
	return answer;
}

s64 take_back(struct task_struct *linux_task, bool falls_asleep)
{
	struct task *task = task_of(linux_task);
	struct cpu_queue *queue;
	s64 answer;

	if (!task)
		return 0;
	queue = lock_home(task);
	answer = charge(queue);
	if (answer >= 0)
		answer = put_to_sleep(queue, task, falls_asleep);
	unlock_queue(queue);
	return answer;
}

/* The task runs on the CPU from now on, and is the running one of the queue. */
static void begin_turn(struct cpu_queue *queue, struct task_struct *linux_task)
{
	linux_task->scx.slice = LINUX_SLICE;
	queue->on_cpu = linux_task;
	queue->since = now_ns();
	queue->is_due = false;
	clear_bit(queue->cpu, &looking);
	set_timer(queue);
}

/*
 * Whom Linux has chosen: as the scheduler comes and goes, and where it puts back a task that ran
 * while it was changed.
 */
static s64 run_unpicked_one(struct cpu_queue *queue, struct task *task)
{
	s64 answer = make_runnable(queue, task);

	atomic64_inc(&run_unpicked);
	return answer < 0 ? answer : call_run(queue, task->number);
}

/*
 * Linux has chosen a task that the CPU's queue has no room for, where 1024 are runnable: it runs
 * for one of Linux's slices, as one of another class does. Gives the lock back, which is that of
 * its home.
 */
static s64 run_beside(struct cpu_queue *home, struct task *task, int cpu)
{
	struct cpu_queue *queue = queue_of(cpu);
	s64 answer = put_to_sleep(home, task, false);

	unlock_queue(home);
	lock_queue(queue);
	if (call_running(queue) >= 0)
		call_stop(queue);
	unlock_queue(queue);
	atomic64_inc(&run_unpicked);
	task->linux_task->scx.slice = SCX_SLICE_DFL;
	return answer;
}

/*
 * A task runs on this CPU from now on, whether it was picked or not. One that wasn't goes on only
 * until there is a pick, where that picks another: it may be changed again before its turn ends.
 */
static s64 run_here(struct task *task, int cpu)
{
	struct cpu_queue *queue = bring(task, cpu);
	s64 answer = 0;
	bool is_picked;

	if (queue->cpu != cpu)
		return run_beside(queue, task, cpu);
	charge(queue);
	is_taken_back(task);
	is_picked = call_running(queue) == task->number;
	if (!is_picked)
		answer = run_unpicked_one(queue, task);
	begin_turn(queue, task->linux_task);
	if (!is_picked && answer >= 0)
		answer = whom_to_tell(queue);
	unlock_queue(queue);
	return answer;
}

s64 start(struct task_struct *linux_task)
{
	struct task *task = task_of(linux_task);

	return task ? run_here(task, task_cpu(linux_task)) : -ESRCH;
}

s64 stop(struct task_struct *linux_task)
{
	struct cpu_queue *queue = queue_of(task_cpu(linux_task));
	s64 answer = 0;

	lock_queue(queue);
	if (queue->on_cpu == linux_task) {
		answer = charge(queue);
		queue->on_cpu = NULL;
	}
	unlock_queue(queue);
	return answer;
}

/* Whoever ran, and could go on; NULL where it sleeps now, or is of another class. */
static struct task *task_that_ran(void)
{
	return current->scx.flags & SCX_TASK_QUEUED ? task_of(current) : NULL;
}

s64 go_on(int cpu)
{
	struct task *task = task_that_ran();

	return task ? run_here(task, cpu) : 0;
}

/* Takes the queue's lock, with a task of another CPU where one came over. */
static struct cpu_queue *lock_with_pulled(int cpu)
{
	struct cpu_queue *queue = queue_of(cpu);
	bool is_empty;

	lock_queue(queue);
	charge(queue);
	queue->on_cpu = NULL;
	rebase_in_time(queue);
	is_empty = call_len(queue) == 0;
	unlock_queue(queue);
	if (!is_empty)
		return pull_for_balance(cpu);
	set_bit(cpu, &looking);
	smp_mb();	/* with that of whom_to_tell() */
	return pull_for_idle(cpu);
}

/* Time for other CPUs to change what was picked, where that is planted. */
static void wait_for_others(int cpu, const struct task_struct *linux_task)
{
	if ((is_planted(3) || is_planted(4)) && task_cpu(linux_task) != cpu)
		mdelay(3);
}

struct task_struct *pick(int cpu)
{
	struct cpu_queue *queue = lock_with_pulled(cpu);
	struct task *task = task_by_number(queue, call_pick(queue));
	struct task_struct *dispatched = NULL;

	queue->is_due = false;
	if (task)
		atomic64_inc(&picked);
	if (task && task == task_that_ran())
		begin_turn(queue, current);
	else if (task && task->is_ours)
		dispatched = task->linux_task;
	else if (task)
		fail(queue, CALL_PICK, task->number, -EPERM);
	unlock_queue(queue);
	if (dispatched)
		wait_for_others(cpu, dispatched);
	return dispatched;
}

/*
 * Linux has noted in which state the task is dispatched: where anything of it changes from here on,
 * it takes the dispatch for void. Whatever changed before is seen here.
 */
bool confirm(int cpu, struct task_struct *linux_task)
{
	struct task *task = task_of(linux_task);
	struct cpu_queue *queue = queue_of(cpu);
	bool is_confirmed;

	lock_queue(queue);
	is_confirmed = task && READ_ONCE(task->home) == cpu && may_come(task, cpu) &&
		       call_running(queue) == task->number;
	unlock_queue(queue);
	wait_for_others(cpu, linux_task);
	if (!is_confirmed)
		atomic64_inc(&cancelled);
	return is_confirmed || is_planted(4);
}

/* Linux's own tick is a net below the timer. It ends a turn where the slice is 0. */
s64 tick(struct task_struct *linux_task)
{
	struct cpu_queue *queue = queue_of(task_cpu(linux_task));
	s64 answer = 0;

	lock_queue(queue);
	if (queue->on_cpu == linux_task) {
		answer = charge(queue);
		linux_task->scx.slice = queue->is_due ? 0 : LINUX_SLICE;
		if (!queue->is_due && !hrtimer_active(&queue->timer))
			set_timer(queue);
	}
	unlock_queue(queue);
	return answer;
}

/* A lone task has nobody to yield to. */
s64 yield_turn(struct task_struct *linux_task)
{
	struct cpu_queue *queue = queue_of(task_cpu(linux_task));
	s64 answer = 0;

	lock_queue(queue);
	if (queue->on_cpu == linux_task) {
		answer = charge(queue);
		if (call_len(queue) >= 2)
			call_yield(queue);
	}
	linux_task->scx.slice = 0;
	unlock_queue(queue);
	return answer;
}

/* A task that is in no queue has its level when it comes. */
s64 change_weight(struct task_struct *linux_task)
{
	struct task *task = task_of(linux_task);
	struct cpu_queue *queue;
	s64 answer;

	if (!task)
		return 0;
	queue = lock_home(task);
	answer = charge(queue);
	if (answer >= 0 && task->number != NO_NUMBER)
		answer = call_set(queue, task->number, nice_of(linux_task), slice_ns());
	unlock_queue(queue);
	return answer;
}

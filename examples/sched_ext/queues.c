/* queues.c: what goes on in the queue of a CPU, under its lock. */
#include "queues.h"

#include <linux/module.h>
#include <linux/slab.h>
#include <linux/timekeeping.h>
#include <linux/version.h>

static unsigned int slice_us = 3000, rebase_ms = 86400000;
module_param(slice_us, uint, 0444);
MODULE_PARM_DESC(slice_us, "the slice of each task, in microseconds: 100 to 100000");
module_param(rebase_ms, uint, 0444);
MODULE_PARM_DESC(rebase_ms, "how often each queue is rebased, in milliseconds; default: each day");

static bool dozes = true;
module_param(dozes, bool, 0444);
MODULE_PARM_DESC(dozes, "0: a task falls asleep by eevdf_sleep, and not by eevdf_doze");

static struct cpu_queue *queues;

struct cpu_queue *queue_of(int cpu)
{
	return &queues[cpu];
}

/* Where others look without the lock, to begin with the most loaded CPU. */
void write_hints(struct cpu_queue *queue)
{
	WRITE_ONCE(queue->tasks_hint, eevdf_len(&queue->queue));
	WRITE_ONCE(queue->load_hint, eevdf_load(&queue->queue));
}

void lock_queue(struct cpu_queue *queue)
{
	raw_spin_lock(&queue->lock);
}

void unlock_queue(struct cpu_queue *queue)
{
	write_hints(queue);
	raw_spin_unlock(&queue->lock);
}

void lock_two(struct cpu_queue *one, struct cpu_queue *other)
{
	struct cpu_queue *first = one->cpu < other->cpu ? one : other;

	raw_spin_lock(&first->lock);
	if (one != other)
		raw_spin_lock_nested(&(first == one ? other : one)->lock, SINGLE_DEPTH_NESTING);
}

/* Linux 6.12 reads this clock from a latch, and doesn't tell KCSAN of that. */
u64 now_ns(void)
{
	return data_race(ktime_get_mono_fast_ns());
}

/*
 * Charges whoever is on the CPU for the time since it was last charged. More than a second is
 * charged in several ticks, and no time in none.
 */
s64 charge(struct cpu_queue *queue)
{
	u64 now = now_ns();
	u64 left = now > queue->since ? now - queue->since : 0;
	s64 answer = 0;

	if (!queue->on_cpu)
		return 0;
	while (left > 0 && answer >= 0) {
		u64 ns = min_t(u64, left, EEVDF_TICK_MAX);

		answer = call_tick(queue, ns);
		queue->is_due |= answer == 1;
		queue->since += ns;
		left -= ns;
	}
	return min_t(s64, answer, 0);
}

u64 slice_ns(void)
{
	return (u64)slice_us * NSEC_PER_USEC;
}

static s64 admit(struct cpu_queue *queue, struct task *task)
{
	eevdf_block block = take_block();
	u64 number = number_for(queue, NO_NUMBER);
	s64 nice = nice_of(task->linux_task);
	s64 answer = call_admit(queue, &block, number, nice, slice_ns());

	give_block(block);
	if (answer >= 0)
		take_number(queue, task, number);
	return answer;
}

/* The task is runnable here, whether it slept here or is new. */
s64 make_runnable(struct cpu_queue *queue, struct task *task)
{
	u64 number = task->number;

	if (number == NO_NUMBER)
		return admit(queue, task);
	return call_is_asleep(queue, number) ? call_wake(queue, number) : 0;
}

/*
 * Who runs falls asleep by one call; who waits is taken out, and put back asleep. Whom Linux takes
 * back doesn't doze: it may come to another queue, where nothing is known of its place.
 */
s64 put_to_sleep(struct cpu_queue *queue, struct task *task, bool falls_asleep)
{
	u64 number = task->number;
	struct hand hand;
	s64 answer;

	is_taken_back(task);
	if (number == NO_NUMBER || call_is_asleep(queue, number))
		return 0;
	if (call_running(queue) == number)
		return falls_asleep && dozes ? call_doze(queue, number) : call_sleep(queue, number);
	open_hand(&hand, false);
	answer = call_take(queue, &hand, number);
	return answer < 0 ? answer : call_put_asleep(queue, &hand);
}

void rebase_in_time(struct cpu_queue *queue)
{
	u64 now = now_ns();

	if (now < queue->rebased + (u64)rebase_ms * NSEC_PER_MSEC)
		return;
	queue->rebased = now;
	call_rebase(queue);
}

void is_left_to_us(struct cpu_queue *queue, struct task *task)
{
	task->is_ours = true;
	list_move_tail(&task->waiting, &queue->waiting);
}

void is_taken_back(struct task *task)
{
	task->is_ours = false;
	list_del_init(&task->waiting);
}

/* The timer is set to the end of the running task's request, by the CPU itself. */
void set_timer(struct cpu_queue *queue)
{
	s64 ns;

	if (smp_processor_id() != queue->cpu)
		return;
	ns = call_time_to_resched(queue);
	if (ns > 0)
		hrtimer_start(&queue->timer, ns_to_ktime(ns), HRTIMER_MODE_REL_PINNED_HARD);
}

/* Has Linux schedule as soon as the interrupt ends, and so ask for a pick. */
static void end_turn(void)
{
	set_tsk_need_resched(current);
	set_preempt_need_resched();
}

static enum hrtimer_restart on_timer(struct hrtimer *timer)
{
	struct cpu_queue *queue = container_of(timer, struct cpu_queue, timer);

	lock_queue(queue);
	if (queue->on_cpu && queue->on_cpu == current && queue->cpu == smp_processor_id()) {
		charge(queue);
		if (queue->is_due)
			end_turn();
		else
			set_timer(queue);
	}
	unlock_queue(queue);
	return HRTIMER_NORESTART;
}

static void set_up_timer(struct hrtimer *timer)
{
#if LINUX_VERSION_CODE >= KERNEL_VERSION(6, 13, 0)
	hrtimer_setup(timer, on_timer, CLOCK_MONOTONIC, HRTIMER_MODE_REL_HARD);
#else
	hrtimer_init(timer, CLOCK_MONOTONIC, HRTIMER_MODE_REL_HARD);
	timer->function = on_timer;
#endif
}

static void begin_queue(struct cpu_queue *queue, int cpu)
{
	unsigned long flags;

	raw_spin_lock_init(&queue->lock);
	queue->cpu = cpu;
	queue->rebased = now_ns();
	INIT_LIST_HEAD(&queue->waiting);
	begin_numbers(queue);
	set_up_timer(&queue->timer);
	raw_spin_lock_irqsave(&queue->lock, flags);
	call_open(queue);
	raw_spin_unlock_irqrestore(&queue->lock, flags);
}

int begin_queues(void)
{
	if (slice_ns() < EEVDF_SLICE_MIN || slice_ns() > EEVDF_SLICE_MAX)
		return -EINVAL;
	if (nr_cpu_ids > MAX_CPUS)
		return -E2BIG;
	queues = kvcalloc(nr_cpu_ids, sizeof *queues, GFP_KERNEL);
	if (!queues || begin_tasks(nr_cpu_ids)) {
		kvfree(queues);
		return -ENOMEM;
	}
	for (int cpu = 0; cpu < nr_cpu_ids; cpu++)
		begin_queue(&queues[cpu], cpu);
	return 0;
}

unsigned int all_numbers_taken(void)
{
	unsigned int taken = 0;

	for (int cpu = 0; cpu < nr_cpu_ids; cpu++)
		taken += numbers_taken(&queues[cpu]);
	return taken;
}

unsigned int places_taken(void)
{
	unsigned int taken = 0;

	for (int cpu = 0; cpu < nr_cpu_ids; cpu++)
		for (u64 number = 0; number < EEVDF_TASKS; number++)
			taken += eevdf_contains(&queues[cpu].queue, number) == 1;
	return taken;
}

/* Linux has ended the scheduler, and with it each task. */
void end_queues(void)
{
	for (int cpu = 0; cpu < nr_cpu_ids; cpu++)
		hrtimer_cancel(&queues[cpu].timer);
	end_tasks();
	kvfree(queues);
}

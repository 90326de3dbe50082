/*
 * queues.h: the queues of the CPUs and their locks. A queue's lock is taken with interrupts off,
 * and those of two queues in ascending order. An operation of Linux's takes it inside of Linux's
 * own lock of a run queue, and the queue's timer without that. Inside of it come Linux's lock of
 * its timers, where the queue's is set, and the module's for its numbers and for its failure.
 */
#ifndef QUEUES_H
#define QUEUES_H

#include "numbers.h"

/* 0, or why the queues can't be: too many CPUs, no memory, or a slice out of its limits. */
int begin_queues(void);
void end_queues(void);
/*
 * How many numbers are taken in all queues, and how many tasks the library has there, runnable and
 * asleep. The latter asks for each number.
 */
unsigned int all_numbers_taken(void), places_taken(void);

struct cpu_queue *queue_of(int cpu);
void lock_queue(struct cpu_queue *queue);
void unlock_queue(struct cpu_queue *queue);
void lock_two(struct cpu_queue *one, struct cpu_queue *other);
void write_hints(struct cpu_queue *queue);

/* Takes the lock of the queue to which the task belongs. */
struct cpu_queue *lock_home(struct task *task);

/*
 * The same, and the task belongs to the CPU's queue then: one that was in another queue sleeps in
 * this one, and one that was in none is in none still. Where there is no room for it, and nobody
 * there can make room, it stays where it was, and that lock is taken.
 */
struct cpu_queue *bring(struct task *task, int cpu);

/*
 * A task on its way from one queue to another, in a hand, where it was in the queue. Both locks are
 * held. Where it comes down it sleeps.
 */
struct carried {
	struct task *task;
	u64 number;	/* that it had, or NO_NUMBER */
	struct hand hand;
};
void take_up(struct carried *carried, struct cpu_queue *queue, struct task *task, bool is_second);
void put_down(struct carried *carried, struct cpu_queue *queue);
/* Somebody who belongs to the queue and isn't runnable there, or NULL. */
struct task *who_can_go(struct cpu_queue *queue);

u64 now_ns(void);
/* The slice of each task. */
u64 slice_ns(void);

/* What goes on in one queue, under its lock. Each answers 0 or more, or what has failed. */
s64 charge(struct cpu_queue *queue);
s64 make_runnable(struct cpu_queue *queue, struct task *task);
s64 put_to_sleep(struct cpu_queue *queue, struct task *task, bool falls_asleep);
void rebase_in_time(struct cpu_queue *queue);
void set_timer(struct cpu_queue *queue);
/* Linux has left the task to this scheduler, or takes it back. */
void is_left_to_us(struct cpu_queue *queue, struct task *task);
void is_taken_back(struct task *task);

/* Pulls a task into the CPU's queue, of which neither lock is held, and leaves its lock taken. */
struct cpu_queue *pull_for_idle(int cpu);
struct cpu_queue *pull_for_balance(int cpu);
/* Whether Linux lets the task run there; and whether it does, and has left it to this scheduler. */
bool may_run(const struct task_struct *linux_task, int cpu);
bool may_come(struct task *task, int cpu);

extern atomic64_t pulled, pulled_when_busy;

#endif

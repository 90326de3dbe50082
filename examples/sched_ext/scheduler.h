/*
 * scheduler.h: what Linux tells of its tasks, as operations on the queues. All but begin() are done
 * with interrupts off, and those of a task under Linux's lock of its run queue. A number below
 * 0 says what has failed.
 */
#ifndef SCHEDULER_H
#define SCHEDULER_H

#include "queues.h"

/*
 * A task that was forked, or was there before the scheduler: 0, or -EAGAIN where no CPU where it
 * may run has room for it; and one that has ended.
 */
s64 begin(struct task_struct *linux_task);
void end(struct task_struct *linux_task);

/* The CPU where a task goes that was just forked: of those with room the one of least load. */
int place(struct task_struct *linux_task, int cpu);

/* A task waits for its turn. Answers which CPUs have to be told, by the bits of common.h. */
s64 enqueue(struct task_struct *linux_task);
/* Linux takes back a task, for a while or since it falls asleep. */
s64 take_back(struct task_struct *linux_task, bool falls_asleep);

/*
 * Who is to run on this CPU, or NULL: whoever ran goes on, or nobody is there, or the pick has
 * failed. Linux asks while whoever ran is still the current task.
 */
struct task_struct *pick(int cpu);
/* Whether the task that was picked may still be dispatched, now that Linux has noted it. */
bool confirm(int cpu, struct task_struct *linux_task);
/* Nobody could be dispatched: whoever ran goes on. */
s64 go_on(int cpu);

/* A task runs. Answers which CPUs have to be told, by the bits of common.h, or 0. */
s64 start(struct task_struct *linux_task);
s64 stop(struct task_struct *linux_task);
s64 tick(struct task_struct *linux_task);
s64 yield_turn(struct task_struct *linux_task);
s64 change_weight(struct task_struct *linux_task);

/* Whether that fault is planted. Linux writes the parameter without a lock. */
bool is_planted(int fault);

extern atomic64_t picked, run_unpicked, cancelled;

#endif

/*
 * tasks.h: what the module keeps of each of Linux's tasks, and the blocks of memory of the queues.
 */
#ifndef TASKS_H
#define TASKS_H

#include "calls.h"

#include <linux/list.h>
#include <linux/sched.h>

enum { NOWHERE = -1, NO_NUMBER = EEVDF_TASKS };

struct task {
	struct task_struct *linux_task;	/* whose it is, or NULL */
	int home;			/* to whose queue it belongs, or NOWHERE; under that lock */
	u64 number;			/* its number there, or NO_NUMBER while it isn't in it */
	bool is_ours;			/* Linux has left it to this scheduler to dispatch */
	struct list_head waiting;	/* in `waiting` of its queue while it is ours */
};

/* For so many CPUs: 0, or that there is no memory. */
int begin_tasks(unsigned int cpus);
void end_tasks(void);

/* A task of Linux's begins, which belongs to no queue yet, or has ended: then its block is free. */
struct task *begin_task(struct task_struct *linux_task);
void end_task(struct task *task, eevdf_block block);

/* The task, or NULL where it hasn't begun. */
struct task *task_of(const struct task_struct *linux_task);
/* The tasks from the first on; NULL behind the last. Some of them belong to nobody. */
struct task *task_at(unsigned int at);

/* A block for a task that comes into a queue for the first time, and one that comes back. */
eevdf_block take_block(void);
void give_block(eevdf_block block);

/* How many tasks have begun, and how many blocks are taken. */
unsigned int tasks_taken(void), blocks_taken(void);

s64 nice_of(const struct task_struct *linux_task);

#endif

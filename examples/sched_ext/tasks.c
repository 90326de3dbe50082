/*
 * tasks.c: the tasks, and blocks of memory. There are as many of each as all queues have numbers.
 * No call of the library asks for memory: each task that is in a queue has a block of the module's.
 */
#include "tasks.h"

#include <linux/slab.h>

struct block {
	u64 words[EEVDF_TASK_SIZE / sizeof(u64)];
};

static unsigned int count;	/* of tasks, and of blocks */
static struct task *tasks;
static struct block *blocks;

static DEFINE_RAW_SPINLOCK(pool_lock);
static struct task **free_tasks;
static void **free_blocks;
static unsigned int free_task_count, free_block_count;

int begin_tasks(unsigned int cpus)
{
	count = cpus * EEVDF_TASKS;
	tasks = kvcalloc(count, sizeof *tasks, GFP_KERNEL);
	blocks = kvcalloc(count, sizeof *blocks, GFP_KERNEL);
	free_tasks = kvcalloc(count, sizeof *free_tasks, GFP_KERNEL);
	free_blocks = kvcalloc(count, sizeof *free_blocks, GFP_KERNEL);
	if (!tasks || !blocks || !free_tasks || !free_blocks) {
		end_tasks();
		return -ENOMEM;
	}
	for (unsigned int at = 0; at < count; at++) {
		free_tasks[at] = &tasks[count - 1 - at];
		free_blocks[at] = &blocks[at];
		tasks[at] = (struct task){ .home = NOWHERE, .number = NO_NUMBER };
		INIT_LIST_HEAD(&tasks[at].waiting);
	}
	free_task_count = free_block_count = count;
	return 0;
}

void end_tasks(void)
{
	kvfree(free_blocks);
	kvfree(free_tasks);
	kvfree(blocks);
	kvfree(tasks);
}

/*
 * sched_ext lets a scheduler keep a number there, where no dispatch goes by a virtual time. So many
 * tasks there are that whoever finds room in a queue finds one.
 */
struct task *begin_task(struct task_struct *linux_task)
{
	struct task *task = NULL;
	unsigned long flags;

	raw_spin_lock_irqsave(&pool_lock, flags);
	if (free_task_count) {
		task = free_tasks[--free_task_count];
		WRITE_ONCE(task->linux_task, linux_task);
		linux_task->scx.dsq_vtime = task - tasks;
	}
	raw_spin_unlock_irqrestore(&pool_lock, flags);
	return task;
}

void end_task(struct task *task, eevdf_block block)
{
	unsigned long flags;

	give_block(block);
	raw_spin_lock_irqsave(&pool_lock, flags);
	WRITE_ONCE(task->linux_task, NULL);
	free_tasks[free_task_count++] = task;
	raw_spin_unlock_irqrestore(&pool_lock, flags);
}

struct task *task_at(unsigned int at)
{
	return at < count ? &tasks[at] : NULL;
}

struct task *task_of(const struct task_struct *linux_task)
{
	u64 at = linux_task->scx.dsq_vtime;

	if (at >= count || READ_ONCE(tasks[at].linux_task) != linux_task)
		return NULL;
	return &tasks[at];
}

/* There are as many blocks as tasks, so each task gets one. */
eevdf_block take_block(void)
{
	eevdf_block block = { NULL };
	unsigned long flags;

	raw_spin_lock_irqsave(&pool_lock, flags);
	if (free_block_count)
		block.at = free_blocks[--free_block_count];
	raw_spin_unlock_irqrestore(&pool_lock, flags);
	return block;
}

void give_block(eevdf_block block)
{
	unsigned long flags;

	if (!block.at)
		return;
	raw_spin_lock_irqsave(&pool_lock, flags);
	free_blocks[free_block_count++] = block.at;
	raw_spin_unlock_irqrestore(&pool_lock, flags);
}

unsigned int tasks_taken(void)
{
	return count - free_task_count;
}

unsigned int blocks_taken(void)
{
	return count - free_block_count;
}

/* A task of SCHED_IDLE is as light as the lightest nice level. */
s64 nice_of(const struct task_struct *linux_task)
{
	if (linux_task->policy == SCHED_IDLE)
		return EEVDF_NICE_MAX;
	return PRIO_TO_NICE(linux_task->static_prio);
}

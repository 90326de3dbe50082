/*
 * numbers.c: the numbers of a CPU's queue. The one that was given back last is taken first, and
 * those that nobody has had yet in ascending order. A task that comes from another queue keeps its
 * number where that is free.
 */
#include "numbers.h"

void begin_numbers(struct cpu_queue *queue)
{
	INIT_LIST_HEAD(&queue->free_numbers);
	for (unsigned int at = 0; at < EEVDF_TASKS; at++)
		list_add_tail(&queue->numbers[at].free, &queue->free_numbers);
}

bool has_room(const struct cpu_queue *queue)
{
	return READ_ONCE(queue->members) < EEVDF_TASKS;
}

void join(struct cpu_queue *queue, struct task *task)
{
	WRITE_ONCE(queue->members, queue->members + 1);
	WRITE_ONCE(task->home, queue->cpu);
}

void part(struct cpu_queue *queue)
{
	WRITE_ONCE(queue->members, queue->members - 1);
}

u64 number_for(struct cpu_queue *queue, u64 wanted)
{
	struct number *first;

	if (wanted < EEVDF_TASKS && !queue->numbers[wanted].task)
		return wanted;
	first = list_first_entry_or_null(&queue->free_numbers, struct number, free);
	return first ? first - queue->numbers : NO_NUMBER;
}

void take_number(struct cpu_queue *queue, struct task *task, u64 number)
{
	list_del_init(&queue->numbers[number].free);
	queue->numbers[number].task = task;
	task->number = number;
}

void give_number(struct cpu_queue *queue, struct task *task)
{
	queue->numbers[task->number].task = NULL;
	list_add(&queue->numbers[task->number].free, &queue->free_numbers);
	task->number = NO_NUMBER;
}

struct task *task_by_number(const struct cpu_queue *queue, s64 number)
{
	return number >= 0 && number < EEVDF_TASKS ? queue->numbers[number].task : NULL;
}

unsigned int numbers_taken(const struct cpu_queue *queue)
{
	unsigned int taken = 0;

	for (unsigned int at = 0; at < EEVDF_TASKS; at++)
		taken += queue->numbers[at].task != NULL;
	return taken;
}

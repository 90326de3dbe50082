/*
 * numbers.h: the numbers of a CPU's queue. Each task belongs to one queue from its fork to its end,
 * whether it is in it or not, and to each queue no more tasks belong than it has numbers. So a task
 * that comes into its queue finds one that is free. All of it is done under the queue's lock, but
 * that whoever asks for room may do so without.
 */
#ifndef NUMBERS_H
#define NUMBERS_H

#include "tasks.h"

void begin_numbers(struct cpu_queue *queue);

bool has_room(const struct cpu_queue *queue);
/* A task belongs to the queue from now on. */
void join(struct cpu_queue *queue, struct task *task);
/* One of the queue's tasks is about to belong to another, or to none. */
void part(struct cpu_queue *queue);

/* The wanted number where nobody has it here, and else the one that was given back last. */
u64 number_for(struct cpu_queue *queue, u64 wanted);
/* The task comes into the queue under a number that is free, or has left it. */
void take_number(struct cpu_queue *queue, struct task *task, u64 number);
void give_number(struct cpu_queue *queue, struct task *task);

/* The task that has the number here, or NULL. */
struct task *task_by_number(const struct cpu_queue *queue, s64 number);
unsigned int numbers_taken(const struct cpu_queue *queue);

#endif

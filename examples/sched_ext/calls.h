/*
 * calls.h: the calls of the library that the module makes, each of which is written into the trace
 * where there is one, and counted. A refused call is kept as the failure of the run, which ends the
 * scheduler; calls.c lists the refusals that are part of a good run.
 */
#ifndef CALLS_H
#define CALLS_H

#include "common.h"

#include <eevdf.h>
#include <linux/hrtimer.h>
#include <linux/spinlock.h>

/* The calls by the numbers that they have in the trace; replay.py has the same list. */
enum call {
	CALL_OPEN, CALL_ADMIT, CALL_END, CALL_PICK, CALL_PEEK, CALL_TICK, CALL_TIME_TO_RESCHED,
	CALL_YIELD, CALL_STOP, CALL_RUN, CALL_SLEEP, CALL_DOZE, CALL_WAKE, CALL_SET, CALL_TAKE,
	CALL_HAND_RENUMBER, CALL_PUT, CALL_PUT_ASLEEP, CALL_PULL, CALL_PULL_TASK, CALL_REBASE,
	CALL_LEN, CALL_RUNNING, CALL_CANDIDATE, CALL_IS_ASLEEP, CALL_ENTRY_OF
};

/* A number of a queue's, and the task that has it there, or NULL. */
struct number {
	struct task *task;
	struct list_head free;	/* in `free_numbers` of its queue while nobody has it */
};

/* The run queue of a CPU. All but `cpu` and the hints needs the lock. */
struct cpu_queue {
	raw_spinlock_t lock;
	int cpu;
	eevdf_queue queue;
	struct list_head waiting;	/* its tasks that Linux has left to this scheduler */
	struct task_struct *on_cpu;	/* who runs on the CPU, and is charged from `since` on */
	u64 since;
	u64 rebased;
	bool is_due;			/* a request was used up since the last pick */
	struct hrtimer timer;
	long tasks_hint, load_hint;	/* written under the lock, and read without */
	unsigned int members;		/* likewise: how many tasks belong to it */
	struct list_head free_numbers;
	struct number numbers[EEVDF_TASKS];
};

/* A hand, by the number that it has in the trace: each CPU has two. */
struct hand {
	eevdf_hand hand;
	u8 at;
};

int begin_trace(void);
void end_trace(void);

/* What the first call answers that failed, or 0; and the same in words, or NULL. */
s64 failure(void);
const char *failure_in_words(void);
/* Keeps that a call failed, or that its answer can't be right. Gives the answer. */
s64 fail(struct cpu_queue *queue, enum call call, u64 task, s64 answer);
u64 calls_made(void);

/* Opens one of the two hands of this CPU. */
void open_hand(struct hand *hand, bool is_second);

void call_open(struct cpu_queue *queue);
s64 call_admit(struct cpu_queue *queue, eevdf_block *block, u64 task, s64 nice, u64 slice_ns);
s64 call_end(struct cpu_queue *queue, eevdf_block *block, u64 task);
s64 call_pick(struct cpu_queue *queue);
s64 call_peek(struct cpu_queue *queue);
s64 call_tick(struct cpu_queue *queue, u64 ns);
s64 call_time_to_resched(struct cpu_queue *queue);
s64 call_yield(struct cpu_queue *queue);
s64 call_stop(struct cpu_queue *queue);
s64 call_run(struct cpu_queue *queue, u64 task);
s64 call_sleep(struct cpu_queue *queue, u64 task);
s64 call_doze(struct cpu_queue *queue, u64 task);
s64 call_wake(struct cpu_queue *queue, u64 task);
s64 call_set(struct cpu_queue *queue, u64 task, s64 nice, u64 slice_ns);
s64 call_take(struct cpu_queue *queue, struct hand *hand, u64 task);
s64 call_hand_renumber(struct cpu_queue *queue, struct hand *hand, u64 task);
s64 call_put(struct cpu_queue *queue, struct hand *hand);
s64 call_put_asleep(struct cpu_queue *queue, struct hand *hand);
s64 call_pull(struct cpu_queue *to, struct cpu_queue *from);
s64 call_pull_task(struct cpu_queue *to, struct cpu_queue *from, u64 task);
s64 call_rebase(struct cpu_queue *queue);
s64 call_len(struct cpu_queue *queue);
s64 call_running(struct cpu_queue *queue);
s64 call_candidate(struct cpu_queue *queue);
s64 call_is_asleep(struct cpu_queue *queue, u64 task);
s64 call_deadline(struct cpu_queue *queue, u64 task, s64 *deadline);

#endif

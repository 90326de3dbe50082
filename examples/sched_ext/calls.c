/*
 * calls.c: makes each call of the library, and writes it into the trace. The trace lies in memory
 * that Linux leaves alone (mem= on its command line), so that whoever runs the machine can read it
 * afterwards, also where the machine came to no end. All is done under the queue's lock, so the
 * records of a queue stand in the order of its calls.
 */
#include "calls.h"

#include <linux/io.h>
#include <linux/kcsan-checks.h>
#include <linux/kernel.h>
#include <linux/module.h>
#include <linux/smp.h>

/*
 * A call, its numbers and its answer; and of a call that may change the queue, how the queue is
 * after it.
 */
struct record {
	u8 call, queue;
	u8 other;	/* the queue that a pull takes from */
	u8 hand;
	u32 task;
	s64 first, second, third, answer;
	s64 time, load;
};

struct trace {
	u64 magic, room;
	atomic64_t made;	/* of these the first `room` have a record */
	u64 unused;
	struct record records[];
};

static unsigned long trace_at, trace_size;
module_param(trace_at, ulong, 0444);
MODULE_PARM_DESC(trace_at, "where in physical memory the trace goes");
module_param(trace_size, ulong, 0444);
MODULE_PARM_DESC(trace_size, "how many bytes it may take; 0, as by default: there is no trace");

static struct trace *trace;
static DEFINE_PER_CPU(u64, made);
static DEFINE_RAW_SPINLOCK(failure_lock);
static s64 first_failure;
static char words_of_failure[96];

int begin_trace(void)
{
	if (!trace_size)
		return 0;
	trace = memremap(trace_at, trace_size, MEMREMAP_WB);
	if (!trace)
		return -ENOMEM;
	trace->room = (trace_size - sizeof *trace) / sizeof trace->records[0];
	atomic64_set(&trace->made, 0);
	trace->magic = TRACE_MAGIC;
	return 0;
}

void end_trace(void)
{
	if (trace)
		memunmap(trace);
	trace = NULL;
}

s64 failure(void)
{
	return READ_ONCE(first_failure);
}

const char *failure_in_words(void)
{
	return first_failure ? words_of_failure : NULL;
}

static s64 keep_failure(int cpu, enum call call, u64 task, s64 answer)
{
	unsigned long flags;

	raw_spin_lock_irqsave(&failure_lock, flags);
	if (!first_failure) {
		snprintf(words_of_failure, sizeof words_of_failure,
			 "call %d of task %llu on CPU %d answers %lld", call, task, cpu, answer);
		WRITE_ONCE(first_failure, answer);
	}
	raw_spin_unlock_irqrestore(&failure_lock, flags);
	return answer;
}

s64 fail(struct cpu_queue *queue, enum call call, u64 task, s64 answer)
{
	return keep_failure(queue->cpu, call, task, answer);
}

/*
 * Refusals of a good run: nobody is there to run or to be pulled, or needs a timer, a pull would
 * bring no loads closer, or its task's number is taken where it goes, so that it comes by a hand,
 * and a task has yielded so often that its deadline would leave the range.
 */
static bool is_good(enum call call, s64 answer)
{
	switch (call) {
	case CALL_PICK:
	case CALL_RUNNING:
	case CALL_TIME_TO_RESCHED:
	case CALL_CANDIDATE:
		return answer == EEVDF_ABSENT;
	case CALL_PULL:
	case CALL_PULL_TASK:
		return answer == EEVDF_BALANCED || answer == EEVDF_PRESENT;
	case CALL_YIELD:
		return answer == EEVDF_RANGE;
	default:
		return false;
	}
}

u64 calls_made(void)
{
	u64 all = 0;
	int cpu;

	for_each_possible_cpu(cpu)
		all += per_cpu(made, cpu);
	return all;
}

/*
 * Counts a call, writes it into the trace, and looks whether it was refused. The library's object
 * tells Linux's checkers nothing of what it reads and writes, so they are told here.
 */
static s64 note(struct cpu_queue *queue, struct record record)
{
	s64 at;

	lockdep_assert_held(&queue->lock);
	ASSERT_EXCLUSIVE_ACCESS(queue->queue.bytes[0]);
	record.queue = queue->cpu;
	this_cpu_inc(made);
	if (trace) {
		at = atomic64_fetch_inc(&trace->made);
		if (at < trace->room)
			trace->records[at] = record;
	}
	if (record.answer < 0 && !is_good(record.call, record.answer))
		keep_failure(record.queue, record.call, record.task, record.answer);
	return record.answer;
}

static s64 time_of(struct cpu_queue *queue)
{
	int64_t time = 0;

	eevdf_floor_time(&queue->queue, &time);
	return time;
}

/* A call that may change the queue. */
static s64 note_change(struct cpu_queue *queue, struct record record)
{
	if (trace) {
		record.time = time_of(queue);
		record.load = eevdf_load(&queue->queue);
	}
	return note(queue, record);
}

/* A call that has no more numbers than a task. */
static s64 note_task(struct cpu_queue *queue, enum call call, u64 task, s64 answer)
{
	return note_change(queue, (struct record){ .call = call, .task = task, .answer = answer });
}

/* A call that changes nothing. */
static s64 note_answer(struct cpu_queue *queue, enum call call, u64 task, s64 answer)
{
	return note(queue, (struct record){ .call = call, .task = task, .answer = answer });
}

void open_hand(struct hand *hand, bool is_second)
{
	eevdf_hand_open(&hand->hand);
	hand->at = 2 * smp_processor_id() + is_second;
}

void call_open(struct cpu_queue *queue)
{
	eevdf_open(&queue->queue);
	note_task(queue, CALL_OPEN, 0, 0);
}

/* A new task begins at the queue's virtual time. */
s64 call_admit(struct cpu_queue *queue, eevdf_block *block, u64 task, s64 nice, u64 slice_ns)
{
	s64 start = time_of(queue);
	s64 answer = eevdf_admit_in(&queue->queue, block, task, nice, slice_ns, start);

	return note_change(queue, (struct record){
		.call = CALL_ADMIT, .task = task, .first = nice, .second = slice_ns, .third = start,
		.answer = answer });
}

s64 call_end(struct cpu_queue *queue, eevdf_block *block, u64 task)
{
	return note_task(queue, CALL_END, task, eevdf_end_out(&queue->queue, block, task));
}

s64 call_pick(struct cpu_queue *queue)
{
	return note_task(queue, CALL_PICK, 0, eevdf_pick(&queue->queue));
}

s64 call_peek(struct cpu_queue *queue)
{
	return note_answer(queue, CALL_PEEK, 0, eevdf_peek(&queue->queue));
}

s64 call_tick(struct cpu_queue *queue, u64 ns)
{
	s64 answer = eevdf_tick(&queue->queue, ns);

	return note_change(queue, (struct record){
		.call = CALL_TICK, .first = ns, .answer = answer });
}

s64 call_time_to_resched(struct cpu_queue *queue)
{
	return note_answer(queue, CALL_TIME_TO_RESCHED, 0, eevdf_time_to_resched(&queue->queue));
}

s64 call_yield(struct cpu_queue *queue)
{
	return note_task(queue, CALL_YIELD, 0, eevdf_yield(&queue->queue));
}

s64 call_stop(struct cpu_queue *queue)
{
	return note_task(queue, CALL_STOP, 0, eevdf_stop(&queue->queue));
}

s64 call_run(struct cpu_queue *queue, u64 task)
{
	return note_task(queue, CALL_RUN, task, eevdf_run(&queue->queue, task));
}

s64 call_sleep(struct cpu_queue *queue, u64 task)
{
	return note_task(queue, CALL_SLEEP, task, eevdf_sleep(&queue->queue, task));
}

s64 call_doze(struct cpu_queue *queue, u64 task)
{
	int64_t lag = -1;	/* as replay.py has it where none is written */
	s64 answer = eevdf_doze(&queue->queue, task, &lag);

	return note_change(queue, (struct record){
		.call = CALL_DOZE, .task = task, .first = lag, .answer = answer });
}

s64 call_wake(struct cpu_queue *queue, u64 task)
{
	return note_task(queue, CALL_WAKE, task, eevdf_wake(&queue->queue, task));
}

s64 call_set(struct cpu_queue *queue, u64 task, s64 nice, u64 slice_ns)
{
	s64 answer = eevdf_set(&queue->queue, task, nice, slice_ns);

	return note_change(queue, (struct record){
		.call = CALL_SET, .task = task, .first = nice, .second = slice_ns,
		.answer = answer });
}

s64 call_take(struct cpu_queue *queue, struct hand *hand, u64 task)
{
	s64 answer = eevdf_take(&queue->queue, &hand->hand, task);

	return note_change(queue, (struct record){
		.call = CALL_TAKE, .hand = hand->at, .task = task, .answer = answer });
}

/* The task gets a number of the queue where it is about to be put. */
s64 call_hand_renumber(struct cpu_queue *queue, struct hand *hand, u64 task)
{
	s64 answer = eevdf_hand_renumber(&hand->hand, task);

	return note(queue, (struct record){
		.call = CALL_HAND_RENUMBER, .hand = hand->at, .task = task, .answer = answer });
}

s64 call_put(struct cpu_queue *queue, struct hand *hand)
{
	s64 answer = eevdf_put(&queue->queue, &hand->hand);

	return note_change(queue, (struct record){
		.call = CALL_PUT, .hand = hand->at, .answer = answer });
}

s64 call_put_asleep(struct cpu_queue *queue, struct hand *hand)
{
	s64 answer = eevdf_put_asleep(&queue->queue, &hand->hand);

	return note_change(queue, (struct record){
		.call = CALL_PUT_ASLEEP, .hand = hand->at, .answer = answer });
}

s64 call_pull(struct cpu_queue *to, struct cpu_queue *from)
{
	s64 answer = eevdf_pull(&to->queue, &from->queue);

	return note_change(to, (struct record){
		.call = CALL_PULL, .other = from->cpu, .answer = answer });
}

s64 call_pull_task(struct cpu_queue *to, struct cpu_queue *from, u64 task)
{
	s64 answer = eevdf_pull_task(&to->queue, &from->queue, task);

	return note_change(to, (struct record){
		.call = CALL_PULL_TASK, .other = from->cpu, .task = task, .answer = answer });
}

s64 call_rebase(struct cpu_queue *queue)
{
	int64_t by = 0;
	s64 answer = eevdf_rebase(&queue->queue, &by);

	return note_change(queue, (struct record){
		.call = CALL_REBASE, .first = by, .answer = answer });
}

s64 call_len(struct cpu_queue *queue)
{
	return note_answer(queue, CALL_LEN, 0, eevdf_len(&queue->queue));
}

s64 call_running(struct cpu_queue *queue)
{
	return note_answer(queue, CALL_RUNNING, 0, eevdf_running(&queue->queue));
}

s64 call_candidate(struct cpu_queue *queue)
{
	return note_answer(queue, CALL_CANDIDATE, 0, eevdf_candidate(&queue->queue));
}

s64 call_is_asleep(struct cpu_queue *queue, u64 task)
{
	return note_answer(queue, CALL_IS_ASLEEP, task, eevdf_is_asleep(&queue->queue, task));
}

s64 call_deadline(struct cpu_queue *queue, u64 task, s64 *deadline)
{
	eevdf_entry entry = { 0, 0, 0, 0 };
	s64 answer = eevdf_entry_of(&queue->queue, task, &entry);

	*deadline = entry.deadline;
	return note(queue, (struct record){
		.call = CALL_ENTRY_OF, .task = task, .first = entry.deadline,
		.second = entry.vruntime, .answer = answer });
}

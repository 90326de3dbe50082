/*
 * common.h: numbers by which several of the module, the program of BPF, the machine's program and
 * replay.py go. The last reads them here.
 */
#ifndef COMMON_H
#define COMMON_H

/*
 * A machine has no more CPUs. enqueue() and start() answer a bit for each that is to look for work,
 * behind these the CPU in whose queue the task is, and a bit that says that somebody else is to run
 * there.
 */
#define MAX_CPUS 32
#define CPU_SHIFT 32
#define PREEMPT (1ull << 62)

/*
 * What Linux takes for the slice of a task that runs, in ns: by the time that Linux schedules next
 * it is used up, so Linux asks who is to run, for whatever reason it schedules. The queue's timer
 * ends a turn, and for that it has to write nothing that Linux has under the lock of a run queue.
 */
#define LINUX_SLICE 1

/* Linux puts the scheduler out once a task waits longer than this. */
#define WATCHDOG_MS 5000

/* A trace begins with it. */
#define TRACE_MAGIC 0x3163617274666465ull

#endif

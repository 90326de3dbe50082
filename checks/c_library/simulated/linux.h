/*
 * linux.h: what the module of examples/sched_ext takes of Linux, for a program of one thread in
 * which drawn.c does what Linux does. A lock is a flag: who takes one that is taken, or makes a call
 * of the library without the queue's, ends the program.
 */
#ifndef SIMULATED_LINUX_H
#define SIMULATED_LINUX_H

#include <assert.h>
#include <errno.h>
#include <limits.h>
#include <stdbool.h>
#include <stddef.h>
#include <stdint.h>
#include <stdio.h>
#include <stdlib.h>
#include <string.h>

typedef uint8_t u8;
typedef uint32_t u32;
typedef long long s64;
typedef unsigned long long u64;

#define S64_MIN LLONG_MIN
#define NSEC_PER_USEC 1000ll
#define NSEC_PER_MSEC 1000000ll
#define BIT(at) (1ul << (at))
#define min_t(type, one, other) ((type)(one) < (type)(other) ? (type)(one) : (type)(other))
#define container_of(at, type, member) ((type *)((char *)(at) - offsetof(type, member)))
#define READ_ONCE(value) (*(volatile __typeof__(value) *)&(value))
#define WRITE_ONCE(value, other) (*(volatile __typeof__(value) *)&(value) = (other))
#define smp_mb() ((void)0)
#define data_race(value) (value)

/* Lists. */
struct list_head {
	struct list_head *next, *prev;
};

static inline void INIT_LIST_HEAD(struct list_head *list)
{
	list->next = list->prev = list;
}

static inline void list_add(struct list_head *new, struct list_head *head)
{
	new->next = head->next;
	new->prev = head;
	head->next->prev = new;
	head->next = new;
}

static inline void list_add_tail(struct list_head *new, struct list_head *head)
{
	list_add(new, head->prev);
}

static inline void list_del_init(struct list_head *entry)
{
	entry->next->prev = entry->prev;
	entry->prev->next = entry->next;
	INIT_LIST_HEAD(entry);
}

static inline void list_move_tail(struct list_head *entry, struct list_head *head)
{
	list_del_init(entry);
	list_add_tail(entry, head);
}

#define list_first_entry_or_null(head, type, member) \
	((head)->next == (head) ? NULL : container_of((head)->next, type, member))
#define list_for_each_entry(at, head, member) \
	for ((at) = container_of((head)->next, __typeof__(*(at)), member); &(at)->member != (head); \
	     (at) = container_of((at)->member.next, __typeof__(*(at)), member))

/* Locks. */
typedef struct raw_spinlock {
	bool is_taken;
} raw_spinlock_t;

#define DEFINE_RAW_SPINLOCK(name) raw_spinlock_t name
#define SINGLE_DEPTH_NESTING 1
#define raw_spin_lock_init(lock) ((lock)->is_taken = false)
#define raw_spin_lock_nested(lock, depth) raw_spin_lock(lock)
#define raw_spin_lock_irqsave(lock, flags) ((flags) = 0, raw_spin_lock(lock))
#define raw_spin_unlock_irqrestore(lock, flags) ((void)(flags), raw_spin_unlock(lock))
#define local_irq_save(flags) ((flags) = 0)
#define local_irq_restore(flags) ((void)(flags))
#define lockdep_assert_held(lock) assert((lock)->is_taken)
#define ASSERT_EXCLUSIVE_ACCESS(value) ((void)0)

static inline void raw_spin_lock(raw_spinlock_t *lock)
{
	assert(!lock->is_taken);
	lock->is_taken = true;
}

static inline void raw_spin_unlock(raw_spinlock_t *lock)
{
	assert(lock->is_taken);
	lock->is_taken = false;
}

typedef struct {
	s64 value;
} atomic64_t;

#define atomic64_inc(counter) ((void)++(counter)->value)
#define atomic64_read(counter) ((counter)->value)
#define atomic64_set(counter, to) ((counter)->value = (to))
#define atomic64_fetch_inc(counter) ((counter)->value++)
#define set_bit(at, word) (*(word) |= BIT(at))
#define clear_bit(at, word) (*(word) &= ~BIT(at))

/* CPUs. */
struct cpumask {
	unsigned long bits;
};

extern struct cpumask online;
extern int nr_cpu_ids, this_cpu;

#define cpu_online_mask (&online)
#define smp_processor_id() this_cpu
#define cpumask_test_cpu(cpu, mask) ((mask)->bits >> (cpu) & 1)
#define for_each_possible_cpu(cpu) for ((cpu) = 0; (cpu) < 1; (cpu)++)
#define for_each_online_cpu(cpu) for ((cpu) = 0; (cpu) < nr_cpu_ids; (cpu)++)
#define for_each_cpu_and(cpu, one, other) \
	for_each_online_cpu(cpu) if ((one)->bits & (other)->bits & BIT(cpu))
#define for_each_cpu_wrap(cpu, mask, first) \
	for (int past = 0; (cpu) = ((first) + past) % nr_cpu_ids, past < nr_cpu_ids; past++) \
		if (cpumask_test_cpu(cpu, mask))
#define DEFINE_PER_CPU(type, name) type name
#define per_cpu(name, cpu) ((void)(cpu), name)
#define this_cpu_inc(name) ((void)++name)

/* Time, which drawn.c lets pass. A timer doesn't end. */
enum hrtimer_restart { HRTIMER_NORESTART };

struct hrtimer {
	enum hrtimer_restart (*function)(struct hrtimer *timer);
};

extern u64 time_ns;

#define CLOCK_MONOTONIC 1
#define HRTIMER_MODE_REL_HARD 0
#define HRTIMER_MODE_REL_PINNED_HARD 0
#define LINUX_VERSION_CODE 0
#define KERNEL_VERSION(major, minor, patch) 1
#define ktime_get_mono_fast_ns() time_ns
#define ns_to_ktime(ns) (ns)
#define hrtimer_init(timer, clock, mode) ((void)(timer))
#define hrtimer_start(timer, ns, mode) ((void)(timer), (void)(ns))
#define hrtimer_active(timer) ((void)(timer), true)
#define hrtimer_cancel(timer) ((void)(timer))
#define mdelay(ms) ((void)0)

/* Memory, and the module's parameters, each of which a function sets. */
#define GFP_KERNEL 0
#define kvcalloc(count, size, flags) calloc(count, size)
#define kvfree(memory) free(memory)
#define MEMREMAP_WB 0
#define memremap(at, size, flags) ((void)(at), trace_memory)
#define memunmap(memory) ((void)(memory))
#define module_param(name, type, mode) \
	void set_##name(unsigned long value); \
	void set_##name(unsigned long value) { name = value; } \
	_Static_assert(mode, "who may read and write it")
#define MODULE_PARM_DESC(name, text) _Static_assert(sizeof(text), "what it means")

extern void *trace_memory;

/* Tasks. */
#define SCHED_IDLE 5
#define SCX_TASK_QUEUED 1
#define SCX_SLICE_DFL 20000000ull
#define PRIO_TO_NICE(priority) ((priority) - 120)
#define task_cpu(task) ((task)->cpu)
#define set_tsk_need_resched(task) ((void)(task))
#define set_preempt_need_resched() ((void)0)

struct task_struct {
	struct {
		u64 dsq_vtime, slice;
		u32 flags;
	} scx;
	int cpu, policy, static_prio;
	unsigned int migration_disabled;
	struct cpumask cpus;
	const struct cpumask *cpus_ptr;
	char comm[16];
	/* drawn.c's own: what Linux does with it */
	enum { SLEEPS, WAITS, RUNS, IS_OF_ANOTHER_CLASS } state;
};

extern struct task_struct idle, *runs_on[];

#define current (runs_on[this_cpu] ? runs_on[this_cpu] : &idle)

#endif

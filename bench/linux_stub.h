/*
 * linux_stub.h: what the functions that bench/linux_cut.py cuts out of Linux expect around them, for
 * a program of one thread. Statistics, load tracking, groups, bandwidth and locks do nothing here.
 */
#ifndef LINUX_STUB_H
#define LINUX_STUB_H

#include <stdbool.h>
#include <stddef.h>
#include <stdint.h>

typedef uint64_t u64;
typedef int64_t s64;
typedef uint32_t u32;
typedef int32_t s32;

typedef struct {
	int unused;
} raw_spinlock_t;

struct list_head {
	struct list_head *next, *prev;
};

struct sched_statistics {
	u64 slice_max;
};

#define CONFIG_SMP 1
#define CONFIG_64BIT 1
#define BITS_PER_LONG 64

#define __rcu
#define EXPORT_SYMBOL(name)
#undef __always_inline
#define __always_inline inline __attribute__((always_inline))
#define ____cacheline_aligned __attribute__((aligned(64)))
#define likely(x) __builtin_expect(!!(x), 1)
#define unlikely(x) __builtin_expect(!!(x), 0)
#define container_of(at, type, member) ((type *)((char *)(at) - offsetof(type, member)))
#define READ_ONCE(x) (*(const volatile __typeof__(x) *)&(x))
#define WRITE_ONCE(x, value) (*(volatile __typeof__(x) *)&(x) = (value))
#define rcu_assign_pointer(p, value) __atomic_store_n(&(p), (value), __ATOMIC_RELEASE)
#define rcu_dereference_raw(p) READ_ONCE(p)
#define min(a, b) ({ __typeof__(a) a_ = (a); __typeof__(b) b_ = (b); a_ < b_ ? a_ : b_; })
#define max(a, b) ({ __typeof__(a) a_ = (a); __typeof__(b) b_ = (b); a_ > b_ ? a_ : b_; })
#define min_t(type, a, b) min((type)(a), (type)(b))
#define max_t(type, a, b) max((type)(a), (type)(b))
#define clamp(x, low, high) min(max((x), (low)), (high))

/* A warning of the kernel's. The program ends with 1 where there was one. */
extern unsigned long warnings;
#define WARN_ON_ONCE(x) (unlikely(x) ? (++warnings, true) : false)
#define SCHED_WARN_ON(x) WARN_ON_ONCE(x)

static inline void list_add(struct list_head *one, struct list_head *head)
{
	one->next = head->next;
	one->prev = head;
	head->next->prev = one;
	head->next = one;
}

static inline void list_del_init(struct list_head *one)
{
	one->prev->next = one->next;
	one->next->prev = one->prev;
	one->next = one;
	one->prev = one;
}

static inline void list_move(struct list_head *one, struct list_head *head)
{
	list_del_init(one);
	list_add(one, head);
}

static inline int fls(u32 x)
{
	return x ? 32 - __builtin_clz(x) : 0;
}

static inline u64 mul_u32_u32(u32 a, u32 b)
{
	return (u64)a * b;
}

static inline u64 mul_u64_u32_shr(u64 a, u32 b, unsigned int shift)
{
	return (u64)((unsigned __int128)a * b >> shift);
}

static inline s64 div_s64(s64 a, s32 b)
{
	return a / b;
}

static inline u64 div_u64(u64 a, u32 b)
{
	return a / b;
}

struct cfs_rq;

/* No group's time is bounded, so none is used up. */
static inline bool check_cfs_rq_runtime(struct cfs_rq *queue)
{
	(void)queue;
	return false;
}

#define UPDATE_TG 1
#define DO_ATTACH 2
#define DO_DETACH 4
#define TICK_NSEC 4000000ull

#define for_each_sched_entity(se) for (; (se); (se) = NULL)
#define entity_is_task(se) 1
#define task_of(entity) container_of((entity), struct task_struct, se)
#define rq_of(queue) container_of((queue), struct rq, cfs)
#define task_cfs_rq(p) ((p)->queue)
#define cfs_rq_of(se) (task_of(se)->queue)
#define group_cfs_rq(se) ((struct cfs_rq *)NULL)
#define se_is_idle(se) 0
#define task_on_rq_migrating(p) 0
#define rq_clock_task(rq) ((rq)->clock_task)
#define update_rq_clock(rq) ((void)0)
#define rq_clock_skip_update(rq) ((void)0)
#define schedstat_enabled() 0
#define __schedstats_from_se(se) ((struct sched_statistics *)NULL)
#define __schedstat_set(at, value) ((void)0)
#define check_schedstat_required() ((void)0)
#define update_stats_enqueue_fair(queue, se, flags) ((void)0)
#define update_stats_dequeue_fair(queue, se, flags) ((void)0)
#define update_stats_wait_start_fair(queue, se) ((void)0)
#define update_stats_wait_end_fair(queue, se) ((void)0)
#define update_curr_task(p, delta) ((void)(p), (void)(delta))
#define dl_server_active(server) 0
#define dl_server_update(server, delta) ((void)0)
#define account_cfs_rq_runtime(queue, delta) ((void)0)
#define return_cfs_rq_runtime(queue) ((void)0)
#define check_enqueue_throttle(queue) ((void)0)
#define cfs_rq_throttled(queue) 0
#define throttled_hierarchy(queue) 0
#define list_add_leaf_cfs_rq(queue) ((void)0)
#define update_load_avg(queue, se, flags) ((void)(flags))
#define se_update_runnable(se) ((void)0)
#define update_cfs_group(se) ((void)0)
#define update_idle_cfs_rq_clock_pelt(queue) ((void)0)
#define account_numa_enqueue(rq, p) ((void)(rq))
#define account_numa_dequeue(rq, p) ((void)0)
#define resched_curr(rq) ((rq)->resched = true)

#endif

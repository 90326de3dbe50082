/*
 * names.bpf.h: what is one way in Linux 6.12 and another in later ones, for a program that is
 * compiled once for all. Names of Linux's functions are weak: the loader gives the one that the
 * running Linux hasn't the address 0, and the verifier leaves out what is called by it. Where Linux
 * has neither, the program isn't loaded.
 */
#ifndef NAMES_BPF_H
#define NAMES_BPF_H

#include <linux/types.h>
#include <bpf/bpf_core_read.h>
#include <bpf/bpf_helpers.h>
#include <stdbool.h>

struct task_struct;

/* The loader compares names, so what comes after the three strokes and the number don't matter. */
enum scx_deq_flags___later {
	SCX_DEQ_SCHED_CHANGE = 1
};

extern void scx_bpf_dispatch(struct task_struct *p, __u64 queue, __u64 slice, __u64 flags)
	__ksym __weak;
extern void scx_bpf_dsq_insert(struct task_struct *p, __u64 queue, __u64 slice, __u64 flags)
	__ksym __weak;

/* Puts a task into one of sched_ext's queues. */
static __always_inline void put_into(struct task_struct *p, __u64 queue, __u64 slice)
{
	if (bpf_ksym_exists(scx_bpf_dsq_insert))
		scx_bpf_dsq_insert(p, queue, slice, 0);
	else
		scx_bpf_dispatch(p, queue, slice, 0);
}

/*
 * Whether a task that leaves is taken back by Linux. Where Linux has the flag, it tells of each that
 * leaves the scheduler, also of one that is dispatched.
 */
static __always_inline bool is_taken_back(__u64 flags, __u64 falls_asleep)
{
	if (!bpf_core_enum_value_exists(enum scx_deq_flags___later, SCX_DEQ_SCHED_CHANGE))
		return true;
	return flags & (falls_asleep |
			bpf_core_enum_value(enum scx_deq_flags___later, SCX_DEQ_SCHED_CHANGE));
}

#endif

/*
 * module.c: offers the operations of scheduler.h to BPF, as functions of the kernel, and says at
 * its end what was done. A number below 0 ends the scheduler.
 */
#include "scheduler.h"

#include <linux/bpf.h>
#include <linux/btf.h>
#include <linux/btf_ids.h>
#include <linux/module.h>

/*
 * What an operation answers to BPF: what was the first to fail in this run, or else its own answer.
 * So a refused call ends the scheduler also where the operation that made it answers nothing.
 */
static s64 told(s64 answer)
{
	s64 failed = failure();

	return failed < 0 ? failed : answer;
}

__bpf_kfunc_start_defs();

/* A fork is refused where there is no room, and for nothing else. */
__bpf_kfunc s64 queues_begin(struct task_struct *p)
{
	return begin(p);
}

__bpf_kfunc void queues_end(struct task_struct *p)
{
	end(p);
}

__bpf_kfunc s32 queues_place(struct task_struct *p, s32 cpu)
{
	return place(p, cpu);
}

__bpf_kfunc s64 queues_enqueue(struct task_struct *p)
{
	return told(enqueue(p));
}

__bpf_kfunc s64 queues_take_back(struct task_struct *p, bool falls_asleep)
{
	return told(take_back(p, falls_asleep));
}

/* What it gives has to be given back by bpf_task_release. */
__bpf_kfunc struct task_struct *queues_pick(s32 cpu, s64 *failed)
{
	struct task_struct *picked_one = pick(cpu);

	*failed = told(0);
	/* whoever is runnable has a user */
	return picked_one && refcount_inc_not_zero(&picked_one->rcu_users) ? picked_one : NULL;
}

__bpf_kfunc bool queues_confirm(s32 cpu, struct task_struct *p)
{
	return confirm(cpu, p);
}

__bpf_kfunc s64 queues_go_on(s32 cpu)
{
	return told(go_on(cpu));
}

__bpf_kfunc s64 queues_start(struct task_struct *p)
{
	return told(start(p));
}

__bpf_kfunc s64 queues_stop(struct task_struct *p)
{
	return told(stop(p));
}

__bpf_kfunc s64 queues_tick(struct task_struct *p)
{
	return told(tick(p));
}

__bpf_kfunc s64 queues_yield(struct task_struct *p)
{
	return told(yield_turn(p));
}

__bpf_kfunc s64 queues_set_weight(struct task_struct *p)
{
	return told(change_weight(p));
}

__bpf_kfunc_end_defs();

BTF_KFUNCS_START(queues_ids)
BTF_ID_FLAGS(func, queues_begin)
BTF_ID_FLAGS(func, queues_end)
BTF_ID_FLAGS(func, queues_place)
BTF_ID_FLAGS(func, queues_enqueue)
BTF_ID_FLAGS(func, queues_take_back)
BTF_ID_FLAGS(func, queues_pick, KF_ACQUIRE | KF_RET_NULL)
BTF_ID_FLAGS(func, queues_confirm)
BTF_ID_FLAGS(func, queues_go_on)
BTF_ID_FLAGS(func, queues_start)
BTF_ID_FLAGS(func, queues_stop)
BTF_ID_FLAGS(func, queues_tick)
BTF_ID_FLAGS(func, queues_yield)
BTF_ID_FLAGS(func, queues_set_weight)
BTF_KFUNCS_END(queues_ids)

static const struct btf_kfunc_id_set queues_set = { .owner = THIS_MODULE, .set = &queues_ids };

static int __init begin_module(void)
{
	int answer = begin_trace();

	if (answer)
		return answer;
	answer = begin_queues();
	if (answer)
		goto without_queues;
	answer = register_btf_kfunc_id_set(BPF_PROG_TYPE_STRUCT_OPS, &queues_set);
	if (!answer)
		return 0;
	end_queues();
without_queues:
	end_trace();
	return answer;
}

static void __exit end_module(void)
{
	const char *failed = failure_in_words();

	pr_info("queues: %llu calls, %lld picks, %lld run unpicked\n", calls_made(),
		atomic64_read(&picked), atomic64_read(&run_unpicked));
	pr_info("queues: %lld pulled by idle CPUs, %lld by busy ones, %lld dispatches cancelled\n",
		atomic64_read(&pulled), atomic64_read(&pulled_when_busy),
		atomic64_read(&cancelled));
	pr_info("queues: %u tasks, %u numbers, %u blocks and %u places in queues are still taken\n",
		tasks_taken(), all_numbers_taken(), blocks_taken(), places_taken());
	pr_info("queues: failed: %s\n", failed ? failed : "nothing");
	end_queues();
	end_trace();
}

module_init(begin_module);
module_exit(end_module);
MODULE_DESCRIPTION("Linux's tasks in run queues under EEVDF");
/* Linux offers register_btf_kfunc_id_set to such modules alone; README.md says who may load it. */
MODULE_LICENSE("GPL");

/*
 * scheduler.bpf.c: hands each operation of sched_ext to the module, and does to Linux what that
 * answers. It decides nothing. It tells the few types of Linux's that it uses; the loader finds
 * where they differ.
 */
#include <linux/types.h>
#include <stdbool.h>
#include <bpf/bpf_helpers.h>
#include <bpf/bpf_tracing.h>

#include "common.h"
#include "names.bpf.h"

typedef __s32 s32;
typedef __s64 s64;
typedef __u64 u64;

#define LOCAL_QUEUE (1ull << 63 | 2)
#define KICK_IDLE 1
#define KICK_PREEMPT 2
#define WAKE_FORK 4
#define KEEP_EXITING 4	/* SCX_OPS_ENQ_EXITING: tasks that end are enqueued as others are */
#define FALLS_ASLEEP 1	/* SCX_DEQ_SLEEP */
#define TRIES 8

struct task_struct {
	int pid;
} __attribute__((preserve_access_index));

struct scx_init_task_args;
struct scx_exit_task_args;
struct scx_cpu_release_args;

/* The operations that this scheduler has, by Linux's names. */
struct sched_ext_ops {
	s32 (*select_cpu)(struct task_struct *p, s32 cpu, u64 flags);
	void (*enqueue)(struct task_struct *p, u64 flags);
	void (*dequeue)(struct task_struct *p, u64 flags);
	void (*dispatch)(s32 cpu, struct task_struct *before);
	void (*tick)(struct task_struct *p);
	void (*running)(struct task_struct *p);
	void (*stopping)(struct task_struct *p, bool is_runnable);
	void (*quiescent)(struct task_struct *p, u64 flags);
	bool (*yield)(struct task_struct *from, struct task_struct *to);
	void (*set_weight)(struct task_struct *p, __u32 weight);
	void (*cpu_release)(s32 cpu, struct scx_cpu_release_args *args);
	s32 (*init_task)(struct task_struct *p, struct scx_init_task_args *args);
	void (*exit_task)(struct task_struct *p, struct scx_exit_task_args *args);
	u64 flags;
	__u32 timeout_ms;
	char name[128];
};

/* The module's. */
extern s64 queues_begin(struct task_struct *p) __ksym;
extern void queues_end(struct task_struct *p) __ksym;
extern s32 queues_place(struct task_struct *p, s32 cpu) __ksym;
extern s64 queues_enqueue(struct task_struct *p) __ksym;
extern s64 queues_take_back(struct task_struct *p, bool falls_asleep) __ksym;
extern struct task_struct *queues_pick(s32 cpu, s64 *failed) __ksym;
extern bool queues_confirm(s32 cpu, struct task_struct *p) __ksym;
extern s64 queues_go_on(s32 cpu) __ksym;
extern s64 queues_start(struct task_struct *p) __ksym;
extern s64 queues_stop(struct task_struct *p) __ksym;
extern s64 queues_tick(struct task_struct *p) __ksym;
extern s64 queues_yield(struct task_struct *p) __ksym;
extern s64 queues_set_weight(struct task_struct *p) __ksym;

/* Linux's, beside those of names.bpf.h. */
extern void bpf_task_release(struct task_struct *p) __ksym;
extern void scx_bpf_dispatch_cancel(void) __ksym;
extern void scx_bpf_kick_cpu(s32 cpu, u64 flags) __ksym;
extern __u32 scx_bpf_reenqueue_local(void) __ksym;
extern void scx_bpf_error_bstr(char *text, unsigned long long *numbers, __u32 size) __ksym;

char _license[] SEC("license") = "GPL";

/* A call of the library has failed: Linux takes its tasks back. */
static void look_at(s64 answer)
{
	static char text[] = "a call of the queues answers %d";
	unsigned long long numbers[] = { answer };

	if (answer < 0)
		scx_bpf_error_bstr(text, numbers, sizeof numbers);
}

/* Does what the module answers: CPUs look for work, and one asks for a pick. */
static __always_inline void tell(s64 told)
{
	s32 cpu;

	look_at(told);
	if (told <= 0)
		return;
	for (cpu = 0; cpu < MAX_CPUS; cpu++)
		if (told & 1ull << cpu)
			scx_bpf_kick_cpu(cpu, KICK_IDLE);
	if (told & PREEMPT)
		scx_bpf_kick_cpu(told >> CPU_SHIFT & (MAX_CPUS - 1), KICK_PREEMPT);
}

/* A task wakes where it slept, and is pulled from there; a new one goes where the load is least. */
SEC("struct_ops/select_cpu")
s32 BPF_PROG(on_select_cpu, struct task_struct *p, s32 cpu, u64 flags)
{
	return flags & WAKE_FORK ? queues_place(p, cpu) : cpu;
}

SEC("struct_ops/enqueue")
void BPF_PROG(on_enqueue, struct task_struct *p, u64 flags)
{
	tell(queues_enqueue(p));
}

SEC("struct_ops/dequeue")
void BPF_PROG(on_dequeue, struct task_struct *p, u64 flags)
{
	if (is_taken_back(flags, FALLS_ASLEEP))
		look_at(queues_take_back(p, flags & FALLS_ASLEEP));
}

/*
 * A task that was pulled may be changed by Linux meanwhile, so that it may not come: then the next
 * one is picked.
 */
SEC("struct_ops/dispatch")
void BPF_PROG(on_dispatch, s32 cpu, struct task_struct *before)
{
	struct task_struct *p;
	bool is_confirmed;
	s64 failed = 0;
	int tries;

	for (tries = 0; tries < TRIES; tries++) {
		p = queues_pick(cpu, &failed);
		if (!p) {
			look_at(failed);
			if (failed < 0)
				look_at(queues_go_on(cpu));
			return;
		}
		put_into(p, LOCAL_QUEUE, LINUX_SLICE);
		is_confirmed = queues_confirm(cpu, p);
		bpf_task_release(p);
		if (is_confirmed)
			return;
		scx_bpf_dispatch_cancel();
	}
	look_at(queues_go_on(cpu));
	scx_bpf_kick_cpu(cpu, 0);
}

SEC("struct_ops/tick")
void BPF_PROG(on_tick, struct task_struct *p)
{
	look_at(queues_tick(p));
}

SEC("struct_ops/running")
void BPF_PROG(on_running, struct task_struct *p)
{
	tell(queues_start(p));
}

SEC("struct_ops/stopping")
void BPF_PROG(on_stopping, struct task_struct *p, bool is_runnable)
{
	look_at(queues_stop(p));
}

SEC("struct_ops/quiescent")
void BPF_PROG(on_quiescent, struct task_struct *p, u64 flags)
{
	look_at(queues_take_back(p, flags & FALLS_ASLEEP));
}

SEC("struct_ops/yield")
bool BPF_PROG(on_yield, struct task_struct *from, struct task_struct *to)
{
	if (to)
		return false;
	look_at(queues_yield(from));
	return true;
}

SEC("struct_ops/set_weight")
void BPF_PROG(on_set_weight, struct task_struct *p, __u32 weight)
{
	look_at(queues_set_weight(p));
}

/* A task of another class runs: whoever ran waits as all others do, and is picked again. */
SEC("struct_ops/cpu_release")
void BPF_PROG(on_cpu_release, s32 cpu, struct scx_cpu_release_args *args)
{
	scx_bpf_reenqueue_local();
}

SEC("struct_ops/init_task")
s32 BPF_PROG(on_init_task, struct task_struct *p, struct scx_init_task_args *args)
{
	return queues_begin(p);
}

SEC("struct_ops/exit_task")
void BPF_PROG(on_exit_task, struct task_struct *p, struct scx_exit_task_args *args)
{
	queues_end(p);
}

SEC(".struct_ops.link")
struct sched_ext_ops eevdf = {
	.select_cpu = (void *)on_select_cpu,
	.enqueue = (void *)on_enqueue,
	.dequeue = (void *)on_dequeue,
	.dispatch = (void *)on_dispatch,
	.tick = (void *)on_tick,
	.running = (void *)on_running,
	.stopping = (void *)on_stopping,
	.quiescent = (void *)on_quiescent,
	.yield = (void *)on_yield,
	.set_weight = (void *)on_set_weight,
	.cpu_release = (void *)on_cpu_release,
	.init_task = (void *)on_init_task,
	.exit_task = (void *)on_exit_task,
	.flags = KEEP_EXITING,
	.timeout_ms = WATCHDOG_MS,
	.name = "eevdf",
};

/*
 * plain.bpf.c: a scheduler without any operation, so that Linux's own part of sched_ext runs its
 * tasks one after the other. It shows what is Linux's doing and not the queues'.
 */
#include <linux/types.h>
#include <bpf/bpf_helpers.h>

struct sched_ext_ops {
	char name[128];
};

char _license[] SEC("license") = "GPL";

SEC(".struct_ops.link")
struct sched_ext_ops plain = { .name = "plain" };

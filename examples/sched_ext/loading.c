/* loading.c: loads the module and the scheduler, and takes both away again. */
#define _GNU_SOURCE
#include "machine.h"

#include <bpf/libbpf.h>
#include <errno.h>
#include <fcntl.h>
#include <stdio.h>
#include <stdlib.h>
#include <string.h>
#include <sys/syscall.h>
#include <unistd.h>

static struct bpf_object *object;
static const char *loaded = "fair";
static struct bpf_link *scheduler;

static bool load_module(const char *words)
{
	int file = open("/eevdf_queues.ko", O_RDONLY | O_CLOEXEC);
	bool is_done = file >= 0 && syscall(SYS_finit_module, file, words, 0) == 0;

	if (!is_done)
		say("module: %s", strerror(errno));
	if (file >= 0)
		close(file);
	return is_done;
}

static bool load_scheduler(const char *file, const char *name)
{
	struct bpf_map *map;

	object = bpf_object__open_file(file, NULL);
	if (!object || bpf_object__load(object))
		return false;
	map = bpf_object__find_map_by_name(object, name);
	scheduler = map ? bpf_map__attach_struct_ops(map) : NULL;
	loaded = strcmp(name, "plain") ? "queues" : "plain";
	return scheduler && is_loaded();
}

bool load(const char *words)
{
	return load_module(words) && load_scheduler("/scheduler.bpf.o", "eevdf");
}

bool load_plain(void)
{
	return load_scheduler("/plain.bpf.o", "plain");
}

static bool state_is(const char *wanted)
{
	char state[32] = "";
	FILE *file = fopen("/sys/kernel/sched_ext/state", "re");

	if (!file)
		return false;
	if (!fgets(state, sizeof state, file))
		state[0] = 0;
	fclose(file);
	return !strncmp(state, wanted, strlen(wanted));
}

bool is_loaded(void)
{
	return state_is("enabled");
}

const char *name_of_class(void)
{
	return is_loaded() ? loaded : "fair";
}

bool has_ended(int seconds)
{
	int64_t last = now_ns() + (int64_t)seconds * SECOND;

	while (!state_is("disabled")) {
		if (now_ns() > last)
			return false;
		sleep_ns(10 * MILLISECOND);
	}
	return true;
}

bool unload_plain(void)
{
	bpf_link__destroy(scheduler);
	bpf_object__close(object);
	scheduler = NULL;
	object = NULL;
	return has_ended(5);
}

void let_go(void)
{
	if (scheduler)
		close(bpf_link__fd(scheduler));
}

/* Programs of BPF that nobody has any more go some time later, and the module once they have. */
bool unload(void)
{
	int64_t last = now_ns() + 5ll * SECOND;

	unload_plain();
	while (syscall(SYS_delete_module, "eevdf_queues", O_NONBLOCK)) {
		if (now_ns() > last)
			return false;
		sleep_ns(10 * MILLISECOND);
	}
	return has_ended(5);
}

void plant(int fault)
{
	FILE *file = fopen("/sys/module/eevdf_queues/parameters/planted", "we");
	bool is_planted = file && fprintf(file, "%d\n", fault) > 0;

	/* what is written may go to Linux only as the file is closed */
	if (file && fclose(file))
		is_planted = false;
	if (!is_planted)
		say("FAULT: nothing is planted");
}

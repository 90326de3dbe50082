/*
 * linux_queue.c MIX TASKS TURNS: turns of calls of Linux's own run queue, on the inputs of
 * `measures queue` (docs/speed.md). linux_types.h and linux_code.h are cut out of Linux's source when
 * bench/linux.sh runs. The checksum of the answers isn't that one's, since the rules differ.
 */
#include "linux_stub.h"
#include <linux/rbtree_augmented.h>
#include <inttypes.h>
#include <stdio.h>
#include <stdlib.h>
#include <string.h>

#include <linux_types.h>

enum { TASKS = 1024, DRAWN = 16384, WARM_UP = 4096, NONE = -1 };

struct task_struct {
	struct sched_entity se;
	struct cfs_rq *queue;
	bool here; /* in a queue, be it that its leaving is put off */
};

struct rq {
	struct cfs_rq cfs;
	struct list_head cfs_tasks;
	struct task_struct *curr;
	unsigned int nr_running;
	u64 clock_task;
	int fair_server;
	bool resched;
};

#define SCHED_FEAT(name, enabled) enum { feature_##name = (enabled) };
#include <linux_features.h>
#undef SCHED_FEAT
#define sched_feat(name) feature_##name

unsigned long warnings;
/* Linux's own for four processors. No task here has it. */
static const unsigned int sysctl_sched_base_slice = 2100000;

#include <linux_code.h>

static const uint64_t slices[] = { 100000,  300000,  700000,  1000000,  2000000,  3000000,
				   3000000, 3000000, 6000000, 10000000, 20000000, 100000000 };
static struct rq queues[2];
static struct task_struct tasks[TASKS] ____cacheline_aligned;
static uint64_t state, sum, lengths[DRAWN];
static int sleepers[2 * TASKS], running, levels[DRAWN];
static unsigned int named[DRAWN], value_at, first_sleeper, last_sleeper;

/* Linux's own walks up the groups and keeps counts of each. There are none here. */
static int dequeue_entities(struct rq *rq, struct sched_entity *se, int flags)
{
	if (!dequeue_entity(&rq->cfs, se, flags))
		return -1;
	rq->nr_running--;
	task_of(se)->here = false;
	return 1;
}

static void enqueue(struct rq *rq, struct task_struct *p, int flags)
{
	p->queue = &rq->cfs;
	enqueue_entity(&rq->cfs, &p->se, flags | ENQUEUE_NOCLOCK);
	p->here = true;
	rq->nr_running++;
}

static inline void add(int answer)
{
	sum = sum * 31 + (uint32_t)answer;
}

static void set_running(struct rq *rq, struct task_struct *p)
{
	set_next_entity(&rq->cfs, &p->se);
	list_move(&p->se.group_node, &rq->cfs_tasks);
	rq->curr = p;
}

/* As schedule() does it: the task that ran is put back only where another one is picked. */
static int picked(struct rq *rq)
{
	struct sched_entity *before = rq->cfs.curr;
	struct task_struct *p = pick_task_fair(rq);

	if (p && &p->se == before)
		return (int)(p - tasks);
	if (before)
		put_prev_entity(&rq->cfs, before);
	rq->curr = NULL;
	if (!p)
		return NONE;
	set_running(rq, p);
	return (int)(p - tasks);
}

static inline void pick(struct rq *rq)
{
	running = picked(rq);
	add(running);
}

static void tick(struct rq *rq, uint64_t ns)
{
	if (!rq->cfs.curr) {
		add(0);
		return;
	}
	rq->clock_task += ns;
	rq->resched = false;
	entity_tick(&rq->cfs, rq->cfs.curr, 0);
	add(1 + rq->resched);
}

static void sleep_pick(struct rq *rq)
{
	dequeue_entities(rq, &tasks[running].se, DEQUEUE_SLEEP | DEQUEUE_NOCLOCK);
	sleepers[last_sleeper++ % (2 * TASKS)] = running;
	pick(rq);
}

static void sleep_pick_wake(struct rq *rq)
{
	struct task_struct *p;

	sleep_pick(rq);
	p = &tasks[sleepers[first_sleeper++ % (2 * TASKS)]];
	if (p->se.sched_delayed)
		requeue_delayed_entity(&p->se);
	else if (!p->here)
		enqueue(rq, p, ENQUEUE_WAKEUP);
	if (running == NONE)
		pick(rq);
}

/* As Linux balances: the last of the list of tasks. One that runs is moved to the list's front. */
static struct task_struct *candidate(struct rq *rq)
{
	for (int tries = 0; tries < 2; tries++) {
		struct list_head *last = rq->cfs_tasks.prev;
		struct sched_entity *se = container_of(last, struct sched_entity, group_node);

		if (last == &rq->cfs_tasks)
			return NULL;
		if (se != rq->cfs.curr)
			return task_of(se);
		list_move(last, &rq->cfs_tasks);
	}
	return NULL;
}

static void pull(struct rq *from, struct rq *to)
{
	struct task_struct *p = candidate(from);

	add(p ? (int)(p - tasks) : NONE);
	if (!p)
		return;
	dequeue_entities(from, &p->se, DEQUEUE_NOCLOCK);
	enqueue(to, p, 0);
}

/* As Linux changes a nice level: the task leaves, is weighed anew and comes back. */
static void renice(struct rq *rq, struct task_struct *p, int nice)
{
	struct load_weight weight = { scale_load((unsigned long)sched_prio_to_weight[nice + 20]),
				      sched_prio_to_wmult[nice + 20] };
	bool runs = rq->curr == p;

	add(p->here && !p->se.sched_delayed);
	if (!p->here || p->se.sched_delayed)
		return;
	dequeue_entities(rq, &p->se, DEQUEUE_SAVE | DEQUEUE_NOCLOCK);
	if (runs)
		put_prev_entity(&rq->cfs, &p->se);
	reweight_task_fair(rq, p, &weight);
	enqueue(rq, p, ENQUEUE_RESTORE);
	if (runs)
		set_running(rq, p);
}

/* The generator SplitMix64. */
static uint64_t drawn(uint64_t below)
{
	uint64_t word = state += 0x9e3779b97f4a7c15u;

	word = (word ^ word >> 30) * 0xbf58476d1ce4e5b9u;
	word = (word ^ word >> 27) * 0x94d049bb133111ebu;
	return (word ^ word >> 31) % below;
}

static int drawn_nice(void)
{
	uint64_t kind = drawn(16);

	if (kind < 7)
		return 0;
	return kind < 15 ? (int)drawn(21) - 10 : (int)drawn(40) - 20;
}

static void admit(struct rq *rq, unsigned int task, unsigned int count)
{
	struct task_struct *p = &tasks[task];
	int nice = drawn_nice();
	uint64_t slice = slices[drawn(12)];

	p->se.vruntime = drawn(10000000);
	if (count == 1) {
		nice = 0;
		slice = 3000000;
	}
	p->se.load.weight = scale_load((unsigned long)sched_prio_to_weight[nice + 20]);
	p->se.load.inv_weight = sched_prio_to_wmult[nice + 20];
	p->se.slice = slice;
	p->se.custom_slice = 1;
	p->se.group_node.next = &p->se.group_node;
	p->se.group_node.prev = &p->se.group_node;
	p->se.deadline = p->se.vruntime + calc_delta_fair(slice, &p->se);
	p->queue = &rq->cfs;
	account_entity_enqueue(&rq->cfs, &p->se);
	__enqueue_entity(&rq->cfs, &p->se);
	p->se.on_rq = 1;
	p->here = true;
	rq->nr_running++;
}

static void warm_up(struct rq *rq)
{
	running = picked(rq);
	for (size_t at = 0; at < WARM_UP; at++) {
		tick(rq, lengths[at]);
		pick(rq);
	}
}

static void open_queues(unsigned int count, bool two)
{
	state = 0x45455644462d3031u + count;
	for (int at = 0; at < 2; at++)
		queues[at].cfs_tasks.next = queues[at].cfs_tasks.prev = &queues[at].cfs_tasks;
	for (unsigned int task = 0; task < count; task++)
		admit(&queues[two ? task % 2 : 0], task, count);
	for (size_t at = 0; at < DRAWN; at++) {
		lengths[at] = 1 + drawn(2000000);
		named[at] = (unsigned int)drawn(count);
		levels[at] = (int)drawn(21) - 10;
	}
	if (!two || count > 1)
		warm_up(&queues[0]);
	if (two && count > 1)
		warm_up(&queues[1]);
}

static inline unsigned int next(void)
{
	return value_at++ % DRAWN;
}

static void run_pulls(unsigned int count, uint64_t turns)
{
	unsigned int burst = count >= 64 ? 8 : count >= 8 ? 2 : 1;

	open_queues(count, true);
	for (uint64_t turn = 0; turn < turns; turn++) {
		unsigned int back = turn / burst % 2;

		pull(&queues[back], &queues[1 - back]);
	}
}

static int run(const char *mix, unsigned int count, uint64_t turns)
{
	struct rq *rq = &queues[0];

	if (strcmp(mix, "pull") == 0) {
		run_pulls(count, turns);
		return 0;
	}
	open_queues(count, false);
	if (strcmp(mix, "pick") == 0) {
		for (uint64_t turn = 1; turn <= turns; turn++) {
			if (turn % 1024 == 0)
				tick(rq, lengths[next()]);
			pick(rq);
		}
	} else if (strcmp(mix, "tick-pick") == 0) {
		for (; turns > 0; turns--) {
			tick(rq, lengths[next()]);
			pick(rq);
		}
	} else if (strcmp(mix, "yield-pick") == 0) {
		for (; turns > 0; turns--) {
			yield_task_fair(rq);
			pick(rq);
		}
	} else if (strcmp(mix, "renice") == 0) {
		for (; turns > 0; turns--) {
			unsigned int at = next();

			renice(rq, &tasks[named[at]], levels[at]);
		}
	} else if (strcmp(mix, "sleep-pick-wake") == 0 || strcmp(mix, "tick-sleep-pick-wake") == 0) {
		bool ticks = mix[0] == 't';

		for (unsigned int at = 0; at < count / 8; at++)
			sleep_pick(rq);
		for (; turns > 0; turns--) {
			if (ticks)
				tick(rq, lengths[next()]);
			sleep_pick_wake(rq);
		}
	} else {
		return 2;
	}
	return 0;
}

int main(int count, char **words)
{
	unsigned long tasks_here;
	int status;

	if (count != 4)
		return 2;
	tasks_here = strtoul(words[2], NULL, 10);
	if (tasks_here < 1 || tasks_here > TASKS)
		return 2;
	status = run(words[1], (unsigned int)tasks_here, strtoull(words[3], NULL, 10));
	printf("%016" PRIx64 "\n", sum);
	if (warnings)
		fprintf(stderr, "linux_queue: Linux's code gave %lu warnings\n", warnings);
	return status ? status : warnings != 0;
}

/*
 * four_cpus.c: four CPUs, each a thread with a queue and a lock of its own, as a kernel has them.
 * Tasks run, sleep, and wake each other wherever they are; a CPU without a task pulls one, and
 * waits where no CPU has two. Three rules make that right, and stand where they are kept: the lock
 * is held over the switch, a wake that comes before the sleep is remembered, and who waits says so
 * before it looks for work.
 */
#include <eevdf.h>
#include <pthread.h>
#include <semaphore.h>
#include <stdatomic.h>
#include <stdbool.h>
#include <stdio.h>
#include <stdlib.h>
#include <threads.h>
#include <time.h>

enum { CPUS = 4, TASKS = 10, TURNS = 500000, SLICE = 3000000 };

/* What a CPU does: it runs tasks, looks for one, waits until it is rung, or is to look once more. */
enum { RUNS, LOOKS, WAITS, IS_RUNG };

static struct task {
	/* what its stack has: whoever runs it writes to it, and a switch saves it */
	uint64_t saved;
	/* it runs on a CPU, which hasn't saved it yet */
	atomic_bool on_cpu;
	enum { AWAKE, SLEEPS, IS_WOKEN } _Atomic state;
	/* the CPU where it sleeps, which wakes it */
	struct cpu *home;
	/* the next one that is to be woken there */
	struct task *next;
} tasks[TASKS];

static struct cpu {
	pthread_mutex_t lock;
	eevdf_queue queue;
	struct task *current; /* who runs, and what its registers have */
	uint64_t registers;
	struct task *_Atomic woken;
	_Atomic int does;
	sem_t bell;
	uint64_t word, computed, sleeps, wakes, pulls;
} cpus[CPUS];

static atomic_int turns_left = TURNS;

/* A rule isn't kept: says so, and ends the program. */
static void fail(const char *what)
{
	puts(what);
	exit(1);
}

/* A number that is drawn by whoever has the word. */
static uint64_t drawn(uint64_t *word, uint64_t below)
{
	*word = *word * 6364136223846793005u + 1442695040888963407u;
	return (*word >> 33) % below;
}

/* Rings a CPU that looks for work or waits, so that it looks once more: an interrupt of a kernel's. */
static void ring(struct cpu *cpu)
{
	int does = atomic_load(&cpu->does);

	while ((does == LOOKS || does == WAITS) &&
	       !atomic_compare_exchange_weak(&cpu->does, &does, IS_RUNG))
		;
	if (does == WAITS)
		sem_post(&cpu->bell);
}

/*
 * Wakes a task, from any CPU, without a lock. Where it doesn't sleep, the state remembers the wake,
 * and its next sleep is none. Where it sleeps, this is the one wake that has found it so: it goes
 * to the list of its home, which it can't leave as long as it sleeps.
 */
static void wake(struct task *task)
{
	struct cpu *home;

	if (atomic_exchange(&task->state, IS_WOKEN) != SLEEPS)
		return;
	home = task->home;
	task->next = atomic_load(&home->woken);
	while (!atomic_compare_exchange_weak(&home->woken, &task->next, task))
		;
	ring(home);
}

/*
 * The running task falls asleep, unless a wake has come before. Under the lock, so that it sleeps
 * in the queue before the list of this CPU is looked at again.
 */
static void fall_asleep(struct cpu *own)
{
	int awake = AWAKE;

	own->current->home = own;
	if (atomic_compare_exchange_strong(&own->current->state, &awake, SLEEPS)) {
		eevdf_sleep(&own->queue, (uint64_t)(own->current - tasks));
		own->sleeps++;
	} else {
		atomic_store(&own->current->state, AWAKE);
	}
}

/*
 * Wakes those of the list, under the lock. Where this CPU has two tasks or more then, it rings each
 * one that looks for work or waits. All of them: the first may find another task.
 */
static void take_woken(struct cpu *own)
{
	struct task *task = atomic_exchange(&own->woken, NULL);

	if (!task)
		return;
	while (task) {
		struct task *next = task->next;

		atomic_store(&task->state, AWAKE);
		if (eevdf_wake(&own->queue, (uint64_t)(task - tasks)) != 0)
			fail("a task that is woken doesn't sleep at its home");
		own->wakes++;
		task = next;
	}
	if (eevdf_len(&own->queue) >= 2)
		for (unsigned at = 0; at < CPUS; at++)
			ring(&cpus[at]);
}

/* Saves who ran on this CPU, and lets another one run, or nobody. */
static void switch_to(struct cpu *own, struct task *next)
{
	struct task *last = own->current;

	if (last == next)
		return;
	if (last) {
		last->saved = own->registers;
		atomic_store(&last->on_cpu, false);
	}
	own->current = next;
	if (next) {
		if (atomic_exchange(&next->on_cpu, true))
			fail("two CPUs are on one stack");
		own->registers = next->saved;
	}
}

/*
 * Nobody waits for work while this CPU has two tasks. Its own lock shows that: whoever waits has
 * looked here under it before the second one came, and was rung then.
 */
static void check_that_none_waits(struct cpu *own)
{
	if (eevdf_len(&own->queue) >= 2)
		for (unsigned at = 0; at < CPUS; at++)
			if (atomic_load(&cpus[at].does) == WAITS)
				fail("a CPU waits beside one that has two tasks");
}

/*
 * Who runs is charged, and may fall asleep; then another one runs. The pick makes who ran a task
 * that others may pull, and its stack is in use until the switch has saved it. So the lock is held
 * over the switch.
 */
static void take_turn(struct cpu *own, bool sleeps)
{
	int64_t task;

	pthread_mutex_lock(&own->lock);
	if (own->current) {
		eevdf_tick(&own->queue, 1 + drawn(&own->word, SLICE));
		if (sleeps)
			fall_asleep(own);
	}
	take_woken(own);
	check_that_none_waits(own);
	task = eevdf_pick(&own->queue);
	switch_to(own, task < 0 ? NULL : &tasks[task]);
	pthread_mutex_unlock(&own->lock);
}

/* What a task does, on its stack: it computes, and wakes another one now and then. */
static void compute(struct cpu *own)
{
	own->registers++;
	own->computed++;
	if (drawn(&own->word, 4) == 0)
		wake(&tasks[drawn(&own->word, TASKS)]);
}

/* The locks of two CPUs in ascending order, so that no two wait for each other in a circle. */
static void lock_both(struct cpu *one, struct cpu *other)
{
	pthread_mutex_lock(one < other ? &one->lock : &other->lock);
	pthread_mutex_lock(one < other ? &other->lock : &one->lock);
}

/*
 * A CPU that has nobody pulls a waiting task from one that has two or more, and lets it run at once,
 * before anybody wakes here. To a CPU that has nobody each such task brings the loads closer,
 * whatever it weighs.
 */
static void pull(struct cpu *own, struct cpu *from)
{
	lock_both(own, from);
	if (eevdf_pull(&own->queue, &from->queue) >= 0) {
		switch_to(own, &tasks[eevdf_pick(&own->queue)]);
		own->pulls++;
	}
	pthread_mutex_unlock(&from->lock);
	pthread_mutex_unlock(&own->lock);
}

/* Looks for a task to run: among those that were woken for this CPU, and then on each other one. */
static bool find_work(struct cpu *own)
{
	take_turn(own, false);
	for (unsigned at = 0; at < CPUS && !own->current; at++)
		if (&cpus[at] != own)
			pull(own, &cpus[at]);
	return own->current;
}

/*
 * This CPU has nobody to run. It says that it looks for work, then looks, and waits where it has
 * found nothing. A wake that comes to another CPU after this one has looked there comes after it
 * has said so; so it is rung, and looks once more.
 */
static void idle(struct cpu *own)
{
	int looks;

	do {
		atomic_store(&own->does, LOOKS);
		if (atomic_load(&turns_left) <= 0 || find_work(own))
			break;
		looks = LOOKS;
		if (atomic_compare_exchange_strong(&own->does, &looks, WAITS))
			while (sem_wait(&own->bell) != 0)
				;
	} while (true);
	atomic_store(&own->does, RUNS);
}

static void *run(void *at)
{
	struct cpu *own = at;

	while (atomic_fetch_sub(&turns_left, 1) > 0) {
		if (own->current)
			compute(own);
		take_turn(own, drawn(&own->word, 8) == 0);
		if (!own->current)
			idle(own);
	}
	/* the others end too, and nobody's registers are lost */
	for (unsigned other = 0; other < CPUS; other++)
		ring(&cpus[other]);
	pthread_mutex_lock(&own->lock);
	eevdf_stop(&own->queue);
	switch_to(own, NULL);
	pthread_mutex_unlock(&own->lock);
	return NULL;
}

/* How many queues a task is in. */
static unsigned places_of(uint64_t task)
{
	unsigned places = 0;

	for (unsigned at = 0; at < CPUS; at++)
		places += eevdf_contains(&cpus[at].queue, task) == 1;
	return places;
}

/* What is outside, as a disk: it wakes tasks now and then, so that some can always run. */
static void be_outside(void)
{
	const struct timespec pause = { .tv_nsec = 20000 };
	uint64_t word = CPUS;

	while (atomic_load(&turns_left) > 0) {
		for (unsigned count = 0; count < 4; count++)
			wake(&tasks[drawn(&word, TASKS)]);
		thrd_sleep(&pause, NULL);
	}
}

int main(void)
{
	pthread_t threads[CPUS];
	uint64_t computed = 0, sleeps = 0, wakes = 0, pulls = 0;
	unsigned in_one_place = 0;

	for (unsigned at = 0; at < CPUS; at++) {
		cpus[at].word = at;
		pthread_mutex_init(&cpus[at].lock, NULL);
		sem_init(&cpus[at].bell, 0, 0);
		eevdf_open(&cpus[at].queue);
	}
	for (uint64_t task = 0; task < TASKS; task++)
		eevdf_admit(&cpus[0].queue, task, (int64_t)(task % 4), SLICE, 0);
	for (unsigned at = 0; at < CPUS; at++)
		if (pthread_create(&threads[at], NULL, run, &cpus[at]) != 0)
			return 1;
	be_outside();
	for (unsigned at = 0; at < CPUS; at++)
		pthread_join(threads[at], NULL);
	for (uint64_t task = 0; task < TASKS; task++) {
		in_one_place += places_of(task) == 1;
		computed -= tasks[task].saved;
	}
	for (unsigned at = 0; at < CPUS; at++) {
		computed += cpus[at].computed;
		sleeps += cpus[at].sleeps;
		wakes += cpus[at].wakes;
		pulls += cpus[at].pulls;
		eevdf_close(&cpus[at].queue);
	}
	printf("%u of %d tasks are in one queue; %s slept, %s were woken, %s were pulled\n", in_one_place,
	       TASKS, sleeps ? "some" : "none", wakes ? "some" : "none", pulls ? "some" : "none");
	if (computed)
		fail("what a task has computed is lost");
	return 0;
}

/*
 * two_cpus.c: two CPUs, each a thread with a queue and a lock of its own. Each picks, charges and
 * lets tasks sleep on its own queue, wakes tasks on either, and pulls a waiting task of the other
 * where that brings their loads closer. The end of it is the same whatever the threads do.
 */
#include <eevdf.h>
#include <pthread.h>
#include <stdio.h>

enum { CPUS = 2, TASKS = 16, TURNS = 200000, SLICE = 3000000 };

static struct cpu {
	pthread_mutex_t lock;
	eevdf_queue queue;
	uint64_t word, sleeps, wakes, pulls;
} cpus[CPUS];

/* A number that is drawn for a CPU. Only its own thread draws it. */
static uint64_t drawn(struct cpu *cpu, uint64_t below)
{
	cpu->word = cpu->word * 6364136223846793005u + 1442695040888963407u;
	return (cpu->word >> 33) % below;
}

/* Who runs is charged, and falls asleep now and then. */
static void take_turn(struct cpu *own)
{
	int64_t task;

	pthread_mutex_lock(&own->lock);
	task = eevdf_pick(&own->queue);
	if (task >= 0) {
		eevdf_tick(&own->queue, 1 + drawn(own, SLICE));
		if (drawn(own, 8) == 0 && eevdf_sleep(&own->queue, (uint64_t)task) == 0)
			own->sleeps++;
	}
	pthread_mutex_unlock(&own->lock);
}

/*
 * Wakes a task on whichever CPU it sleeps. That takes the lock of that CPU alone; who waits for it
 * there picks again, where eevdf_peek isn't the running task.
 */
static void wake(struct cpu *own, uint64_t task)
{
	for (unsigned at = 0; at < CPUS; at++) {
		pthread_mutex_lock(&cpus[at].lock);
		if (eevdf_wake(&cpus[at].queue, task) == 0)
			own->wakes++;
		pthread_mutex_unlock(&cpus[at].lock);
	}
}

/* Takes the locks of all CPUs in ascending order, so that no two wait for each other in a circle. */
static void lock_all(void)
{
	for (unsigned at = 0; at < CPUS; at++)
		pthread_mutex_lock(&cpus[at].lock);
}

static void unlock_all(void)
{
	for (unsigned at = CPUS; at-- > 0;)
		pthread_mutex_unlock(&cpus[at].lock);
}

/*
 * Pulls a waiting task of the other CPU, where that brings the two loads closer. With both locks
 * held nobody sees it in neither queue.
 */
static void pull(struct cpu *own, struct cpu *other)
{
	lock_all();
	if (eevdf_pull(&own->queue, &other->queue) >= 0)
		own->pulls++;
	unlock_all();
}

static void *run(void *at)
{
	struct cpu *own = at, *other = own == cpus ? cpus + 1 : cpus;

	for (unsigned turn = 0; turn < TURNS; turn++) {
		take_turn(own);
		if (drawn(own, 8) == 0)
			wake(own, drawn(own, TASKS));
		if (drawn(own, 8) == 0)
			pull(own, other);
	}
	return NULL;
}

/* How many queues a task is in. */
static unsigned places_of(uint64_t task)
{
	unsigned places = 0;

	for (unsigned at = 0; at < CPUS; at++)
		places += eevdf_contains(&cpus[at].queue, task) == 1;
	return places;
}

int main(void)
{
	pthread_t threads[CPUS];
	uint64_t sleeps = 0, wakes = 0, pulls = 0;
	unsigned in_one_place = 0;

	for (unsigned at = 0; at < CPUS; at++) {
		cpus[at].word = at;
		pthread_mutex_init(&cpus[at].lock, NULL);
		eevdf_open(&cpus[at].queue);
	}
	for (uint64_t task = 0; task < TASKS; task++)
		eevdf_admit(&cpus[0].queue, task, (int64_t)(task % 4), SLICE, 0);
	for (unsigned at = 0; at < CPUS; at++)
		if (pthread_create(&threads[at], NULL, run, &cpus[at]) != 0)
			return 1;
	for (unsigned at = 0; at < CPUS; at++)
		pthread_join(threads[at], NULL);
	for (uint64_t task = 0; task < TASKS; task++)
		in_one_place += places_of(task) == 1;
	for (unsigned at = 0; at < CPUS; at++) {
		sleeps += cpus[at].sleeps;
		wakes += cpus[at].wakes;
		pulls += cpus[at].pulls;
		eevdf_close(&cpus[at].queue);
	}
	printf("%u of %d tasks are in one queue; %s slept, %s were woken, %s were pulled\n", in_one_place,
	       TASKS, sleeps ? "some" : "none", wakes ? "some" : "none", pulls ? "some" : "none");
	return 0;
}

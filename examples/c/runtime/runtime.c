/* runtime.c: fibers on workers, which share their queues alone. A hand takes a pulled one over. */
#define _GNU_SOURCE
#include "runtime.h"
#include <eevdf.h>
#include <pthread.h>
#include <stdatomic.h>
#include <stdbool.h>
#include <stdlib.h>
#include <time.h>
#include <ucontext.h>

/* A stack in bytes; in ns a slice, the shortest turn, and how often a worker looks at others. */
enum { STACK = 65536, SLICE = 2000000, GRAIN = 100000, BALANCE = 1000000 };

struct fiber {
	ucontext_t context;
	void (*run)(void *), *with;
	struct runtime_share *share;
	uint64_t number, wakes_at;
	struct fiber *next_asleep;
	enum wish { GO_ON, SLEEP, END } wish;
};

struct worker {
	eevdf_queue queue;
	eevdf_hand hand;
	pthread_mutex_t lock;
	pthread_t thread;
	ucontext_t context;
	struct fiber *runs, *asleep;
	uint64_t charged_at, balances_at;
};

static struct fiber fibers[RUNTIME_FIBERS];
static struct worker workers[RUNTIME_WORKERS];
static unsigned added, worker_count;
static atomic_uint alive, pulls;
static _Thread_local struct worker *this_worker;

/* A call on a worker's queue stands between these two, as unlock(w, eevdf_pick(lock(w))). */
static eevdf_queue *lock(struct worker *worker)
{
	pthread_mutex_lock(&worker->lock);
	return &worker->queue;
}

static int64_t unlock(struct worker *worker, int64_t answer)
{
	pthread_mutex_unlock(&worker->lock);
	return answer;
}

/* Ends the program where memory or room lacks. Else only RANGE comes, after years of running. */
static int64_t must(int64_t answer)
{
	if (answer < 0)
		abort();
	return answer;
}

/* Not inlined, and asked anew after each switch, since a fiber may go on in another thread. */
static __attribute__((noinline)) struct worker *own_worker(void)
{
	__asm__ volatile("");
	return this_worker;
}

uint64_t runtime_now(void)
{
	struct timespec now;

	clock_gettime(CLOCK_MONOTONIC, &now);
	return (uint64_t)now.tv_sec * 1000000000 + (uint64_t)now.tv_nsec;
}

/* Charges the running fiber for the time since it last was. Whether its request is used up. */
static bool charge(struct worker *worker)
{
	uint64_t now = runtime_now(), ns = now - worker->charged_at;

	if (ns == 0)
		return false;
	worker->charged_at = now;
	worker->runs->share->ns += ns;
	ns = ns < EEVDF_TICK_MAX ? ns : EEVDF_TICK_MAX;
	return must(unlock(worker, eevdf_tick(lock(worker), ns))) == 1;
}

/* Wakes the fibers whose time has come. Whether there are any. */
static bool wake_due(struct worker *worker)
{
	struct fiber **link = &worker->asleep, *fiber;
	uint64_t now = runtime_now();
	bool any = false;

	while ((fiber = *link)) {
		if (fiber->wakes_at > now) {
			link = &fiber->next_asleep;
		} else {
			*link = fiber->next_asleep;
			must(unlock(worker, eevdf_wake(lock(worker), fiber->number)));
			any = true;
		}
	}
	return any;
}

/* Takes a queue's candidate into the hand, where that brings its load and the puller's closer. */
static int64_t take(eevdf_queue *from, int64_t load, eevdf_hand *hand)
{
	int64_t task = eevdf_candidate(from);

	if (task == EEVDF_ABSENT || load + fibers[task].share->weight >= eevdf_load(from))
		return EEVDF_ABSENT;
	return eevdf_take(from, hand, (uint64_t)task);
}

static void pull(struct worker *worker, struct worker *from)
{
	int64_t load = unlock(worker, eevdf_load(lock(worker)));

	if (unlock(from, take(lock(from), load, &worker->hand)) == EEVDF_ABSENT)
		return;
	must(unlock(worker, eevdf_put(lock(worker), &worker->hand)));
	atomic_fetch_add(&pulls, 1);
}

static void balance(struct worker *worker)
{
	if (runtime_now() < worker->balances_at)
		return;
	worker->balances_at = runtime_now() + BALANCE;
	for (unsigned at = 0; at < worker_count; at++)
		if (&workers[at] != worker)
			pull(worker, &workers[at]);
}

/* Switches from the running fiber to its worker, which does as the fiber wishes. */
static void leave(enum wish wish)
{
	struct worker *worker = own_worker();

	worker->runs->wish = wish;
	swapcontext(&worker->runs->context, &worker->context);
}

void runtime_point(void)
{
	struct worker *worker = own_worker();

	if (runtime_now() - worker->charged_at < GRAIN)
		return;
	bool used_up = charge(worker);
	bool woken = wake_due(worker);
	if (used_up || woken || runtime_now() >= worker->balances_at)
		leave(GO_ON);
}

void runtime_sleep(uint64_t ns)
{
	own_worker()->runs->wakes_at = runtime_now() + ns;
	leave(SLEEP);
}

/* Runs a fiber until it leaves. Until the next pick it is the queue's running task: not pulled. */
static void run(struct worker *worker, struct fiber *fiber)
{
	worker->runs = fiber;
	worker->charged_at = runtime_now();
	swapcontext(&worker->context, &fiber->context);
	charge(worker);
	if (fiber->wish == SLEEP) {
		must(unlock(worker, eevdf_sleep(lock(worker), fiber->number)));
		fiber->next_asleep = worker->asleep;
		worker->asleep = fiber;
	} else if (fiber->wish == END) {
		must(unlock(worker, eevdf_end(lock(worker), fiber->number)));
		free(fiber->context.uc_stack.ss_sp);
		atomic_fetch_sub(&alive, 1);
	}
}

static void *work(void *with)
{
	struct worker *worker = this_worker = with;

	while (atomic_load(&alive) > 0) {
		wake_due(worker);
		balance(worker);
		int64_t task = unlock(worker, eevdf_pick(lock(worker)));
		if (task == EEVDF_ABSENT)
			nanosleep(&(struct timespec){ .tv_nsec = BALANCE / 4 }, NULL);
		else
			run(worker, &fibers[task]);
	}
	return NULL;
}

/* Where a fiber begins: on its own stack, in the thread of the worker that picked it. */
static void begin(void)
{
	struct fiber *fiber = own_worker()->runs;

	fiber->run(fiber->with);
	leave(END);
}

void runtime_open(unsigned count)
{
	worker_count = (unsigned)must(count <= RUNTIME_WORKERS ? (int64_t)count : EEVDF_INVALID);
	for (struct worker *worker = workers; worker < workers + count; worker++) {
		eevdf_open(&worker->queue);
		eevdf_hand_open(&worker->hand);
		pthread_mutex_init(&worker->lock, NULL);
	}
}

void runtime_add(int64_t nice, void (*run)(void *), void *with, struct runtime_share *share)
{
	eevdf_queue *queue = &workers[0].queue;
	int64_t before = eevdf_load(queue);
	struct fiber *fiber = &fibers[added];

	must(added < RUNTIME_FIBERS ? eevdf_admit(queue, added, nice, SLICE, 0) : EEVDF_NO_MEMORY);
	*share = (struct runtime_share){ 0, eevdf_load(queue) - before };
	*fiber = (struct fiber){ .run = run, .with = with, .share = share, .number = added++ };
	getcontext(&fiber->context);
	fiber->context.uc_stack = (stack_t){ .ss_sp = malloc(STACK), .ss_size = STACK };
	must(fiber->context.uc_stack.ss_sp ? 0 : EEVDF_NO_MEMORY);
	makecontext(&fiber->context, begin, 0);
}

unsigned runtime_run(void)
{
	atomic_store(&alive, added);
	for (unsigned at = 0; at < worker_count; at++)
		must(-pthread_create(&workers[at].thread, NULL, work, &workers[at]));
	for (unsigned at = 0; at < worker_count; at++)
		pthread_join(workers[at].thread, NULL);
	for (unsigned at = 0; at < worker_count; at++)
		eevdf_close(&workers[at].queue);
	return atomic_load(&pulls);
}

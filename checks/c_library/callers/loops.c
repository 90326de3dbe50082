/*
 * loops.c FIRST LOOPS: the loop of a kernel over a queue with bounds and shares beside it, once for
 * each of so many seeds from the first on. It makes 100 calls that are drawn from the seed, as the
 * program `measures` draws them for fair-loop, and reads after each by how much a request can be late, and what
 * each task lacks of its share since it came or was moved; where a request can be later than was
 * promised, it stops. Half of the loops are promised 20 ms of virtual time. Of each loop it prints
 * how many calls were made, the greatest bound that was read, and the greatest lack.
 */
#include <eevdf.h>
#include <inttypes.h>
#include <stdbool.h>
#include <stdio.h>
#include <stdlib.h>

enum { STEPS = 100, TASKS = 12 };

static const int64_t promises[] = { 20000000, INT64_C(1) << 62 };
static eevdf_queue queue;
static eevdf_bounds bounds;
static eevdf_shares shares;
static eevdf_share_mark marks[TASKS];
static bool is_marked[TASKS];
static int64_t greatest_lack;
static uint64_t state;

/* The generator of crates/drawn_values: PCG's XSH RR, of the stream 0. */
static void step_state(void)
{
	state = state * 6364136223846793005u + 1;
}

static uint64_t drawn(uint64_t below)
{
	uint32_t low = (uint32_t)(((state >> 18) ^ state) >> 27);
	uint32_t turn = (uint32_t)(state >> 59);

	step_state();
	return (low >> turn | low << (-turn & 31)) % below;
}

static int64_t drawn_nice(void)
{
	return (int64_t)drawn(40) + EEVDF_NICE_MIN;
}

static uint64_t drawn_slice(void)
{
	return EEVDF_SLICE_MIN + drawn(1u << 23);
}

static uint64_t drawn_tick(void)
{
	return 1 + drawn(1u << 22);
}

static void sleep_running(void)
{
	int64_t task = eevdf_running(&queue);

	if (task >= 0)
		eevdf_sleep(&queue, (uint64_t)task);
}

static void doze_running(void)
{
	int64_t task = eevdf_running(&queue), lag = 0;

	if (task >= 0)
		eevdf_doze(&queue, (uint64_t)task, &lag);
}

/* The arguments of a call are drawn in the order in which they stand. */
static void renice(uint64_t task)
{
	eevdf_fair_renice(&bounds, &queue, task, drawn_nice());
}

static void set(uint64_t task)
{
	int64_t nice = drawn_nice();

	eevdf_fair_set(&bounds, &queue, task, nice, drawn_slice());
}

static void begin(uint64_t task)
{
	int64_t nice = drawn_nice(), start = 0;
	uint64_t slice_ns = drawn_slice();

	eevdf_floor_time(&queue, &start);
	eevdf_fair_admit(&bounds, &queue, task, nice, slice_ns, start);
}

/* Bounds are measured in Rattle alone: in that call's stead all virtual times are lowered. */
static void rebase(void)
{
	int64_t by = 0;

	eevdf_fair_share_rebase(&shares, &bounds, &queue, &by);
}

/* What a task lacks since its mark. One that has come is marked. */
static void look_at_share(uint64_t task)
{
	int64_t lack = 0;

	if (is_marked[task] && eevdf_fair_share_bound(&shares, &queue, task, &marks[task], &lack) == 0) {
		if (lack > greatest_lack)
			greatest_lack = lack;
		return;
	}
	is_marked[task] = eevdf_fair_share_mark(&shares, &queue, task, &marks[task]) == 0;
}

static void make_call(void)
{
	uint64_t task = drawn(TASKS), kind = drawn(19);

	/* a task that a call may have moved is marked anew */
	if (kind >= 11 && kind <= 15)
		is_marked[task] = false;

	if (kind < 5)
		eevdf_fair_share_tick(&shares, &bounds, &queue, drawn_tick());
	else if (kind < 9)
		eevdf_fair_pick(&bounds, &queue);
	else if (kind == 9)
		eevdf_yield(&queue);
	else if (kind == 10)
		sleep_running();
	else if (kind == 11)
		eevdf_fair_wake(&bounds, &queue, task);
	else if (kind == 12)
		renice(task);
	else if (kind == 13)
		set(task);
	else if (kind == 14)
		begin(task);
	else if (kind == 15)
		eevdf_end(&queue, task);
	else if (kind == 16)
		doze_running();
	else if (kind == 17)
		eevdf_fair_run(&bounds, &queue, task);
	else
		rebase();
}

static void run_kernel(uint64_t seed)
{
	int64_t promised = promises[seed % 2], greatest = 0, bound;
	int done;

	state = seed + 1;
	step_state();
	eevdf_open(&queue);
	eevdf_fair_open(&bounds);
	eevdf_fair_share_open(&shares);
	greatest_lack = 0;
	for (uint64_t task = 0; task < TASKS; task++)
		is_marked[task] = false;
	for (done = 0; done < STEPS && greatest <= promised; done++) {
		make_call();
		bound = eevdf_fair_lateness_bound(&bounds, &queue);
		if (bound > greatest)
			greatest = bound;
		for (uint64_t task = 0; task < TASKS; task++)
			look_at_share(task);
	}
	eevdf_close(&queue);
	printf("%d of %d steps, greatest bound %" PRId64 ", greatest lack %" PRId64 "\n", done, (int)STEPS, greatest,
	       greatest_lack);
}

int main(int count, char **words)
{
	uint64_t first, loops;

	if (count != 3)
		return 2;
	first = strtoull(words[1], NULL, 10);
	loops = strtoull(words[2], NULL, 10);
	for (uint64_t seed = first; seed < first + loops; seed++)
		run_kernel(seed);
	return 0;
}

/*
 * promised.c: the loop of a kernel that has promised that no request is later than a number. Tasks
 * come, sleep, doze, wake and change, and ticks are as long as they happen to be. Before each pick
 * it reads how late a request can be, and stops where that is more than it has promised. Once its
 * ticks are short, and once one of them is as long as where interrupts were off for a while.
 */
#include <eevdf.h>
#include <inttypes.h>
#include <stdbool.h>
#include <stdio.h>

enum { TASKS = 8, SLICE = 3000000, TICK = 1000000, STEPS = 100000 };

/* By how much a request may be late, in virtual time. */
static const int64_t PROMISED = 20000000;

static eevdf_queue queue;
static eevdf_bounds bounds;
static uint64_t word;

static uint64_t drawn(uint64_t below)
{
	word = word * 6364136223846793005u + 1442695040888963407u;
	return (word >> 33) % below;
}

static void begin(void)
{
	word = 1;
	eevdf_open(&queue);
	eevdf_fair_open(&bounds);
	for (uint64_t task = 0; task < TASKS; task++)
		eevdf_fair_admit(&bounds, &queue, task, (int64_t)(task % 4), SLICE, 0);
}

/* What becomes of who ran, and of another task: most often nothing. */
static void let_things_happen(void)
{
	const int64_t running = eevdf_running(&queue);
	const uint64_t task = drawn(TASKS);
	int64_t lag = 0;

	if (running >= 0 && drawn(4) == 0)
		eevdf_doze(&queue, (uint64_t)running, &lag);
	if (drawn(2) == 0)
		eevdf_fair_wake(&bounds, &queue, task);
	if (drawn(100) == 0)
		eevdf_fair_renice(&bounds, &queue, task, (int64_t)drawn(4));
}

/* Steps with ticks up to a length, of which one is longer. Whether what was promised held. */
static bool run(const char *name, uint64_t longest)
{
	int64_t most = 0;

	begin();
	for (unsigned step = 0; step < STEPS; step++) {
		const int64_t late = eevdf_fair_lateness_bound(&bounds, &queue);

		if (late > PROMISED) {
			int64_t ns = 0;

			eevdf_fair_lateness_bound_in_time(&bounds, &queue, &ns);
			printf("%s: stops at step %u, since a request can be late by %" PRId64 " in virtual time, "
			       "%.1f ms at this load\n", name, step, late, (double)ns / 1e6);
			eevdf_close(&queue);
			return false;
		}
		most = late > most ? late : most;
		eevdf_fair_pick(&bounds, &queue);
		eevdf_fair_tick(&bounds, &queue, step == STEPS / 2 ? longest : 1 + drawn(TICK));
		let_things_happen();
	}
	printf("%s: %d steps, and no request was late by more than %" PRId64 " in virtual time\n",
	       name, STEPS, most);
	eevdf_close(&queue);
	return true;
}

int main(void)
{
	return !run("short ticks", TICK) || run("a long tick", 50000000);
}

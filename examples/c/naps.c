/*
 * naps.c: a task that runs for 4 ms at a time, falls asleep and wakes at once, beside seven of its
 * nice level that never sleep, all with slices of 0.1 ms. A sleep lets it off what it ran beyond
 * two slices, and a doze doesn't.
 */
#include <eevdf.h>
#include <stdio.h>

enum { TASKS = 8, NAPPER = 0, SLICE = 100000, TURN = 4000000 };

/* How long a CPU is looked at, in nanoseconds. */
static const uint64_t LENGTH = 10000000000u;

static void fall_asleep(eevdf_queue *queue, int dozes)
{
	int64_t lag = 0;

	if (dozes)
		eevdf_doze(queue, NAPPER, &lag);
	else
		eevdf_sleep(queue, NAPPER);
}

/* A turn: how long the napper ran in it. */
static uint64_t turn(eevdf_queue *queue, int dozes)
{
	if (eevdf_pick(queue) != NAPPER) {
		eevdf_tick(queue, SLICE);
		return 0;
	}
	eevdf_tick(queue, TURN);
	fall_asleep(queue, dozes);
	eevdf_wake(queue, NAPPER);
	return TURN;
}

/* The time that the napper has of the CPU's, in thousandths. */
static unsigned share(int dozes)
{
	static eevdf_queue queue;
	uint64_t all = 0, own = 0;

	eevdf_open(&queue);
	for (uint64_t task = 0; task < TASKS; task++)
		eevdf_admit(&queue, task, 0, SLICE, 0);
	while (all < LENGTH) {
		uint64_t ran = turn(&queue, dozes);

		own += ran;
		all += ran > 0 ? ran : SLICE;
	}
	eevdf_close(&queue);
	return (unsigned)((own * 1000 + all / 2) / all);
}

/* Where a task dozes that ran for 4 ms, and where that is once all virtual times are lower. */
static void show_place(void)
{
	static eevdf_queue queue;
	eevdf_place place = { 0, 0 };
	int64_t lag = 0, by = 0;

	eevdf_open(&queue);
	for (uint64_t task = 0; task < 2; task++)
		eevdf_admit(&queue, task, 0, SLICE, 1000000);
	eevdf_pick(&queue);
	eevdf_tick(&queue, TURN);
	eevdf_doze(&queue, NAPPER, &lag);
	eevdf_place_of(&queue, NAPPER, &place);
	printf("it leaves with the lag %d, and dozes at the place (%d, %d)\n", (int)lag,
	       (int)place.high, (int)place.low);
	eevdf_rebase(&queue, &by);
	eevdf_place_of(&queue, NAPPER, &place);
	printf("a rebase by %d makes that (%d, %d)\n", (int)by, (int)place.high, (int)place.low);
	eevdf_close(&queue);
}

int main(void)
{
	const unsigned asleep = share(0), dozing = share(1);

	printf("12.5 %% of the CPU is fair\n");
	printf("%u.%u %% it has where it sleeps\n", asleep / 10, asleep % 10);
	printf("%u.%u %% it has where it dozes\n", dozing / 10, dozing % 10);
	show_place();
	return 0;
}

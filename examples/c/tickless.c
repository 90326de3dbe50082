/*
 * tickless.c: one CPU without a periodic tick. Its timer goes off where the running task's request
 * is used up. It is set after each pick, and after each charge too: a charge rounds down, so two
 * short ones may leave some of a request that a single one uses up.
 */
#include <eevdf.h>
#include <stdio.h>

enum { SLICE = 3000000, TASKS = 2, NICE = -20 };

/* When an interrupt comes that has nothing to do with who runs. */
static const uint64_t interrupts[] = { 50, 4000000 };

static eevdf_queue queue;
static uint64_t now;     /* the clock, in nanoseconds */
static uint64_t charged; /* when the running task was last charged */
static uint64_t alarm;   /* when the timer goes off */

static void set_timer(void)
{
	int64_t ns = eevdf_time_to_resched(&queue);

	/* ABSENT: nobody runs, or a second isn't enough */
	alarm = now + (uint64_t)(ns > 0 ? ns : EEVDF_TICK_MAX);
	printf("%8d ns: task %d runs, the timer is set to %d\n", (int)now,
	       (int)eevdf_running(&queue), (int)alarm);
}

/* Charges who runs for the time since the last charge. */
static void charge(const char *why)
{
	int64_t used_up = eevdf_tick(&queue, now - charged);

	printf("%8d ns: %s, its request is %s\n", (int)now, why,
	       used_up == 1 ? "used up" : "not used up");
	charged = now;
	if (used_up == 1)
		eevdf_pick(&queue);
	set_timer();
}

int main(void)
{
	eevdf_open(&queue);
	for (uint64_t task = 0; task < TASKS; task++)
		eevdf_admit(&queue, task, NICE, SLICE, 0);
	eevdf_pick(&queue);
	set_timer();
	for (unsigned at = 0; at < sizeof(interrupts) / sizeof(interrupts[0]); at++) {
		while (alarm < interrupts[at]) {
			now = alarm;
			charge("the timer went off");
		}
		now = interrupts[at];
		charge("an interrupt came");
	}
	eevdf_close(&queue);
	return 0;
}

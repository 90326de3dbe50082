/*
 * own_numbers.c: two CPUs whose queues give out their numbers each by itself, so that each can have
 * 1024 threads. Each begins with one that runs already, as a kernel does where it boots: it is
 * named, and not picked. A thread that is pulled keeps its number where that is free, and else gets
 * one that is: here it isn't free.
 */
#include <eevdf.h>
#include <stdio.h>

enum { SLICE = 3000000, HEAVY = 0, LIGHT = 19 };

struct thread {
	const char *name;
	int64_t nice;
};

static struct cpu {
	const char *name;
	eevdf_queue queue;
	const struct thread *threads[EEVDF_TASKS];
} first = { .name = "the first CPU" }, second = { .name = "the second CPU" };

static uint64_t free_number(const struct cpu *cpu)
{
	uint64_t number = 0;

	while (number < EEVDF_TASKS && cpu->threads[number])
		number++;
	return number;
}

static void note(struct cpu *cpu, uint64_t number, const struct thread *thread)
{
	cpu->threads[number] = thread;
	printf("%s has the number %d of %s\n", thread->name, (int)number, cpu->name);
}

/* A new thread gets the lowest number that is free. Answers the number. */
static uint64_t admit(struct cpu *cpu, const struct thread *thread)
{
	const uint64_t number = free_number(cpu);

	if (eevdf_admit(&cpu->queue, number, thread->nice, SLICE, 0) == 0)
		note(cpu, number, thread);
	return number;
}

/* The CPU begins with a thread, on whose stack all this is done. */
static void boot(struct cpu *cpu, const struct thread *thread)
{
	eevdf_open(&cpu->queue);
	if (eevdf_run(&cpu->queue, admit(cpu, thread)) == 0)
		printf("%s runs, and nobody picked it\n", thread->name);
}

/* Moves a thread that waits to a number that is free here. Answers that number, or an error. */
static int64_t move(struct cpu *own, struct cpu *from, uint64_t task)
{
	const uint64_t number = free_number(own);
	eevdf_hand hand;
	int64_t answer;

	eevdf_hand_open(&hand);
	eevdf_take(&from->queue, &hand, task);
	answer = eevdf_hand_renumber(&hand, number);
	if (answer == 0)
		answer = eevdf_put(&own->queue, &hand);
	if (answer == 0)
		return (int64_t)number;
	/* no number is free here, or it can't be placed: it goes back under its own */
	eevdf_hand_renumber(&hand, task);
	if (eevdf_put(&from->queue, &hand) != 0) {
		eevdf_hand_close(&hand); /* it has no place in either, and ends */
		from->threads[task] = NULL;
	}
	return answer;
}

/*
 * Pulls the candidate, under both locks in a kernel. PRESENT says that the loads would come closer,
 * and that another thread has its number here.
 */
static void pull(struct cpu *own, struct cpu *from)
{
	const int64_t task = eevdf_candidate(&from->queue);
	int64_t number = eevdf_pull(&own->queue, &from->queue);

	if (number == EEVDF_PRESENT)
		number = move(own, from, (uint64_t)task);
	if (number >= 0) {
		note(own, (uint64_t)number, from->threads[task]);
		from->threads[task] = NULL;
	}
}

int main(void)
{
	static const struct thread init = { "init", HEAVY }, shell = { "shell", HEAVY };
	static const struct thread idle = { "idle", LIGHT }, logger = { "logger", LIGHT };

	boot(&first, &init);
	boot(&second, &idle);
	admit(&first, &shell);
	admit(&second, &logger);
	pull(&second, &first);
	eevdf_close(&first.queue);
	eevdf_close(&second.queue);
	return 0;
}

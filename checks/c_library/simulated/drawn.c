/*
 * drawn.c CPUS SEED STEPS TRACE: does to the module of examples/sched_ext what Linux does: tasks are
 * forked, fall asleep, wake, get other CPUs, levels and classes, and end, as they are drawn, until
 * each CPU's queue is full. Between the steps each task has to be where it belongs. Writes what the
 * library was called, for replay.py.
 */
#include "scheduler.h"

enum { MOST = 8192, MOST_RUNNABLE = 128 };
enum { ROOM_FOR_CALLS = 2000000, BYTES_OF_CALL = 64, BYTES_OF_HEAD = 32 };

struct cpumask online;
int nr_cpu_ids, this_cpu;
u64 time_ns = 1;
void *trace_memory;
struct task_struct idle, *runs_on[MAX_CPUS];

void set_trace_size(unsigned long bytes);

static struct task_struct *tasks[MOST];
static int count;
static u64 word;
static unsigned int refused, steps_with_full_cpu;

static u64 drawn(u64 below)
{
	word = word * 6364136223846793005u + 1442695040888963407u;
	return (word >> 33) % below;
}

static _Noreturn void end_wrong(const char *what)
{
	printf("%s; failed: %s\n", what, failure() ? failure_in_words() : "nothing");
	exit(1);
}

/* No operation is refused. */
static void has_to(s64 answer, const char *what)
{
	if (answer < 0 || failure())
		end_wrong(what);
}

static void come(struct task_struct *task)
{
	this_cpu = task->cpu;
	has_to(enqueue(task), "a task can't wait");
	task->state = WAITS;
	task->scx.flags |= SCX_TASK_QUEUED;
}

/* Linux takes a task off its CPU, or back from those that wait. */
static void go(struct task_struct *task, bool falls_asleep)
{
	this_cpu = task->cpu;
	if (task->state == RUNS) {
		has_to(stop(task), "a task doesn't stop");
		runs_on[task->cpu] = NULL;
	}
	if (task->state == RUNS || task->state == WAITS)
		has_to(take_back(task, falls_asleep), "a task can't be taken back");
	task->scx.flags &= ~SCX_TASK_QUEUED;
	task->state = SLEEPS;
}

static void run(struct task_struct *task, int cpu)
{
	task->cpu = cpu;
	task->state = RUNS;
	task->scx.flags |= SCX_TASK_QUEUED;
	runs_on[cpu] = task;
	has_to(start(task), "a task can't run");
}

static void schedule(int cpu)
{
	struct task_struct *before = runs_on[cpu], *next;

	this_cpu = cpu;
	next = pick(cpu);
	has_to(0, "a pick has failed");
	if (!next)
		return;
	if (next->state != WAITS || !cpumask_test_cpu(cpu, next->cpus_ptr) || !confirm(cpu, next))
		end_wrong("who is picked may not run");
	if (before) {
		has_to(stop(before), "a task doesn't stop");
		come(before);
	}
	this_cpu = cpu;
	run(next, cpu);
}

static int some_cpu_of(const struct cpumask *cpus)
{
	return __builtin_ctzl(cpus->bits);
}

/* A task that was forked on the CPU and sleeps, or NULL where that is refused. */
static struct task_struct *fork_on(int cpu, unsigned long cpus)
{
	struct task_struct *task = calloc(1, sizeof *task);
	s64 answer;

	task->cpus.bits = cpus;
	task->cpus_ptr = &task->cpus;
	task->cpu = cpumask_test_cpu(cpu, &task->cpus) ? cpu : some_cpu_of(&task->cpus);
	task->static_prio = 100 + drawn(40);
	this_cpu = cpu;
	answer = count < MOST ? begin(task) : -EAGAIN;
	if (answer == -EAGAIN) {
		free(task);
		return NULL;
	}
	has_to(answer, "a fork has failed");
	tasks[count++] = task;
	return task;
}

/* A task in four may run on one CPU alone. */
static void fork_one(int cpu)
{
	unsigned long cpus = drawn(4) ? online.bits : BIT(drawn(nr_cpu_ids));
	struct task_struct *task = fork_on(cpu, cpus);

	if (!task) {
		refused++;
		return;
	}
	task->cpu = place(task, task->cpu);
	come(task);
}

static void fall_asleep(int cpu)
{
	if (runs_on[cpu])
		go(runs_on[cpu], true);
	schedule(cpu);
}

static void wake(struct task_struct *task)
{
	if (task->state != SLEEPS)
		return;
	if (!cpumask_test_cpu(task->cpu, &task->cpus))
		task->cpu = some_cpu_of(&task->cpus);
	come(task);
}

static void change_cpus(struct task_struct *task)
{
	unsigned int state = task->state;
	int cpu = task->cpu;

	if (state == RUNS || state == WAITS)
		go(task, false);
	task->cpus.bits = 1 + drawn(online.bits);
	if (state != RUNS && state != WAITS)
		return;
	if (state == RUNS && cpumask_test_cpu(cpu, &task->cpus)) {
		this_cpu = cpu;
		run(task, cpu);
		return;
	}
	wake(task);
	if (state == RUNS)
		schedule(cpu);
}

static void change_level(struct task_struct *task)
{
	if (task->state == IS_OF_ANOTHER_CLASS)
		return;
	this_cpu = task->cpu;
	task->static_prio = 100 + drawn(40);
	has_to(change_weight(task), "a level can't be changed");
}

static void change_class(struct task_struct *task)
{
	bool ran = task->state == RUNS;

	if (task->state == IS_OF_ANOTHER_CLASS) {
		task->state = SLEEPS;
		return;
	}
	go(task, false);
	task->state = IS_OF_ANOTHER_CLASS;
	if (ran)
		schedule(task->cpu);
}

static void end_one(int at)
{
	struct task_struct *task = tasks[at];
	bool ran = task->state == RUNS;
	int cpu = task->cpu;

	go(task, true);
	end(task);
	tasks[at] = tasks[--count];
	free(task);
	if (ran)
		schedule(cpu);
}

static void look_at(struct task_struct *linux_task)
{
	bool is_runnable = linux_task->state == WAITS || linux_task->state == RUNS;
	struct task *task = task_of(linux_task);
	struct cpu_queue *queue;

	if (!task || task->linux_task != linux_task)
		end_wrong("a task isn't known");
	queue = queue_of(task->home);
	if (task->is_ours != (linux_task->state == WAITS))
		end_wrong("a task is ours that doesn't wait, or none of ours that does");
	if (task->is_ours && !cpumask_test_cpu(task->home, linux_task->cpus_ptr))
		end_wrong("a task waits where it may not run");
	if (task->number == NO_NUMBER) {
		if (is_runnable)
			end_wrong("a runnable task is in no queue");
		return;
	}
	if (task_by_number(queue, task->number) != task ||
	    eevdf_contains(&queue->queue, task->number) != 1)
		end_wrong("a number is somebody else's");
	if ((eevdf_is_asleep(&queue->queue, task->number) == 1) == is_runnable)
		end_wrong("a task sleeps that is runnable, or is runnable and sleeps");
}

/* Each task is where it belongs, and the queues have nothing else. */
static void look_at_all(void)
{
	unsigned int members[MAX_CPUS] = { 0 }, in = 0;

	for (int at = 0; at < count; at++) {
		look_at(tasks[at]);
		members[task_of(tasks[at])->home]++;
		in += task_of(tasks[at])->number != NO_NUMBER;
	}
	for (int cpu = 0; cpu < nr_cpu_ids; cpu++)
		if (queue_of(cpu)->members != members[cpu] || members[cpu] > EEVDF_TASKS)
			end_wrong("too many belong to a queue, or too few");
	if (tasks_taken() != (unsigned int)count || all_numbers_taken() != in ||
	    blocks_taken() != in || places_taken() != in)
		end_wrong("something is lost");
}

/* How many are runnable: always fewer than a queue has numbers, so that each finds its place. */
static int runnable(void)
{
	int all = 0;

	for (int at = 0; at < count; at++)
		all += tasks[at]->state == WAITS || tasks[at]->state == RUNS;
	return all;
}

static void take_step(void)
{
	int cpu = drawn(nr_cpu_ids);

	time_ns += drawn(3000000);
	if (runnable() > MOST_RUNNABLE) {
		fall_asleep(cpu);
		return;
	}
	if (drawn(5) == 0 || (count < nr_cpu_ids * EEVDF_TASKS * 7 / 8 && drawn(2))) {
		fork_one(cpu);
		return;
	}
	switch (count ? drawn(16) : 15) {
	case 0: case 1: case 2: case 3:
		fall_asleep(cpu);
		break;
	case 4: case 5: case 6:
		wake(tasks[drawn(count)]);
		break;
	case 7: case 8:
		change_cpus(tasks[drawn(count)]);
		break;
	case 9:
		change_level(tasks[drawn(count)]);
		break;
	case 10:
		change_class(tasks[drawn(count)]);
		break;
	case 11:
		if (drawn(8) == 0)
			end_one(drawn(count));
		break;
	default:
		schedule(cpu);
	}
}

/*
 * More tasks are runnable that may run on the first CPU alone than its queue has numbers. Nobody can
 * make room, and the last of them is refused, which ends the scheduler.
 */
static void crowd(void)
{
	for (int at = 0; at <= EEVDF_TASKS; at++) {
		struct task_struct *task = fork_on(0, online.bits);
		s64 answer;

		if (!task)
			end_wrong("a fork is refused while there is room");
		task->cpus.bits = 1;
		task->cpu = 0;
		answer = enqueue(task);
		if (at < EEVDF_TASKS ? answer < 0 : answer != -ENOSPC || failure() != -ENOSPC)
			end_wrong("a CPU has another number of tasks than its queue has numbers");
	}
}

static void write_trace(const char *name)
{
	const u64 *head = trace_memory;
	u64 made = min_t(u64, head[1], head[2]);
	FILE *file = fopen(name, "wb");

	if (!file || !fwrite(trace_memory, BYTES_OF_HEAD + made * BYTES_OF_CALL, 1, file) ||
	    fclose(file))
		end_wrong("the trace isn't written");
}

int main(int words, char **argument)
{
	const size_t bytes = BYTES_OF_HEAD + (size_t)ROOM_FOR_CALLS * BYTES_OF_CALL;
	int steps = words == 5 ? atoi(argument[3]) : 0;

	if (steps < 1)
		return 2;
	nr_cpu_ids = atoi(argument[1]);
	online.bits = BIT(nr_cpu_ids) - 1;
	word = atoi(argument[2]);
	set_trace_size(bytes);
	trace_memory = calloc(1, bytes);
	if (!trace_memory || begin_trace() || begin_queues())
		end_wrong("nothing begins");
	for (int at = 0; at < steps; at++) {
		take_step();
		if (at % 50 == 0)
			look_at_all();
		for (int cpu = 0; cpu < nr_cpu_ids; cpu++)
			steps_with_full_cpu += !has_room(queue_of(cpu));
	}
	look_at_all();
	write_trace(argument[4]);
	printf("%d tasks, %u forks are refused, %u steps with a full CPU, %lld tasks pulled\n",
	       count, refused, steps_with_full_cpu,
	       atomic64_read(&pulled) + atomic64_read(&pulled_when_busy));
	while (count)
		end_one(count - 1);
	look_at_all();
	if (nr_cpu_ids > 1)
		crowd();
	return 0;
}

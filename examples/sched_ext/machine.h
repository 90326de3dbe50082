/*
 * machine.h: what the parts of the machine's only program share. It runs as the first process, and
 * does what the words on Linux's command line say, one after the other.
 */
#ifndef MACHINE_H
#define MACHINE_H

#include <stdbool.h>
#include <stdint.h>
#include <sys/types.h>

enum { MICROSECOND = 1000, MILLISECOND = 1000 * MICROSECOND, SECOND = 1000 * MILLISECOND };

/* Prints a line to the console. Every line that says that something is wrong begins with FAULT. */
void say(const char *text, ...) __attribute__((format(printf, 1, 2)));

int64_t now_ns(void);
/* The processor time that a process has had. */
int64_t had_ns(pid_t process);
void sleep_ns(int64_t ns);
void sleep_until(int64_t at);
void compute_until(int64_t at);

/* Memory that this process and those that it forks share. */
void *shared(size_t size);
/* Forks a child with a nice level and a name. It is 0 in the child. */
pid_t fork_as(const char *name, int nice);
/* A process may run on that CPU alone from now on; 0 is this one. */
bool stay_on_cpu(pid_t process, int cpu);
/* Ends a child, and waits for it. */
void end_child(pid_t child);

bool load(const char *words);
/* Whether a scheduler runs, and which: queues, plain, or fair, which is Linux's own class. */
bool is_loaded(void);
const char *name_of_class(void);
bool unload(void);
/* In a child: Linux ends a scheduler only once nobody has it open any more. */
void let_go(void);
/* The same for a scheduler of Linux's own, without the module. */
bool load_plain(void);
bool unload_plain(void);
/* Waits until Linux has put the scheduler out. */
bool has_ended(int seconds);
void plant(int fault);

/* What there is to do, each for so many seconds. */
void measure_shares(int seconds);
void measure_naps(int seconds);
void hunt(int seconds, bool only_cpus);
void fork_until_refused(void);
void try_fault(int fault);
void spin_in_real_time(int seconds);
void end_beside_turning(int seconds);
void end_beside_computing(int seconds);

#endif

"""Whether a program has two threads in calls on one queue or one hand at a time. Each call marks its queue and hand as in use, lets others
run now and then, and ends the program where one of them is in use already. And the same for ThreadSanitizer, which doesn't see what the
archive does: each call tells it that its queue and hand are written, or read where the header says `const`. So it finds calls that no lock
orders, also where they don't meet."""

from wrapped import arguments, declarations, flags, function

MARKS = """
#define _POSIX_C_SOURCE 200809L
#include <eevdf.h>
#include <sched.h>
#include <stdatomic.h>
#include <stdio.h>
#include <stdlib.h>

static struct {
	_Atomic(const void *) at;
	atomic_int is_used;
} marks[64];

/* Lets others run in one call of sixteen: beside other work each time costs a whole turn of the processor. */
static void let_others_run(void)
{
	static _Thread_local unsigned calls;

	if (++calls % 16 == 0)
		sched_yield();
}

static void use(const void *at)
{
	for (unsigned place = 0; place < sizeof marks / sizeof *marks; place++) {
		const void *held = NULL;

		if (!atomic_compare_exchange_strong(&marks[place].at, &held, at) && held != at)
			continue;
		if (!atomic_exchange(&marks[place].is_used, 1))
			return;
		fputs("two threads use one queue or hand\\n", stderr);
		abort();
	}
	abort();
}

static void leave(const void *at)
{
	for (unsigned place = 0; place < sizeof marks / sizeof *marks; place++)
		if (atomic_load(&marks[place].at) == at)
			atomic_store(&marks[place].is_used, 0);
}
"""


def body(kind, held):
    """The body of a call that is given these queues and hands."""
    before = "".join(f"use({name}); " for name in held) + "let_others_run(); "
    after = "".join(f"leave({name}); " for name in held)
    if kind == "void":
        return f"{before}RIGHT; {after}"
    return f"{before}int64_t answer = RIGHT; {after}return answer;"


def held_by(parameters):
    return [name for name in arguments(parameters) if name in ("queue", "hand", "to", "from")]


def source_and_flags():
    """A C file that marks what each call uses, and how it is linked."""
    text, calls = MARKS, []
    for call, (kind, parameters) in declarations().items():
        held = held_by(parameters)
        if held:
            text += function(call, body(kind, held))
            calls.append(call)
    return text, flags(calls)


TOLD = """
#include <eevdf.h>

void __tsan_write1(void *at);
void __tsan_read1(void *at);
"""


def told_body(kind, parameters, held):
    told = "".join(f"__tsan_{'read' if f'const eevdf_{name} *' in parameters else 'write'}1((void *){name}); " for name in held)
    return f"{told}{'RIGHT;' if kind == 'void' else 'return RIGHT;'}"


def told_source_and_flags():
    """A C file that tells ThreadSanitizer what each call uses, and how it is linked."""
    text, calls = TOLD, []
    for call, (kind, parameters) in declarations().items():
        held = held_by(parameters)
        if held:
            text += function(call, told_body(kind, parameters, held))
            calls.append(call)
    return text, flags(calls)

/*
 * interrupted.c: is linked beside a caller whose calls of the library go through interrupted.py's
 * code. That has the processor trap after each instruction of a call. The handler does what an
 * interrupt in a kernel would do: it writes over the bytes below the stack pointer. Where the
 * caller ends, its standard error gets a line, with how often that was.
 */
#define _GNU_SOURCE
#include <signal.h>
#include <stdint.h>
#include <stdio.h>
#include <stdlib.h>
#include <string.h>
#include <ucontext.h>

enum { HANDLER_STACK = 65536, BELOW = 256 };

static unsigned long interrupts;

static void interrupt(int signal, siginfo_t *info, void *context)
{
	const ucontext_t *at = context;

	(void)signal;
	(void)info;
	memset((void *)(uintptr_t)(at->uc_mcontext.gregs[REG_RSP] - BELOW), 0xcc, BELOW);
	interrupts++;
}

static void say_interrupts(void)
{
	fprintf(stderr, "interrupts: %lu\n", interrupts);
}

__attribute__((constructor)) static void begin(void)
{
	static unsigned char stack[HANDLER_STACK];
	const stack_t own = { .ss_sp = stack, .ss_size = sizeof stack };
	struct sigaction action = { .sa_sigaction = interrupt, .sa_flags = SA_SIGINFO | SA_ONSTACK };

	if (sigaltstack(&own, NULL) != 0 || sigaction(SIGTRAP, &action, NULL) != 0 || atexit(say_interrupts) != 0)
		abort();
}

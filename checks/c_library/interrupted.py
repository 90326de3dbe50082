"""The calls as a kernel may make them: on a stack that is off by 8, and interrupted after each instruction, by a handler that writes over
the bytes below the stack pointer. The errors and drawn sequences have to be answered as ever. Where the system delivers no traps this is
left out."""

import re
from dataclasses import replace

from drawn_calls import KINDS, compare
from object_file import MEMORY, declared
from tools import fault_of, run

# An interrupt takes some microseconds, so there are fewer calls, and fewer looks at the whole state, than without.
CALLS, LOOKS = 1000, 97
SAID = re.compile(r"^interrupts: (\d+)$", re.MULTILINE)

# The bit of the flags by which the processor traps after each instruction.
TRAPS = 0x100
NO_STACK = '\n\t.section .note.GNU-stack, "", @progbits\n'
# A program that has it set for a few instructions.
PROBE = """
	.globl main
main:
	pushfq
	orq ${traps}, (%rsp)
	popfq
	nop
	pushfq
	andq $~{traps}, (%rsp)
	popfq
	xor %eax, %eax
	ret
"""
# Who calls has a stack aligned to 16, so this function's return address lies off by 8, and that of the call right below it.
CALL = """
	.globl __wrap_{name}
__wrap_{name}:
	pushfq
	orq ${traps}, (%rsp)
	popfq
	call __real_{name}
	pushfq
	andq $~{traps}, (%rsp)
	popfq
	ret
"""
# The functions for memory are the C compiler's, which wants an aligned stack; and they aren't interrupted. The caller has them by another
# name.
OWN = """
	.globl {name}
{name}:
	push %rbp
	mov %rsp, %rbp
	push %rbx
	pushfq
	pop %rbx
	and $-16, %rsp
	pushfq
	andq $~{traps}, (%rsp)
	popfq
	call own_{name}
	push %rbx
	popfq
	mov -8(%rbp), %rbx
	leave
	ret
"""


def compile_interrupted(tools, caller):
    """Builds a caller whose calls are made so."""
    calls = sorted(declared())
    text = "".join(CALL.format(name=name, traps=TRAPS) for name in calls) + "".join(OWN.format(name=name, traps=TRAPS) for name in MEMORY)
    source = tools.work / "interrupted.s"
    source.write_text(text + NO_STACK)
    linked = [*(f"-Wl,--wrap={name}" for name in calls), *(f"-D{name}=own_{name}" for name in MEMORY)]
    sources = [tools.callers / f"{caller}.c", tools.callers / "interrupted.c", source]
    return tools.compile(f"{caller}-interrupted", sources, *linked, "-Wl,-z,now")


def interrupts(made):
    """How often a program says that it was interrupted."""
    said = SAID.search(made.stderr)
    return int(said[1]) if said else 0


def has_traps(tools):
    """Whether the system tells a program of the processor's traps, as some emulators don't."""
    source = tools.work / "probe.S"
    source.write_text(PROBE.format(traps=TRAPS) + NO_STACK)
    program, fault = tools.compile("probe", [source, tools.callers / "interrupted.c"], libraries=())
    made = None if fault else run([program])
    # where the compiler or the handler is at fault, the checks find it
    return not made or made.returncode != 0 or interrupts(made) > 0


def check_errors(tools):
    program, fault = compile_interrupted(tools, "errors")
    made = None if fault else run([program])
    count = interrupts(made) if made else 0
    tools.checks.look("callers/errors.c, off by 8 and interrupted", fault or fault_of(made) or (None if count else "no interrupts"),
                      f"{count} interrupts")


def check(tools, seed):
    if not has_traps(tools):
        tools.checks.leave_out("calls off by 8 and interrupted", "the system tells a program of no traps")
        return
    check_errors(tools)
    program, fault = compile_interrupted(tools, "play")
    for kind in KINDS:
        name = f"drawn calls of {kind.name}, off by 8 and interrupted, seed {seed}"
        if fault:
            tools.checks.look(name, fault)
            continue
        compared = compare((program, replace(kind, looks=LOOKS), seed, CALLS))
        tools.checks.look(name, compared.fault, f"{compared.count} calls are answered as by the model")

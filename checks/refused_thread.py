#!/usr/bin/env -S python3 -B
"""checks/refused_thread.py: runs 64 programs in an address space that hasn't room for the stacks of their threads: a thread is refused,
which `eevdf` and `eevdf_timeline` say by their fault line and their status. The same workload runs to its report, or its picture, where
there is room. Likewise `eevdf_uses` is run where one thread fewer has room than its turns want, by the `run_turns` of either fleet; at a
barrier those of the other CPUs have to end though the last one never comes. It rests on the C library, which gives a thread a stack as
large as the limit of stacks says. The last line is 'N passed, M failed'."""

import re
import sys
from resource import RLIMIT_AS, RLIMIT_STACK

from runner import TOP, Checks, Printed, built, status_of
from work import within

CPUS = 64
WORKLOAD = b"version = 2\nprogram = [" + b'["pick"], ' * CPUS + b"]\n[[task]]\n"
# Stacks of 8 MiB for each thread, and 256 MiB in all.
LIMITS = {RLIMIT_STACK: 8 << 20, RLIMIT_AS: 256 << 20}

# The stack of a thread of `eevdf_uses`, and how many have room beside the program where its turns are refused. What it prints ends then
# with the line that begins what it does by them.
USES_STACK = 256 << 20
USES = {
    "turns with a history": (1, b"two threads\n"),
    "a barrier with a history": (2, b"barrier\n"),
    "turns without a history": (3, b"idle pulls\n"),
    "a barrier without a history": (4, b"barrier without a history\n"),
}
# The processor time that it may take until then. Turns that wait for a CPU that never comes take all that there is.
SECONDS = 1


def look_at_uses(checks, programs):
    """The two `run_turns`: a refused thread isn't said to be refused memory, and no turn waits for its CPU for ever."""
    wanted = (TOP / "crates" / "eevdf_uses" / "stdout").read_bytes()
    for name, (threads, last) in USES.items():
        limits = {RLIMIT_STACK: USES_STACK, RLIMIT_AS: threads * USES_STACK + USES_STACK // 2}
        before = wanted.partition(last)[0] + last
        with checks.unless_slow(f"a refused thread of {name}"):
            printed, late = within(SECONDS, programs, "eevdf_uses", [], b"", limits)
            is_told = printed.status == 1 and printed.out == before and b"WouldBlock" in printed.errors
            checks.look(f"a refused thread of {name}", late or (None if is_told else f"prints {printed}"))
    with checks.unless_slow("turns whose threads have room"):
        whole = programs.run("eevdf_uses", [])
        checks.expect("turns whose threads have room", whole, (whole.out, whole.status) == (wanted, 0))


def main():
    programs, checks = built("eevdf", "eevdf_timeline", "eevdf_uses"), Checks()
    refused = programs.run("eevdf", ["run"], WORKLOAD, limits=LIMITS)
    checks.expect("a refused thread", refused, refused == Printed(b"fault: thread\n", 3))
    whole = programs.run("eevdf", ["run"], WORKLOAD)
    cpus = re.findall(rb"^cpu ", whole.out, re.MULTILINE)
    checks.expect(f"{CPUS} threads that have room", whole, whole.status == 0 and len(cpus) == CPUS)
    undrawn = programs.run("eevdf_timeline", ["--run"], WORKLOAD, limits=LIMITS)
    checks.expect("a refused thread of a picture", undrawn, undrawn == Printed(b"", 3, b"fault: thread\n"))
    drawn = programs.run("eevdf_timeline", ["--run"], WORKLOAD)
    checks.expect(f"{CPUS} threads that are drawn", drawn, drawn.status == 0 and drawn.out.count(b'class="l"') == CPUS)
    look_at_uses(checks, programs)
    return checks.end()


if __name__ == "__main__":
    sys.exit(status_of(main))

#!/usr/bin/env -S python3 -B
"""checks/stack.py: finds the least stack with which programs end with status 0, and print what they print with ample stack. It may be at
most a page more than what is stored here. A queue has 24 KiB, of which its slots have 16, so a copy more of either is found. The C library
and the system have a part in it, so another machine may need another KiB or two. No proof speaks of it. The last line is
'N passed, M failed'."""

import ctypes
import sys
from bisect import bisect_left
from dataclasses import dataclass
from resource import RLIMIT_CORE, RLIMIT_STACK

from runner import TOP, Checks, built, run, status_of

# Stacks in KiB: one with which no program begins, and one with which each ends.
LITTLE = 16
AMPLE = 1024
PAGE = 4

# The environment lies on a program's stack. This one has the C library's names looked up at the start, and not where the stack is deepest.
ENVIRONMENT = {"LD_BIND_NOW": "1"}

# personality(2): addresses aren't drawn.
ADDR_NO_RANDOMIZE = 0x0040000
# Where that is refused, each stack begins up to 8 KiB lower, by chance, and one of so many runs may end.
TRIES = 16


@dataclass(frozen=True)
class Case:
    """A run of a program, on an example or on nothing, and the least stack in KiB that it needs."""

    program: str
    words: tuple[str, ...]
    least: int
    example: str = ""

    def __str__(self):
        return " ".join([self.program, *self.words]) + f" < {self.example}" * bool(self.example)


# Over the libraries of the commit 86a9ae5, the first that were measured, they needed 64, and in the order below 88, 88, 100 and 72.
DROPPED = Case("measures", ("dropped-queue", "512", "512"), 64)
CASES = (
    Case("eevdf", ("solo",), 40, "examples/pull.toml"),
    Case("eevdf", ("replay",), 40, "examples/interleaving.toml"),
    Case("eevdf", ("run",), 100, "examples/programs-apart.toml"),
    Case("job_bench", ("orders", "1", "10", "1"), 24),
    DROPPED,
)


def fix_addresses():
    """Has no addresses drawn for programs that are run from now on, and answers how often each may be run."""
    personality = ctypes.CDLL(None).personality
    personality.argtypes = [ctypes.c_ulong]
    present = personality(0xFFFFFFFF)
    return 1 if personality(present | ADDR_NO_RANDOMIZE) != -1 else TRIES


def output(programs, case, stack):
    """What a program prints that ends with status 0 on so much stack, or None. Its path lies on that too, so it is the same everywhere."""
    data = (TOP / case.example).read_bytes() if case.example else b""
    limits = {RLIMIT_CORE: 0, RLIMIT_STACK: stack * 1024}
    folder = programs.path(case.program).parent
    printed = run([f"./{case.program}", *case.words], data, limits=limits, cwd=folder, env=ENVIRONMENT)
    return None if printed.status else printed.out


def least_stack(programs, case, tries):
    """The least stack with which a program prints what it prints with ample stack, or None where it doesn't end with that."""
    wanted = output(programs, case, AMPLE)
    if wanted is None:
        return None

    def suffices(stack):
        return any(output(programs, case, stack) == wanted for _ in range(tries))

    return bisect_left(range(AMPLE), True, lo=LITTLE, key=suffices)


def look_at_stack(checks, programs, case, tries):
    """Looks whether a program needs no more than a page above what is stored."""
    least, most = least_stack(programs, case, tries), case.least + PAGE
    said = f"{least} KiB, of at most {most}" if least else f"it doesn't end with status 0 on {AMPLE} KiB"
    checks.look(f"stack of {case}", None if least and least <= most else said, said)


def main():
    programs, checks, tries = built("eevdf", "job_bench", "measures"), Checks(), fix_addresses()
    for case in CASES:
        look_at_stack(checks, programs, case, tries)
    return checks.end()


if __name__ == "__main__":
    sys.exit(status_of(main))

"""The loop of a kernel in C, over a queue with bounds and shares beside it, whose calls are drawn: it comes as far as by the plain model,
in which no request is later than the bound that is read, and no task lacks more of its share than is read."""

import sys

from tools import TOP, fault_of, run

sys.path.append(str(TOP / "checks" / "drawn"))

from kernels import CALLS_IN_C, ModelOfShares  # noqa: E402
from plain.share_clock import ClockBeside  # noqa: E402

LOOPS = 2000


def difference(model, seed, printed):
    """The first loop of which the program prints another line than the model has, or None."""
    lines = printed.splitlines(keepends=True)
    if len(lines) != LOOPS:
        return f"{len(lines)} lines of {LOOPS} loops"
    for number, line in enumerate(lines, seed):
        wanted = model.line(number)
        if line != wanted:
            return f"seed {number}: {line.strip()}, and the model: {wanted.strip()}"
    return None


def check(tools, seed):
    model = ModelOfShares(CALLS_IN_C, ClockBeside)
    program, fault = tools.compile("loops", [tools.callers / "loops.c", tools.malloc_library()])
    made = None if fault else run([program, seed, LOOPS])
    fault = fault or fault_of(made) or difference(model, int(seed), made.stdout) or "; ".join(model.faults[:5]) or None
    tools.checks.look(f"callers/loops.c, seed {seed}", fault, f"{LOOPS} loops are as in the model")

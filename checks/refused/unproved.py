#!/usr/bin/env -S python3 -B
"""checks/refused/unproved.py: refuses requests for memory of the program `eevdf_uses`, which is run without a proof by `rt try`; so
neither a C compiler nor a built program is needed. Each run compiles the program anew, so every STEP-th request is refused, from the first
to past the last one. A run has to end in one of two ways: it prints what the program is stored with, or it says that it is out of memory,
with status 1, and has printed a beginning of that. The last line is 'N passed, M failed'."""

import re
import sys
from concurrent.futures import ThreadPoolExecutor
from pathlib import Path

sys.path.append(str(Path(__file__).resolve().parents[1]))

from runner import TOP, Checks, TooSlow, run, status_of  # noqa: E402

CRATE = TOP / "crates" / "eevdf_uses"
STEP = 32
# How many runs there are at a time: each takes one processor, and a gigabyte or two.
JOBS = 2
# So many seconds `rt try` gives a run.
SECONDS = 1800
IS_LATE = b"checked: no-answer: the program did not end within the time limit\n"
# The program has ended with this status.
ENDED = re.compile(rb"^run=ended status=(\d+) ", re.MULTILINE)


def refused(number):
    """What came of a run whose request of this number is refused: 'whole', 'out of memory', or what is wrong."""
    printed = run(["rt", "try", "--seconds", str(SECONDS), "--fail-alloc", str(number)], cwd=CRATE)
    if IS_LATE in printed.errors:
        raise TooSlow(f"the machine is too slow, or too busy: a run has no end after {SECONDS} seconds")
    wanted = (CRATE / "stdout").read_bytes()
    ended = ENDED.search(printed.errors)
    if ended and ended[1] == b"0" and printed.out == wanted:
        return "whole"
    if ended and ended[1] == b"1" and b"OutOfMemory" in printed.errors and wanted.startswith(printed.out):
        return "out of memory"
    return f"status {printed.status}, {printed.out[-500:]!r}, {printed.errors[-1000:]!r}"


def check(checks):
    told, number = [], 1
    with ThreadPoolExecutor(JOBS) as pool:
        while not told or told[-1] == "out of memory":
            numbers = range(number, number + JOBS * STEP, STEP)
            told += pool.map(refused, numbers)
            number += JOBS * STEP
    for text in told:
        checks.look("eevdf_uses, unproved", text if text not in ("whole", "out of memory") else None)
    count = told.count("out of memory")
    checks.look("eevdf_uses, unproved", None if count else "no request was refused")
    print(f"{count} requests for memory of eevdf_uses were refused, every {STEP}th, in runs without a proof")


def main():
    checks = Checks(are_many=True)
    check(checks)
    return checks.end()


if __name__ == "__main__":
    sys.exit(status_of(main))

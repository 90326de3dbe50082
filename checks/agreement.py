#!/usr/bin/env -S python3 -B
"""checks/agreement.py [SEEDS]: lets four threads do drawn operations of all kinds on eight CPUs of a fleet, from so many seeds (10), and
has one thread do the deeds of each run's history. Lets four threads do the same on a fleet that keeps no history, and one thread on both
kinds of fleet. And all of it with tasks that begin and end. No operation may be refused, no answer and no queue may differ, and each task
has to stand in one place. The last line is 'N passed, M failed'."""

import sys
from itertools import product

from runner import Checks, Printed, built, status_of

# What the program says, by the way in which it does the operations.
WANTED = {
    "check": b"8000 operations, agrees with one thread\n",
    "endless": b"8000 operations\n",
    "twins": b"8000 operations, agrees with its twin\n",
}

# All kinds of operations of programs, and tasks that come and go.
MIXES = ("all", "comes")


def main():
    seeds = int(sys.argv[1]) if sys.argv[1:] else 10
    programs, checks = built("measures"), Checks()
    for seed in range(1, seeds + 1):
        for (way, wanted), mix in product(WANTED.items(), MIXES):
            printed = programs.run("measures", ["fleet", way, "4", "2", "64", mix, "2000", str(seed)])
            checks.expect(f"{way}, {mix}, seed {seed}", printed, printed == Printed(wanted))
    return checks.end()


if __name__ == "__main__":
    sys.exit(status_of(main))

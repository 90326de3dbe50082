#!/usr/bin/env -S python3 -B
"""table.py LOG..: the rows of the tables in docs/embedding-c.md, of what run.sh has printed in several runs of `shares` and `naps`: for each
class the middle one of the runs, and in brackets the least and the most where these differ from it."""

import re
import sys
from collections import defaultdict
from pathlib import Path

LINES = {
    "shares": re.compile(r"^(\w+): shares:([ \d.]+) %", re.MULTILINE),
    "naps": re.compile(r"^(\w+): naps: .*: ([\d.]+) %", re.MULTILINE),
    "late": re.compile(r"^(\w+): the sleeper: \d+ wakes, late by at most ([ \d]+) us", re.MULTILINE),
}


def numbers_of(said, line):
    """For each class the numbers of a run, in the order in which they were printed."""
    numbers = defaultdict(list)
    for name, words in line.findall(said):
        numbers[name] += words.split()
    return numbers


def told(column):
    """A column of several runs."""
    ordered = sorted(column, key=float)
    least, middle, most = ordered[0], ordered[(len(ordered) - 1) // 2], ordered[-1]
    return middle if least == most else f"{middle} ({least} - {most})"


def main():
    logs = [Path(name).read_text() for name in sys.argv[1:]]
    if not logs:
        sys.exit(__doc__)
    for kind, line in LINES.items():
        runs = [numbers_of(said, line) for said in logs]
        for name in dict.fromkeys(name for run in runs for name in run):
            columns = zip(*(run[name] for run in runs if name in run))
            print(f"| {kind} | {name} | {' | '.join(map(told, columns))} |")


if __name__ == "__main__":
    main()

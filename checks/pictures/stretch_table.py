"""Whether a table of stretches shows a timeline."""

import re

from svg import expect
from turns import is_in, turns_of

HEADINGS = ("time ns", "cpu", "task", "waited ns", "delay ns", "ran ns", "why")


def listed(timeline, window, cpus):
    """The stretches that are in this time on these CPUs, in the order of time."""
    turns = [turn for turn in turns_of(timeline) if turn.cpu in cpus and is_in(window, turn.begin, turn.end)]
    return sorted(turns, key=lambda turn: turn.begin)


def rows_of(timeline, window, cpus):
    for turn in listed(timeline, window, cpus):
        delay = "-" if turn.delay is None else turn.delay
        yield [str(value) for value in (turn.begin, turn.cpu, turn.task, turn.waited, delay, turn.end - turn.begin, turn.why)]


def check_stretch_table(text, timeline, window=None, cpus=None):
    """Raises Wrong where a table doesn't have a row for each stretch, in the order of time, in columns that end as their headings do."""
    head, *rows = text.decode().splitlines()
    expect("the headings", head.split(), " ".join(HEADINGS).split())
    columns = [found.end() for found in re.finditer("|".join(HEADINGS), head)]
    wanted = list(rows_of(timeline, window or (0, timeline.end()), cpus or range(timeline.setup.cpus())))
    expect("the table", [row.split() for row in rows], wanted)
    for row in rows:
        expect(f"where the columns of {row!r} end", [found.end() for found in re.finditer(r"\S+", row)], columns)

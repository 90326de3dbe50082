#!/usr/bin/env -S python3 -B
"""checks/naps/write.py [--check] [--model]: writes into docs/model.md what tasks that fall asleep get of a CPU, and how long they wait, by
a sleep and by a doze, as the built program `eevdf` prints it. --check writes nothing: it looks whether the table is so, whether the program
prints what the plain model of checks/drawn/ does, and whether who stays awake has its share, in the cases and in two stored workloads. The
last line is then 'N passed, M failed'. With --model that model is asked in place of the program. TOP names another checkout whose program
is asked."""

import argparse
import re
import sys
from dataclasses import dataclass
from pathlib import Path

TOP = Path(__file__).resolve().parents[2]
sys.path.append(str(TOP / "checks"))

from cases import SHARES, WAITS  # noqa: E402
from played import Figures, Player, figures_of, workload  # noqa: E402
from plain.workbench import answer  # noqa: E402
from runner import Checks, Printed, built, status_of  # noqa: E402

PAGE = TOP / "docs" / "model.md"
# A table stands below a line with its name.
SHARES_HEAD = ("Whose share", "By weight", "By sleeps", "By dozes")
WAITS_HEAD = ("Who wakes", "By sleeps, ms", "By dozes, ms")

# Three tasks of one weight, of which two sleep by turns, and two doze.
STORED = TOP / "checks" / "cases" / "fair"
STARVED = STORED / "a-task-that-never-sleeps-gets-nothing-beside-two-that-do.toml"
SHARING = STORED / "a-task-that-never-sleeps-has-its-share-beside-two-that-doze.toml"


@dataclass(frozen=True)
class Played:
    """What was printed for a case under a word, and whether the model prints the same."""

    figures: Figures
    is_as_modelled: bool


class Scheduler:
    """The built program, or the model in its place."""

    def __init__(self, by_model):
        self.programs = None if by_model else built("eevdf")

    def printed(self, data):
        """What the model prints, and what the program does."""
        modelled = Printed(*answer(("solo",), data))
        return modelled, modelled if self.programs is None else self.programs.run("eevdf", ("solo",), data)

    def played(self, case, word):
        modelled, printed = self.printed(workload(case.behaviours, word, Player(case.behaviours, word).play(case.took)))
        if printed.status != 0:
            sys.exit(f"FAILED: {case.what}, by a {word}: {printed.out[:200]!r}, status {printed.status}\n0 passed, 1 failed")
        return Played(figures_of(printed.out), printed == modelled)


def percent(part):
    return f"{100 * part:.2f} %"


def shares_of(case, *played):
    """What those that are watched have, by their weight and by each word."""
    return case.what, percent(case.due()), *(percent(it.figures.share(case.watched)) for it in played)


def waits_of(case, *played):
    """The mean, the 99th of 100 and the greatest of their waits, by each word."""
    return case.what, *(", ".join(f"{ns / 10**6:.2f}" for ns in three_of(it.figures.waits_of(case.watched))) for it in played)


def three_of(waits):
    waits = sorted(waits)
    return sum(waits) / len(waits), waits[(99 * len(waits) + 99) // 100 - 1], waits[-1]


def table(head, rows):
    lines = ["|---" + "|--:" * (len(head) - 1) + "|", *("| " + " | ".join(cells) + " |" for cells in rows)]
    return "\n".join(["| " + " | ".join(head) + " |", *lines, ""])


def put(page, name, text):
    """The page with this table in the place of the one below the line with its name, where there is one such line."""
    place = re.compile(rf"(<!-- checks/naps/write\.py: {name} -->\n\n)((?:\|[^\n]*\n)+)")
    page, found = place.subn(lambda it: it[1] + text, page)
    if found != 1:
        sys.exit(f"FAILED: {PAGE.name} has {found} tables of {name}\n0 passed, 1 failed")
    return page


def look_at_case(checks, case, sleeps, dozes):
    for word, it in (("sleeps", sleeps), ("dozes", dozes)):
        checks.look(f"{case.what}, by {word}", None if it.is_as_modelled else "the program prints something else than the plain model")
    for task, it in enumerate(case.behaviours):
        if it.stays():
            ran, least = dozes.figures.ran.get(task, 0), case.least_of(task, dozes.figures.took)
            fault = None if ran >= least else f"ran for {ran} ns beside those that doze, and not {least:.0f}"
            checks.look(f"{case.what}: task {task}", fault)


def look_at_stored(checks, scheduler):
    """In the second half of the two that are stored task 0 has nothing beside sleeps, and a third or more beside dozes."""
    for path, is_right in ((STARVED, lambda share: share == 0), (SHARING, lambda share: share >= 1 / 3)):
        _, printed = scheduler.printed(path.read_bytes())
        lines = printed.out.splitlines(keepends=True)
        share = figures_of(b"".join(lines[len(lines) // 2:])).share((0,))
        checks.look(path.name, None if is_right(share) else f"task 0 has {100 * share:.2f} % in the second half")


def parse_words():
    words = argparse.ArgumentParser(description=__doc__)
    words.add_argument("--check", action="store_true", help="write nothing, and look whether all is so")
    words.add_argument("--model", action="store_true", help="ask the plain model in place of the built program")
    return words.parse_args()


def rows(scheduler, checks, cases, row_of):
    for case in cases:
        sleeps, dozes = scheduler.played(case, "sleep"), scheduler.played(case, "doze")
        look_at_case(checks, case, sleeps, dozes)
        yield row_of(case, sleeps, dozes)


def main():
    words = parse_words()
    scheduler, checks = Scheduler(words.model), Checks(are_many=True)
    before = PAGE.read_text()
    after = put(before, "shares", table(SHARES_HEAD, rows(scheduler, checks, SHARES, shares_of)))
    after = put(after, "waits", table(WAITS_HEAD, rows(scheduler, checks, WAITS, waits_of)))
    look_at_stored(checks, scheduler)
    if words.check:
        checks.look(PAGE.name, None if after == before else "has other tables than checks/naps/write.py writes")
        return checks.end()
    if after != before:
        PAGE.write_text(after)
    return checks.end() if checks.failed else 0


if __name__ == "__main__":
    sys.exit(status_of(main))

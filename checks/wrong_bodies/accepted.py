#!/usr/bin/env -S python3 -B
"""checks/wrong_bodies/accepted.py [--look] [NAME..]: tries the wrong bodies of accepted/, all or those named: those that the prover
accepts, since no contract says what a drop gives back, how much stack is taken, how long something takes, or what was refused.

Each is planted in a copy of the crates, where `rt ci` proves and builds the program that its check looks at: some minutes for each. The
check that its line `found by:` names has to fail on this program, and to pass on the one in which no wrong body is planted. With --look
nothing is tried: it looks whether each wrong body has its place in the crates, and its check is there. The last line is
'N passed, M failed'."""

import argparse
import os
import re
import subprocess
import sys
import tempfile
from collections.abc import Callable
from dataclasses import dataclass, field
from functools import partial
from pathlib import Path

from edits import TOP, BadEdit, Change, apply, changed, read_lines

sys.path += [str(TOP / "bench"), str(TOP / "checks"), str(TOP / "tools")]

from blocks import Allocator  # noqa: E402
from counts import read_rows  # noqa: E402
from crate_copies import copy_crates, read_crates, start_ci, with_all_below  # noqa: E402
from memory import look_at_drops  # noqa: E402
from refused_thread import look_at_uses  # noqa: E402
from runner import Checks, Programs  # noqa: E402
from stack import DROPPED, fix_addresses, look_at_stack  # noqa: E402

COUNT = "bench/count"


class Untried(Exception):
    """Why a program wasn't looked at: what `rt ci` says where it doesn't prove or build it, or the check where it can't look."""


@dataclass(frozen=True)
class Check:
    """What looks at a program."""

    name: str
    program: str
    look: Callable[[Checks, Programs], None]

    def __str__(self):
        return self.name


def look_at_blocks(checks, programs):
    with tempfile.TemporaryDirectory(prefix="blocks-") as folder:
        look_at_drops(checks, Allocator(folder, programs))


def look_at_count(row, checks, programs):
    """Has a row counted."""
    counted = subprocess.run([TOP / COUNT, str(row)], env={**os.environ, "TOP": str(programs.top)}, capture_output=True, text=True)
    said = counted.stdout + counted.stderr
    if risen := re.search(rf"^FAILED: {re.escape(str(row))}: (\d+ stored, \d+ now .*)$", said, re.MULTILINE):
        checks.look(row, risen[1])
    elif counted.returncode or "1 passed, 0 failed" not in said:
        raise Untried(said.strip())


def check_named(name):
    """The check that a line `found by:` names: bench/count with the row of bench/counts.txt, or one of this folder's neighbours."""
    if name == "checks/memory.py":
        return Check(name, DROPPED.program, look_at_blocks)
    if name == "checks/stack.py":
        return Check(name, DROPPED.program, lambda checks, programs: look_at_stack(checks, programs, DROPPED, fix_addresses()))
    if name == "checks/refused_thread.py":
        return Check(name, "eevdf_uses", look_at_uses)
    for row in read_rows():
        if name == f"{COUNT} {row}":
            return Check(name, row.program, partial(look_at_count, row))
    return None


@dataclass(frozen=True)
class Body:
    name: str
    check: Check
    changes: tuple[Change, ...]

    def __str__(self):
        return self.name


def read_body(file):
    changes, told = read_lines(file)
    check = check_named(told.get("found by"))
    if not check or not changes:
        raise BadEdit(f"{file.stem}: a line `found by:`, `file:`, `old:` or `new:` is missing or names nothing")
    return Body(file.stem, check, changes)


def bodies_named(names):
    """The wrong bodies of these names: all where no name is given."""
    folder = TOP / "checks" / "wrong_bodies" / "accepted"
    files = [folder / f"{name}.edit" for name in names] or sorted(folder.glob("*.edit"))
    if not files:
        raise BadEdit("there are no wrong bodies")
    return list(map(read_body, files))


def look_at_place(checks, body):
    """Looks whether the old texts of a wrong body stand in the crates."""
    try:
        changed(body, TOP)
        fault = None
    except (BadEdit, OSError) as why:
        fault = why
    checks.look(body, fault)


# The tries.

@dataclass
class Faults(Checks):
    """Checks that say nothing, and keep what failed."""

    found: list[str] = field(default_factory=list)

    def look(self, name, fault, said=""):
        if fault:
            self.found.append(f"{name}: {fault}")


def plant(body, top):
    """Plants a wrong body in copies of the crates, which are laid out then, as `rt ci` wants them."""
    apply(body, top)
    for crate in {Path(change.file).parts[1] for change in body.changes}:
        laid_out = subprocess.run(["rt", "fmt"], cwd=top / "crates" / crate, capture_output=True, text=True)
        if laid_out.returncode:
            raise Untried(laid_out.stdout + laid_out.stderr)


def build(top):
    """Proves and builds the program in copies of the crates."""
    with start_ci(top) as rt:
        said = rt.stdout.read()
    if rt.returncode:
        raise Untried(said[-1000:])


def faults_with(body, program, checks):
    """What each of these checks finds wrong with the program that is built with a body in place, or without one."""
    with tempfile.TemporaryDirectory(prefix="accepted-") as held:
        top = Path(held)
        copy_crates(with_all_below(read_crates(), [program]), top)
        if body:
            plant(body, top)
        build(top)
        faults = {check: Faults() for check in checks}
        for check, told in faults.items():
            check.look(told, Programs(top))
    return {check: told.found for check, told in faults.items()}


def first_of(faults):
    """The first fault, and how many there are more."""
    return faults[0] + f", and {len(faults) - 1} more" * (len(faults) > 1) if faults else ""


def try_right_bodies(checks, bodies):
    """Looks whether these bodies' checks find nothing where no wrong body is planted."""
    used = {str(body.check): body.check for body in bodies}.values()
    for program in dict.fromkeys(check.program for check in used):
        name = f"{program} without a wrong body"
        try:
            faults = faults_with(None, program, [check for check in used if check.program == program])
            checks.look(name, first_of([fault for found in faults.values() for fault in found]))
        except (Untried, OSError) as why:
            checks.look(name, why)


def try_body(checks, body):
    """Looks whether the prover accepts a wrong body, and its check finds it."""
    try:
        found = faults_with(body, body.check.program, [body.check])[body.check]
    except (Untried, BadEdit, OSError) as why:
        checks.look(body, f"it isn't proved, isn't built or isn't looked at: {why}")
    else:
        checks.look(body, None if found else f"{body.check} passes", f"{body.check} fails: {first_of(found)}")


def parse_words():
    words = argparse.ArgumentParser(description=__doc__, formatter_class=argparse.RawDescriptionHelpFormatter)
    words.add_argument("--look", action="store_true", help="tries nothing")
    words.add_argument("names", nargs="*", metavar="NAME", help="checks/wrong_bodies/accepted/NAME.edit")
    return words.parse_args()


def main():
    words = parse_words()
    checks = Checks(are_many=words.look)
    try:
        bodies = bodies_named(words.names)
    except (BadEdit, OSError) as why:
        checks.look("accepted/", why)
        return checks.end()
    if not words.look:
        try_right_bodies(checks, bodies)
    for body in bodies:
        (look_at_place if words.look else try_body)(checks, body)
    return checks.end()


if __name__ == "__main__":
    sys.exit(main())

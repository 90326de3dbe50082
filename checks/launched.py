#!/usr/bin/env -S python3 -B
"""checks/launched.py: what the built program `eevdf` answers where a standard stream is closed, full or a folder, or its words are wrong;
and that `./eevdf` answers so where it is built, and a symbolic link to it. `unbuilt.py` asks the same where it isn't. The last line is 'N passed, M failed'. TOP names
another checkout whose program is tried."""

import os
import re
import shutil
import sys
import tempfile
from contextlib import contextmanager
from dataclasses import dataclass
from pathlib import Path

from runner import TOP, Checks, built, run, stored, status_of

WORKLOAD = TOP / "examples" / "two-tasks.toml"
REPORT = stored(WORKLOAD.with_suffix(".out")).out
USAGE = re.search(r"`(usage: eevdf [^`]*)`", (TOP / "docs" / "formats.md").read_text())[1].encode()
FIRST_LINE = REPORT.partition(b"\n")[0]
CANT_READ, CANT_WRITE = b"fault: reading", b"fault: writing\n"
A_FOLDER = b"standard input: Is a directory (os error 21)\n"
CLOSED = b"standard input: Bad file descriptor (os error 9)\n"

# What ./eevdf consists of where it is built.
LAUNCHER = ("crates.txt", "eevdf", "tools/launch", "tools/current")


@dataclass(frozen=True)
class Case:
    """How a shell gives the streams, and what the answer is: its status, the first line of standard output, and standard error where that
    is asked for."""

    words: str
    streams: str
    status: int
    first: bytes
    errors: bytes | None = None


CASES = (
    Case("solo", "", 0, FIRST_LINE, b""),
    Case("solo", "</", 3, CANT_READ, A_FOLDER),
    Case("solo", "<&-", 3, CANT_READ, CLOSED),
    Case("solo", ">/dev/full", 3, b"", CANT_WRITE),
    Case("solo", ">&-", 3, b"", CANT_WRITE),
    Case("solo", "2>&-", 0, FIRST_LINE),
    Case("solo", "2>/dev/full", 0, FIRST_LINE),
    Case("solo", "<&- 2>&-", 3, CANT_READ),
    Case("solo", ">&- 2>&-", 3, b""),
    Case("solo", "<&- >&- 2>&-", 3, b""),
    Case("", "", 2, USAGE),
    Case("nothing-like-it", "", 2, USAGE),
    Case("nothing-like-it", "<&-", 2, USAGE),
    Case("--help", "", 0, b"eevdf runs a workload of tasks on the scheduler and prints each CPU's schedule.", b""),
    Case("--help", ">/dev/full", 3, b"", CANT_WRITE),
    Case("--help", ">&-", 3, b"", CANT_WRITE),
    Case("-h", ">&- 2>&-", 3, b""),
    Case("--version", ">/dev/full", 3, b"", CANT_WRITE),
    Case("solo --version", ">&-", 3, b"", CANT_WRITE),
)


@contextmanager
def pipe_that_nobody_reads():
    reading, writing = os.pipe()
    os.close(reading)
    try:
        yield writing
    finally:
        os.close(writing)


def without_launcher(errors):
    """What the program itself says on standard error, after the line that says what it is."""
    return re.sub(rb"\A\w+: not the proved program.*\n", b"", errors)


def look_at_case(checks, what, program, case):
    words = ["bash", "-c", f'exec "$@" {case.streams}', "bash", program, *case.words.split()]
    printed = run(words, WORKLOAD.read_bytes())
    is_right = (printed.status, printed.out.partition(b"\n")[0]) == (case.status, case.first)
    is_told = case.errors is None or without_launcher(printed.errors) == case.errors
    checks.expect(f"{what} {case.words} {case.streams}".strip(), printed, is_right and is_told)


def look_at_streams(checks, what, program):
    """Looks at each case, and at a pipe that nobody reads, where the program ends without a word."""
    for case in CASES:
        look_at_case(checks, what, program, case)
    for word in ("solo", "--help", "--version"):
        with pipe_that_nobody_reads() as pipe:
            printed = run([program, word], WORKLOAD.read_bytes(), stdout=pipe)
        is_quiet = (printed.status, without_launcher(printed.errors)) == (3, b"")
        checks.expect(f"{what} {word}, into a pipe that nobody reads", printed, is_quiet)


def copy_launcher(program, copy):
    """Makes a tree of the launcher and the program, which is newer than all else there."""
    for file in LAUNCHER:
        (copy / file).parent.mkdir(parents=True, exist_ok=True)
        shutil.copy2(TOP / file, copy / file)
    out = copy / "crates" / "eevdf" / "out"
    out.mkdir(parents=True)
    shutil.copy(program, out)


def look_at_link(checks, launcher, folder):
    """A symbolic link to the launcher, of whatever name and wherever it is, does what the launcher does."""
    link = folder / "scheduler"
    link.symlink_to(launcher)
    again = folder / "again"
    again.symlink_to(link.name)
    for name in (link, again):
        printed = run([name, "solo"], WORKLOAD.read_bytes())
        checks.expect(f"a link to ./eevdf, {name.name}", printed, (printed.out, printed.status) == (REPORT, 0))


def main():
    checks = Checks()
    program = built("eevdf").path("eevdf")
    look_at_streams(checks, "the built program", program)
    with tempfile.TemporaryDirectory(prefix="launched-") as held:
        copy = Path(held) / "tree"
        copy_launcher(program, copy)
        look_at_streams(checks, "./eevdf, built", copy / "eevdf")
        look_at_link(checks, copy / "eevdf", Path(held))
    return checks.end()


if __name__ == "__main__":
    sys.exit(status_of(main))

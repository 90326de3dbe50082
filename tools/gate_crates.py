#!/usr/bin/env -S python3 -B
"""gate_crates.py COPY [--all] [CRATE..]: copies into the folder COPY what `rt ci` reads of the crates that `./test` proves, and of those
named with all below them; with --all, of every crate but those of tests. What else is known of the two parts is here too: all other crates
are compiled and run by `./test` without a proof (checks/unproved.py, checks/runner.py)."""

import sys
from pathlib import Path

from crate_copies import copy_crates, read_crates, say, with_all_below

# What `./test` proves, with all below: what is sold, the library and the workbench, and the programs that are counted (bench/counts.txt).
PROVED = ("eevdf_c", "eevdf_fair_seat", "eevdf_live_tasks", "eevdf", "measures", "idle_sweeps", "job_bench")
# How the names of the crates of tests end, which are never proved.
TESTS = "_tests"


def proved_crates(named=()):
    """The crates that `./test` proves, and those named with all below them, each after those below it."""
    crates = read_crates()
    return with_all_below(crates, [*PROVED, *named])


def unproved_crates():
    """All other crates, as crates.txt has them in turn."""
    proved = proved_crates()
    return [crate for crate in read_crates() if crate not in proved]


def is_of_tests(crate):
    return crate.endswith(TESTS)


def main():
    flags = [word for word in sys.argv[1:] if word.startswith("-")]
    top, *named = [word for word in sys.argv[1:] if not word.startswith("-")] or [""]
    crates = read_crates()
    unknown = [f"crates.txt lists no crate {it}" for it in named if it not in crates]
    if flags not in ([], ["--all"]) or not Path(top or "/none").is_dir() or unknown:
        say("gate_crates.py", *unknown or ["the words are a folder, --all, and names of crates"])
        return 2
    everything = [it for it in crates if not is_of_tests(it)]
    copy_crates(with_all_below(crates, everything) if flags else proved_crates(named), Path(top))
    return 0


if __name__ == "__main__":
    sys.exit(main())

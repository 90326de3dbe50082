#!/usr/bin/env -S python3 -B
"""checks/c_library/archive.py COPY FOLDER: builds the library for C in a copy of the repository where `rt ci` runs, whose words are the
standard input, as soon as these say that the crates below it are proved. Makes libeevdf_c.a in the folder, and `module` with what it is
compiled from. Prints what the build says, and ends with its status."""

import os
import sys
from pathlib import Path

TOP = Path(__file__).resolve().parents[2]
sys.path += [str(TOP / "tools"), str(TOP / "tools" / "c_archives"), str(TOP / "checks" / "wrong_bodies")]

from build_archive import CRATE, build_archive  # noqa: E402
from crate_copies import DONE, all_below  # noqa: E402
from libraries import CRATES  # noqa: E402


def wait_for_crates_below(said):
    """Reads what `rt ci` says until the crates below are proved."""
    left = set(all_below(CRATES, CRATE))
    for line in said:
        if done := DONE.match(line):
            left.discard(done[1])
        if not left:
            return
    sys.exit(f"{CRATE} isn't built: rt ci doesn't prove {', '.join(sorted(left))}")


def main():
    copy, folder = (Path(word).resolve() for word in sys.argv[1:])
    wait_for_crates_below(sys.stdin)
    # who writes there has no reader any more, and goes on without one
    os.dup2(os.open(os.devnull, os.O_RDONLY), 0)
    sys.exit(build_archive(copy, folder))


if __name__ == "__main__":
    main()

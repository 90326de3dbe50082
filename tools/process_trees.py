"""A process with all that it has begun, directly or by others: how it is ended, whatever sessions and groups they are in. As a program,
`process_trees.py NUMBER FOLDER` waits until its standard input ends, ends the process of this number so, and removes the folder."""

import os
import shutil
import signal
import sys
from contextlib import suppress
from pathlib import Path


def parents():
    """The number of each process with that of the process that has begun it; nothing where the system doesn't list them."""
    found = {}
    for file in Path("/proc").glob("[0-9]*/stat"):
        with suppress(OSError, IndexError, ValueError):
            # the name of the program, between parentheses, may have spaces and parentheses itself
            found[int(file.parent.name)] = int(file.read_text(errors="replace").rpartition(")")[2].split()[1])
    return found


def below(number):
    """The numbers of the processes that this one has begun, or that these have."""
    by_number = parents()
    found = []
    level = [number]
    while level:
        level = [it for it, parent in by_number.items() if parent in level]
        found += level
    return found


def send(number, kind):
    with suppress(ProcessLookupError):
        os.kill(number, kind)


def end_tree(number):
    """Ends a process and all that it has begun. They are stopped first, so that none begins another one meanwhile."""
    stopped = []
    while more := [it for it in (number, *below(number)) if it not in stopped]:
        for it in more:
            send(it, signal.SIGSTOP)
        stopped += more
    for it in stopped:
        send(it, signal.SIGKILL)


def main():
    number, folder = sys.argv[1:]
    sys.stdin.buffer.read()
    end_tree(int(number))
    shutil.rmtree(folder, ignore_errors=True)


if __name__ == "__main__":
    main()

#!/usr/bin/env -S python3 -B
"""checks/memory.py: counts how often the programs ask for memory, and which of the blocks they keep when they end.
- `measures fleet` opens a fleet of two CPUs with 1 to 8 tasks, does nothing and closes it. A task has one node, and no machine stands
  beside the queues; so each task more may ask once more.
- It opens a fleet that keeps no history, does few or many operations of all kinds and closes it. An operation asks for nothing.
- `measures dropped-queue` drops a queue in which so many tasks are runnable and so many sleep: none, one, several, or all that it has room
  for. No block is kept.
- eevdf ends with such queues, and with those of an example, by each of its commands. No block is kept.
No proof speaks of it. The last line is 'N passed, M failed'."""

import sys
import tempfile
from itertools import product

from blocks import Allocator
from runner import TOP, Checks, built, status_of

# How many tasks one queue has room for.
ALL = 1024
# None, one and several.
FEW = (0, 1, 5)
DROPPED = (*product(FEW, FEW), *((ALL - few, few) for few in FEW), *((few, ALL - few) for few in FEW))

# An example with posts, pulls and tasks that sleep at the end.
EXAMPLE = "examples/interleaving.toml"


# How often the programs ask.

def look_at_requests(checks, allocator, what, runs, most):
    """Looks whether each run of `measures` asks for memory at most so many times more than the one before it."""
    told = [allocator.blocks("measures", words) for words in runs]
    counts = [blocks and blocks.asked for blocks in told]
    said = ", ".join(map(str, counts))
    is_right = all(counts) and all(after - before <= most for before, after in zip(counts, counts[1:]))
    checks.look(f"requests for memory of {what}", None if is_right else said, said)


def fleet_words(way, tasks, mix, operations):
    """The words of a run of a fleet by one thread, on two CPUs."""
    return ["fleet", way, "1", "2", str(tasks), mix, str(operations), "42"]


def look_at_fleets(checks, allocator):
    opened = [fleet_words("fleet", tasks, "own", 0) for tasks in range(1, 9)]
    look_at_requests(checks, allocator, "a fleet with 1 to 8 tasks", opened, 1)
    done = [fleet_words("endless", 8, "all", operations) for operations in (10, 1000, 20000)]
    look_at_requests(checks, allocator, "10, 1000 and 20000 operations", done, 0)


# What they keep.

def look_at_kept(checks, by, blocks, least):
    """Looks whether none is kept of the blocks that a program asked for, which were at least so many: one for each task."""
    said = f"{blocks.kept} of {blocks.asked}" if blocks else "it doesn't end with status 0"
    checks.look(f"blocks kept by {by}", None if blocks and blocks.kept == 0 and blocks.asked >= least else said, said)


def look_at_drops(checks, allocator):
    """Looks whether all is given back where a queue is dropped."""
    for runnable, asleep in DROPPED:
        words = ["dropped-queue", str(runnable), str(asleep)]
        blocks = allocator.blocks("measures", words)
        name = " ".join(words)
        wanted = b"%d runnable, %d asleep\n" % (runnable, asleep)
        checks.look(f"tasks of {name}", None if blocks and blocks.out == wanted else f"{blocks and blocks.out!r}")
        look_at_kept(checks, name, blocks, runnable + asleep)


def workload(runnable, asleep, deeds=()):
    """A workload with so many tasks on each of two CPUs, the sleeping ones first, with empty programs and with these deeds."""
    tasks = [f"[[task]]\nhome = {cpu}\nasleep = {str(place < asleep).lower()}" for cpu in (0, 1) for place in range(asleep + runnable)]
    return "\n".join(["version = 1", "program = [[], []]", "order = []", f"script = {list(deeds)}", *tasks]).encode()


def workloads():
    """Workloads by what queues they end with, each with the commands that run it and the number of its tasks."""
    commands = ("solo", "replay", "run")
    for runnable, asleep in product(FEW, FEW):
        if tasks := 2 * (runnable + asleep):
            yield f"two queues, each with {runnable} runnable and {asleep} sleeping", commands, workload(runnable, asleep), tasks
    yield "a queue whose only sleeping task has woken", ("solo",), workload(1, 1, ["0 wake 0 from 0"]), 4
    yield "a queue whose only runnable task has fallen asleep", ("solo",), workload(1, 0, ["0 pick", "0 sleep 0"]), 2
    example = (TOP / EXAMPLE).read_bytes()
    yield f"the queues of {EXAMPLE}", ("replay", "run"), example, example.count(b"[[task]]")


def look_at_ends(checks, allocator):
    """Looks whether all is given back, whatever tasks the queues end with."""
    for queues, commands, data, tasks in workloads():
        for command in commands:
            look_at_kept(checks, f"eevdf {command} of {queues}", allocator.blocks("eevdf", [command], data), tasks)


def main():
    programs, checks = built("measures", "eevdf"), Checks()
    with tempfile.TemporaryDirectory(prefix="memory-") as folder:
        try:
            allocator = Allocator(folder, programs)
            look_at_fleets(checks, allocator)
            look_at_drops(checks, allocator)
            look_at_ends(checks, allocator)
        except OSError as why:
            checks.look("blocks", why)
    return checks.end()


if __name__ == "__main__":
    sys.exit(status_of(main))

#!/usr/bin/env python3
"""turn_costs.py PROGRAM.. [-- MIX..]: what a turn of calls of one run queue costs. Each PROGRAM, a path or that with words behind it as a
shell splits them, takes the words MIX, TASKS and TURNS, as `measures queue` does. Prints the machine, and three tables with a row for each
mix and program and a column for each number of tasks:
- nanoseconds of processor time a turn, from the least of PASSES passes (12) of a run with many turns and of one with few. Each pass runs
  every program, mix and number of tasks once, so that a change of the machine's speed meets them all;
- instructions a turn, and
- mispredicted branches in a hundred turns, both by `valgrind --tool=callgrind --branch-sim=yes`.
Each is what the run with many turns takes less what the run with few takes, over the difference of the turns, so that the setting up
drops out. Ends with 3 where there is no valgrind."""

import os
import shlex
import shutil
import subprocess
import sys
import tempfile
from pathlib import Path

MIXES = ("pick", "tick-pick", "sleep-pick-wake", "yield-pick", "pull", "tick-sleep-pick-wake", "renice")
SIZES = (1, 8, 64, 1024)
PASSES = int(os.environ.get("PASSES", "12"))
TIMED = (20_000, 320_000)
COUNTED = (2_000, 6_000)


def name_of(program):
    """What the tables call a program: its last word, without the folders of a path."""
    return Path(shlex.split(program)[-1]).name


def command_of(cell, turns):
    """The command of a program, a mix and a number of tasks, for so many turns."""
    program, mix, size = cell
    return [*shlex.split(program), mix, size, str(turns)]


def machine():
    """The processor's name, the number of cores, and the load."""
    lines = Path("/proc/cpuinfo").read_text().splitlines()
    name = next((line.split(":", 1)[1].strip() for line in lines if line.startswith("model name")), "processor without a name")
    load = ", ".join(f"{one:.1f}" for one in os.getloadavg())
    return f"{name}, {os.cpu_count()} cores, load {load} (1, 5 and 15 minutes)"


def processor_time(command):
    """The nanoseconds of processor time that a run takes."""
    with open(os.devnull, "w") as nowhere:
        child = os.posix_spawn(command[0], command, os.environ, file_actions=[(os.POSIX_SPAWN_DUP2, nowhere.fileno(), 1)])
    _, status, used = os.wait4(child, 0)
    if status:
        sys.exit(f"turn_costs.py: {' '.join(command)} failed")
    return (used.ru_utime + used.ru_stime) * 1e9


def least_times(cells):
    """The nanoseconds of a turn, by cell."""
    least = {}
    for _ in range(PASSES):
        for cell in cells:
            for turns in TIMED:
                took = processor_time(command_of(cell, turns))
                least[cell, turns] = min(took, least.get((cell, turns), took))
    few, many = TIMED
    return {cell: (least[cell, many] - least[cell, few]) / (many - few) for cell in cells}


def events(command, profile):
    """The instructions and the mispredicted branches of a run."""
    subprocess.run(
        ["valgrind", "--tool=callgrind", "--branch-sim=yes", f"--callgrind-out-file={profile}", *command],
        check=True, stdout=subprocess.DEVNULL, stderr=subprocess.DEVNULL,
    )
    lines = dict(line.split(":", 1) for line in Path(profile).read_text().splitlines() if line.startswith(("events:", "totals:")))
    count = dict(zip(lines["events"].split(), map(int, lines["totals"].split())))
    return count["Ir"], count["Bcm"] + count["Bim"]


def counts(cells):
    """The instructions of a turn and the mispredicted branches of a hundred turns, by cell."""
    instructions, branches = {}, {}
    with tempfile.TemporaryDirectory() as held:
        for cell in cells:
            less, more = (events(command_of(cell, turns), f"{held}/profile") for turns in COUNTED)
            turns = COUNTED[1] - COUNTED[0]
            instructions[cell] = int((more[0] - less[0]) / turns)
            branches[cell] = int((more[1] - less[1]) * 100 / turns)
    return instructions, branches


def print_table(title, programs, mixes, value_of):
    print(f"\n{title}\n")
    print("| mix, tasks                         | " + " | ".join(f"{size:6}" for size in SIZES) + " |")
    print("|" + "-" * 36 + "|" + "-------:|" * len(SIZES))
    for mix in mixes:
        for program in programs:
            row = mix if len(programs) == 1 else f"{mix}, {name_of(program)}"
            print(f"| {row:34} | " + " | ".join(f"{round(value_of[program, mix, str(size)]):6}" for size in SIZES) + " |")


def main():
    words = sys.argv[1:]
    at = words.index("--") if "--" in words else len(words)
    programs, mixes = words[:at], words[at + 1:] or MIXES
    if not shutil.which("valgrind"):
        print("turn_costs.py: there is no valgrind (Debian package valgrind)", file=sys.stderr)
        sys.exit(3)
    cells = [(program, mix, str(size)) for mix in mixes for size in SIZES for program in programs]
    print(f"before: {machine()}", flush=True)
    times = least_times(cells)
    print(f"after:  {machine()}", flush=True)
    instructions, branches = counts(cells)
    print_table(f"Nanoseconds a turn, the least of {PASSES} interleaved passes:", programs, mixes, times)
    print_table("Instructions a turn:", programs, mixes, instructions)
    print_table("Mispredicted branches in a hundred turns:", programs, mixes, branches)


if __name__ == "__main__":
    main()

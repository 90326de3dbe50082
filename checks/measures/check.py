#!/usr/bin/env -S python3 -B
"""checks/measures/check.py: looks whether the built program `measures` prints what is stored of one run of each kind, and what it says of
wrong words on standard error, with status 2. The run of a fleet is made by `rt ci`, which has its words and its output beside the crate.
The last line is 'N passed, M failed'."""

import sys
from pathlib import Path

HERE = Path(__file__).resolve().parent
sys.path.append(str(HERE.parent))

from runner import Checks, Printed, built, status_of  # noqa: E402

WHAT = "WHAT is queue, fleet, fair-loop, fair-seats or dropped-queue"

# What is said of words that ask for nothing: behind the program's name and a first word that is known, and in front of how it is used.
FAULTS = {
    "": WHAT,
    "queues pick 8 100": WHAT,
    "queue": "three words are wanted",
    "queue pick 8": "three words are wanted",
    "queue picks 8 100": "MIX is a mix of docs/speed.md, such as tick-pick",
    "queue pick 0 100": "TASKS is a number from 1 to 1024",
    "queue pick 1025 100": "TASKS is a number from 1 to 1024",
    "queue pick 8 many": "TURNS is a number",
    "fleet solo 1 2 128 own 100": "seven words are wanted",
    "fleet alone 1 2 128 own 100 42": "WAY is fleet, check, solo, endless or twins",
    "fleet solo 8 9 128 own 100 42": "THREADS and CPUS_A_THREAD are numbers whose product is from 1 to 64",
    "fleet solo 1 2 0 own 100 42": "TASKS is a number from 1 to 1024",
    "fleet solo 1 2 128 others 100 42": "MIX is own, wakes, pulls, comes or all",
    "fleet fleet 1 2 128 own 400001 42": "OPERATIONS is a number, up to 400000 where a history is kept",
    "fleet solo 1 2 128 own 100 seed": "SEED is a number",
    "fair-loop kernel 7 2000": "four words are wanted, of which the first is kernel, fair or plain",
    "fair-loop unfair tick 64 100": "four words are wanted, of which the first is kernel, fair or plain",
    "fair-loop kernel 7 2000 much": "SEED, STEPS and PROMISED are numbers",
    "fair-loop fair yield 64 100": "MIX is pick, tick or tick-pick, TASKS a number from 1 to 1024, and TURNS a number",
    "fair-seats": "a number of rounds is wanted",
    "fair-seats 0": "a number of rounds is wanted",
    "dropped-queue 512": "two numbers are wanted, together at most 1024",
    "dropped-queue 512 513": "two numbers are wanted, together at most 1024",
}

# How each is used, by the first word.
USAGES = {
    "queue": "measures queue MIX TASKS TURNS",
    "fleet": "measures fleet WAY THREADS CPUS_A_THREAD TASKS MIX OPERATIONS SEED",
    "fair-loop": "measures fair-loop kernel SEED STEPS PROMISED, or measures fair-loop fair|plain MIX TASKS TURNS",
    "fair-seats": "measures fair-seats ROUNDS",
    "dropped-queue": "measures dropped-queue RUNNABLE ASLEEP",
}


def refusal(words, fault):
    """What is printed of wrong words."""
    what = words[0] if words and words[0] in USAGES else ""
    usage = USAGES.get(what, "measures WHAT WORD..")
    return Printed(b"", 2, f"{' '.join(['measures', what]).strip()}: {fault}; usage: {usage}\n".encode())


def main():
    programs, checks = built("measures"), Checks()
    for file in sorted((HERE / "runs").glob("*.words")):
        words = file.read_text().split()
        printed = programs.run("measures", words)
        checks.expect(" ".join(["measures", *words]), printed, printed == Printed(file.with_suffix(".out").read_bytes()))
    for text, fault in FAULTS.items():
        words = text.split()
        printed = programs.run("measures", words)
        checks.expect(f"wrong words: {text or 'none'}", printed, printed == refusal(words, fault))
    return checks.end()


if __name__ == "__main__":
    sys.exit(status_of(main))

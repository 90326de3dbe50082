"""How much a program may do for a text that is made to take long. A bound says so many seconds of processor time on the machine for which
it is meant, and is kept where these are enough. Where they aren't, the machine may be slow, so it is asked by something else:

- A work of a known length is timed just before and just after, in processor time too. What slows the program slows that as well, so a run
  that takes more than MARGIN times the bound beside it, in each of TRIES runs, has done too much: this is a fault.
- In between valgrind counts the instructions, of which no such second has more than INSTRUCTIONS. They are the same on each machine, so
  more are a fault, and fewer are none. Without valgrind nothing is known, and what is looked at is left out.

The ratio of two sizes of a text would say less: most texts are as large as they may be in one respect, and a smaller one is another
text."""

import re
import resource
import shutil
import time

from runner import TooSlow, run

# The processor time that `name_numbers` takes on the machine for which the bounds are meant.
SECONDS_TO_NAME = 0.45
# More instructions than a program does there in a second.
INSTRUCTIONS = 12_000_000_000

MARGIN = 10
TRIES = 3
# A run has so many times its bound of processor time before it is ended.
ENDED_AT = 100

VALGRIND = ("--tool=cachegrind", "--cache-sim=no", "--cachegrind-out-file=/dev/null")


def name_numbers():
    """A work of a known length that wants memory as the reading of a long text does."""
    return {b"k%d" % number: number for number in range(1000000)}


def slowness():
    """How many times as long as the machine for which the bounds are meant this one takes now: at least 1."""
    begun = time.process_time()
    name_numbers()
    return max(1.0, (time.process_time() - begun) / SECONDS_TO_NAME)


def instructions(words, data):
    """How many instructions a program takes, or None without valgrind."""
    valgrind = shutil.which("valgrind")
    counted = run([valgrind, *VALGRIND, *words], data) if valgrind else None
    found = counted and re.search(rb"I +refs: +([\d,]+)", counted.errors)
    return int(found[1].replace(b",", b"")) if found else None


def within(seconds, programs, name, words, data, limits=None, **more):
    """Runs a program that may take so many seconds. What it printed, and what is wrong with how much it did, or None."""
    limits = {**(limits or {}), resource.RLIMIT_CPU: ENDED_AT * seconds}
    slow = slowest = 1.0
    ratios = []
    for _ in range(TRIES):
        printed = programs.run(name, words, data, limits=limits, **more)
        if printed.processor <= seconds * slow:
            return printed, None
        slow, slowest = slowness(), slow
        ratios.append(printed.processor / seconds / max(slow, slowest))
        if ratios[-1] <= 1:
            return printed, None
    faster = f"a machine that is {max(slow, slowest):.1f} times faster"
    took = f"{printed.processor:.1f} s of processor time, where it may take {seconds} s on {faster}"
    if min(ratios) > MARGIN:
        return printed, took
    if printed.processor >= ENDED_AT * seconds:
        raise TooSlow(f"the machine is too slow, or too busy: {took}")
    count = instructions([programs.path(name), *words], data)
    if count is None:
        raise TooSlow(f"the machine is too slow, or too busy: {took}; and there is no valgrind that counts instructions")
    most = seconds * INSTRUCTIONS
    return printed, f"{took}; {count} instructions, where it may take {most}" if count > most else None

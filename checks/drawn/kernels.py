#!/usr/bin/env python3
"""kernels.py [--loops N] [--seed SEED] [--top TOP] [--model]: has the built program `measures fair-loop` make 100 drawn calls of a kernel from
each of N seeds, 10000 where nothing is said, the first of which is SEED, and compares what it prints with what the plain model does. After each
call no request may be later in the model than the bound that is read, and after some call of each kind one has to be so late that the bound
is within 1.6 times of that. Nor may a task lack more of its exact share since it came than the number that is read, and it has to come as
near to that. Half of the loops are promised 20 ms of virtual time, and mostly stop. With --model the program is left out.
The last line is 'N passed, M failed'."""

import argparse
import os
import random
import sys
from collections import Counter
from fractions import Fraction
from pathlib import Path

sys.dont_write_bytecode = True
sys.path.append(str(Path(__file__).resolve().parents[1]))
from plain.fair_queue import FairQueue
from plain.generator import state_after, word_of
from plain.queue import fits, fresh_entry
from plain.share_clock import ShareClock
from runner import TOP, Programs, TooSlow, status_of

STEPS = 100
TASKS = 12
PROMISES = (20_000_000, 2**62)
# How near a request has to come to the bound, as a part of it.
NEAR = Fraction(5, 8)


class Draws:
    """The values that crates/drawn_values draws, by PCG's own way to begin with a seed."""

    def __init__(self, seed):
        self.state = state_after(seed + 1, 1)

    def below(self, numbers):
        word = word_of(self.state)
        self.state = state_after(self.state, 1)
        return word % numbers

    def nice(self):
        return self.below(40) - 20

    def slice_length(self):
        return 100_000 + self.below(2**23)

    def tick(self):
        return 1 + self.below(2**22)


def make_call(fair, draws, calls):
    """Makes a drawn call, of these besides a tick and a pick, and answers its kind, and the task that it may have moved, if it is of one
    task."""
    task, kind = draws.below(TASKS), draws.below(9 + len(calls))
    if kind < 5:
        fair.tick(draws.tick())
        return "tick", None
    if kind < 9:
        fair.pick()
        return "pick", None
    name, call = calls[kind - 9]
    load = fair.queue.load()
    call(fair, task, draws)
    fair.clock.reload(load, fair.queue.load())
    return name, task if name in MOVING else None


def yield_now(fair, _task, _draws):
    fair.queue.yield_now()


def sleep(fair, _task, _draws):
    if fair.queue.running is not None:
        fair.queue.sleep(fair.queue.running)


def doze(fair, _task, _draws):
    if fair.queue.running is not None:
        fair.queue.doze()


def adopt(fair, task, _draws):
    fair.adopt(task)


def wake(fair, task, _draws):
    fair.change(task, lambda queue: queue.wake(task))


def renice(fair, task, draws):
    nice = draws.nice()
    fair.change(task, lambda queue: queue.renice(task, nice))


def set_both(fair, task, draws):
    nice, length = draws.nice(), draws.slice_length()
    fair.change(task, lambda queue: queue.set(task, nice, length))


def begin(fair, task, draws):
    queue, start = fair.queue, fair.queue.virtual_time()
    nice, length = draws.nice(), draws.slice_length()
    if task not in queue.runnable and task not in queue.asleep and fits(fresh_entry(start, nice, length)):
        fair.change(task, lambda queue: queue.admit(task, nice, length, start))


def end(fair, task, _draws):
    if task in fair.queue.runnable:
        fair.queue.leave(task)
    else:
        fair.queue.asleep.pop(task, None)
        fair.queue.places.pop(task, None)


def measure(fair, _task, _draws):
    fair.measure()


def rebase(fair, _task, _draws):
    fair.rebase()


def stop(fair, _task, _draws):
    fair.queue.running = None


def set_slice(fair, task, draws):
    fair.queue.set_slice(task, draws.slice_length())


def begin_anew(fair, task, draws):
    nice, length = draws.nice(), draws.slice_length()
    fair.queue.begin(task, nice, length)


def put_back(fair, task, _draws):
    """A task is taken out, and comes back with its lag, or ends where it can't be placed."""
    queue, load = fair.queue, fair.queue.load()
    if task not in queue.runnable:
        return
    carried = queue.leave(task)
    fair.clock.reload(load, queue.load())
    load = queue.load()
    if queue.can_place(carried.nice, carried.length, carried.lag):
        fair.change(task, lambda queue: queue.put(task, carried.nice, carried.length, carried.lag))
    fair.clock.reload(load, queue.load())


COMMON = (("yield", yield_now), ("sleep", sleep), ("wake", wake), ("renice", renice), ("set", set_both), ("begin", begin), ("end", end),
          ("doze", doze), ("adopt", adopt))
# The calls of the program in Rattle, and of one in C, where bounds can't be measured.
CALLS = (*COMMON, ("measure", measure), ("rebase", rebase), ("stop", stop), ("slice", set_slice), ("anew", begin_anew),
         ("put back", put_back))
CALLS_IN_C = (*COMMON, ("rebase", rebase))
MOVING = ("wake", "renice", "set", "begin", "end", "put back")


class Model:
    """The loops as the plain model makes them, and how near a request has come to the bound after each kind of call."""

    def __init__(self, kinds):
        self.kinds = kinds
        self.calls: Counter[str] = Counter()
        self.nearest: dict[str, Fraction] = {}
        self.faults = []

    def line(self, seed):
        """What a program is to print: how far the loop of a seed comes."""
        return f"{self.loop(seed, FairQueue())}\n"

    def loop(self, seed, fair):
        promised, draws, greatest = PROMISES[seed % 2], Draws(seed), 0
        for done in range(STEPS):
            if promised < greatest:
                break
            kind, moved = make_call(fair, draws, self.kinds)
            greatest = max(greatest, fair.bound())
            self.look(f"seed {seed}, call {done}, a {kind}", kind, moved, fair)
        else:
            done = STEPS
        return f"{done} of {STEPS} steps, greatest bound {greatest}"

    def look(self, name, kind, _moved, fair):
        late, load, bound = fair.lateness(), fair.queue.load(), fair.bound()
        self.calls[kind] += 1
        if late > bound * load:
            self.faults.append(f"{name}: a request is late by {late} / {load}, and the bound is {bound}")
        elif late > 0:
            self.nearest[kind] = max(self.near(kind), Fraction(late, bound * load))

    def near(self, kind):
        return self.nearest.get(kind, Fraction(0))

    def look_how_near(self):
        """Looks whether after some call of each kind a request was near the bound. Gives a line for each kind."""
        for kind in ("tick", "pick", *(name for name, _ in self.kinds)):
            near = self.near(kind)
            if near < NEAR:
                self.faults.append(f"after no {kind} a request comes near the bound")
            yield f"{kind}: {self.calls[kind]} calls, late by up to {float(near):.3f} of the bound"


class ModelOfShares(Model):
    """The same, and how near a task has come to lacking of its share what is read."""

    def __init__(self, kinds, clock=ShareClock):
        super().__init__(kinds)
        self.clock = clock
        self.nearest_lack = Fraction(0)

    def line(self, seed):
        fair = FairQueue(self.clock)
        return f"{self.loop(seed, fair)}, greatest lack {fair.stays.greatest}\n"

    def look(self, name, kind, moved, fair):
        super().look(name, kind, moved, fair)
        for read, lack in fair.stays.look(fair, moved):
            if lack > read:
                self.faults.append(f"{name}: a task lacks {lack} ns of its share, and {read} was read")
            elif lack > 0:
                self.nearest_lack = max(self.nearest_lack, lack / read)

    def look_how_near(self):
        yield from super().look_how_near()
        if self.nearest_lack < NEAR:
            self.faults.append("no task lacks nearly as much of its share as is read")
        yield f"a task lacks up to {float(self.nearest_lack):.3f} of what is read"


class Comparison:
    """The loops of the program in Rattle beside those of the model."""

    def __init__(self, programs):
        self.programs = programs
        self.model = ModelOfShares(CALLS)
        self.passed = 0

    def compare(self, seed):
        faults = self.model.faults
        before, wanted = len(faults), self.model.line(seed)
        if self.programs is not None:
            printed = self.programs.run("measures", ["fair-loop", "kernel", str(seed), str(STEPS), str(PROMISES[seed % 2])])
            if printed.out.decode() != wanted:
                faults.append(f"seed {seed}: prints {printed}, and the model {wanted}")
        self.passed += len(faults) == before


def parse_words():
    words = argparse.ArgumentParser(description=__doc__, formatter_class=argparse.RawDescriptionHelpFormatter)
    words.add_argument("--loops", type=int, default=10000, metavar="N")
    words.add_argument("--seed", type=int, default=random.randrange(2**32))
    words.add_argument("--top", default=os.environ.get("TOP", TOP))
    words.add_argument("--model", action="store_true", help="leaves the program out")
    return words.parse_args()


def main():
    words = parse_words()
    comparison = Comparison(None if words.model else Programs(words.top))
    print(f"seed {words.seed}", flush=True)
    try:
        for seed in range(words.seed, words.seed + words.loops):
            comparison.compare(seed)
    except TooSlow as why:
        print(f"skipped: the other loops: {why}")
    for line in comparison.model.look_how_near():
        print(line)
    faults = comparison.model.faults
    for fault in faults:
        print(f"FAILED: {fault}")
    print(f"{comparison.passed} passed, {len(faults)} failed")
    return bool(faults)


if __name__ == "__main__":
    sys.exit(status_of(main))

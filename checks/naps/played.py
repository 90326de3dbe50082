"""Plays tasks that run, fall asleep and are woken on one CPU, and reads off a report what each of them had. Who a pick takes is known from
the plain model of checks/drawn/; the figures are those of the report, whoever printed it."""

import random
import re
import sys
from dataclasses import dataclass, field
from pathlib import Path

sys.path.append(str(Path(__file__).resolve().parents[1] / "drawn"))

from plain.machine import Setup, Task, queues_at_start, whole  # noqa: E402
from plain.report import text_of  # noqa: E402

# The version that has the word by which tasks fall asleep.
VERSIONS = {"sleep": 3, "doze": 4}


@dataclass(frozen=True)
class Behaviour:
    """A task that runs for so many nanoseconds at a time. Then it goes on, where it `stays`; else it falls asleep, and wakes after `rests`
    nanoseconds, or after so many turns of others, or at the next drawn moment, of which there is one in each `each` nanoseconds, or when
    another one wakes it. `wakes_before` is a task that it wakes before it falls asleep, and `wakes_after` one that it wakes after that."""

    runs: int
    nice: int = 0
    slice_ns: int = 3000000
    rests: int | None = None
    rests_for_turns: int | None = None
    each: int | None = None
    wakes_before: int | None = None
    wakes_after: int | None = None
    asleep: bool = False

    def stays(self):
        return {self.rests, self.rests_for_turns, self.each, self.wakes_before, self.wakes_after} == {None}


def drawn_moment(task, each, number):
    """The moment of this task in the stretch of this number, whatever it does until then."""
    return int((number + random.Random(f"{task} {number}").random()) * each)


class Player:
    """Who a pick takes runs until it has done its part, or until one wakes by itself: then it is picked anew."""

    def __init__(self, behaviours, word):
        self.behaviours, self.word = behaviours, word
        self.setup = Setup([Task(0, it.nice, it.slice_ns, 0, it.asleep) for it in behaviours], [[]])
        self.queues = queues_at_start(self.setup)
        self.left = [it.runs for it in behaviours]
        self.script, self.now, self.turns = [], 0, 0
        self.waking, self.waking_at_turn = {}, {}
        for task, it in enumerate(behaviours):
            if it.asleep:
                self.plan_wake(task)

    def do(self, *deed):
        self.script.append(deed)
        return whole(self.setup, self.queues, 0, deed)

    def wake(self, task):
        if task is not None:
            self.do("wake", task, 0)

    def wake_due(self):
        for waking, now in ((self.waking, self.now), (self.waking_at_turn, self.turns)):
            for task in sorted(task for task, at in waking.items() if at <= now):
                del waking[task]
                self.wake(task)

    def turn(self):
        self.wake_due()
        self.do("pick")
        task, until = self.queues[0].running, min(self.waking.values(), default=self.now + 10**9)
        ns = until - self.now if task is None else min(self.left[task], until - self.now)
        self.do("tick", ns)
        self.now += ns
        if task is not None:
            self.left[task] -= ns
            if self.left[task] == 0:
                self.end_turn(task)

    def end_turn(self, task):
        it = self.behaviours[task]
        self.left[task] = it.runs
        self.turns += 1
        if it.stays():
            return
        self.wake(it.wakes_before)
        self.do(self.word, task)
        self.wake(it.wakes_after)
        self.plan_wake(task)

    def plan_wake(self, task):
        """When a task that sleeps now wakes, where no other one wakes it."""
        it = self.behaviours[task]
        if it.rests is not None:
            self.waking[task] = self.now + it.rests
        elif it.rests_for_turns is not None:
            self.waking_at_turn[task] = self.turns + it.rests_for_turns
        elif it.each is not None:
            moments = (drawn_moment(task, it.each, self.now // it.each + ahead) for ahead in (0, 1))
            self.waking[task] = next(at for at in moments if at > self.now)

    def play(self, nanoseconds):
        while self.now < nanoseconds:
            self.turn()
        return self.script


def workload(behaviours, word, script):
    deeds = "".join(f'"0 {text_of(deed)}",\n' for deed in script)
    tasks = "".join(f"[[task]]\nnice = {it.nice}\nslice = {it.slice_ns}\nasleep = {str(it.asleep).lower()}\n" for it in behaviours)
    return f"version = {VERSIONS[word]}\nprogram = [[]]\nscript = [\n{deeds}]\n{tasks}".encode()


TICK = re.compile(r"tick (\d+): (?:charged (\d+)|idle)")
WOKEN = re.compile(r"wake (\d+) from 0: woken")
PICKED = re.compile(r"pick: picked (\d+)")


@dataclass
class Figures:
    """What a report tells of the CPU's time, in nanoseconds: what each task had of it, and how long it waited after each wake."""

    took: int = 0
    ran: dict = field(default_factory=dict)
    waits: dict = field(default_factory=dict)

    def share(self, tasks):
        return sum(self.ran.get(task, 0) for task in tasks) / self.took

    def waits_of(self, tasks):
        return [wait for task in tasks for wait in self.waits.get(task, ())]


def figures_of(report):
    figures, woken = Figures(), {}
    for line in report.decode().splitlines():
        if found := TICK.match(line):
            figures.took += int(found[1])
            if found[2] is not None:
                task = int(found[2])
                figures.ran[task] = figures.ran.get(task, 0) + int(found[1])
        elif found := WOKEN.match(line):
            woken[int(found[1])] = figures.took
        elif (found := PICKED.match(line)) and int(found[1]) in woken:
            task = int(found[1])
            figures.waits.setdefault(task, []).append(figures.took - woken.pop(task))
    return figures

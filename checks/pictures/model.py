"""What a picture, a trace and a table have to show of a workload, worked out plainly: the deeds are done by the plain scheduler of
checks/drawn/, and docs/pictures.md says what is made of them."""

import sys
from collections import defaultdict
from dataclasses import dataclass, field
from fractions import Fraction
from math import inf
from pathlib import Path

sys.path.insert(0, str(Path(__file__).resolve().parent.parent / "drawn"))

from lateness import BoundedQueues
from plain.machine import queues_at_start
from plain.numbers import weight_of
from plain.report import text_of
from plain.times import Clocks
from turns import is_in, rests_of


@dataclass(frozen=True)
class Moment:
    cpu: int
    deed: tuple
    answer: str
    begin: int
    end: int
    # the clock of the other CPU that the deed names
    other: int

    def text(self):
        return f"{self.cpu} {text_of(self.deed)}: {self.answer}"

    def charged(self):
        """The task that was charged, or None."""
        return int(self.answer.split()[1]) if self.answer.startswith("charged") else None


# What is too little by less than this may be a whole nanosecond.
LACKING = Fraction(1, 10**6)


@dataclass
class TaskFigures:
    ran: int = 0
    shared: int = 0
    # what the weight gives since the task came or changed, and the least and the greatest number of nanoseconds that it gave before
    fair: Fraction = Fraction(0)
    least_fair: int = 0
    greatest_fair: int = 0
    # (lag, how late its request is, how late it can be) at each moment
    states: list = field(default_factory=list)
    # the ones with which it comes into the time that is counted, where it is runnable then
    first_state: tuple | None = None
    picks: int = 0
    preempted: int = 0
    # (nanoseconds, when it woke) of each wake that a pick followed
    waits: list = field(default_factory=list)
    migrations: int = 0

    def end_stay(self):
        """What the weight gives is cut where the task leaves a queue or joins it anew."""
        self.least_fair += int(self.fair)
        self.greatest_fair += int(self.fair + LACKING)
        self.fair = Fraction(0)


@dataclass
class CpuFigures:
    charged: int = 0
    load: int = 0
    idle_ticks: int = 0
    idle: int = 0
    pulls_in: int = 0
    pulls_out: int = 0


def shared(window, begin, end):
    """How much of a time is in a window."""
    return max(0, min(end, window[1]) - max(begin, window[0]))


def lag_in_ns(queue, task):
    """Rounded towards 0."""
    service = queue.lag_of(task) * weight_of(queue.runnable[task].nice)
    return service // 1024 if service >= 0 else -(-service // 1024)


class Timeline:
    """The deeds of a script with their times, and what is counted of them, in a part of the time or in all of it."""

    def __init__(self, setup, script, window=(0, inf)):
        self.setup = setup
        self.window = window
        self.queues = queues_at_start(setup)
        self.bounded = BoundedQueues(setup, self.queues)
        self.clocks = Clocks(setup.cpus())
        self.woken = {}
        self.moments = []
        # (CPU, task, begin, end)
        self.stretches = []
        self.open = {}
        self.tasks = [TaskFigures() for _ in setup.tasks]
        self.cpus = [CpuFigures() for _ in self.queues]
        # (time, load) where the load of a CPU changes, and (time, lag) of each task as its CPU is looked at
        self.loads = [[(0, 0)] for _ in self.queues]
        self.points = [[] for _ in setup.tasks]
        # of each deed the task that it concerns, or None, and the lag of that after it, where it is on the deed's CPU or fell asleep
        self.concerned = []
        self.lags_after = []
        # of each deed the lag of whoever ran on its CPU before it, or None
        self.lags_before = []
        # the time of the last look at each CPU
        self.looked = {}
        for cpu in range(setup.cpus()):
            self.note(cpu, 0, *self.state(cpu))
        for cpu in range(setup.cpus()):
            self.count_state(cpu, 0)
        for cpu, deed in script:
            self.do(cpu, deed)
        for task in self.tasks:
            task.end_stay()
            if task.first_state is not None:
                task.states.append(task.first_state)

    def end(self):
        return max((moment.end for moment in self.moments), default=0)

    def state(self, cpu):
        """The load of a CPU, and the lag of each task there: one that sleeps keeps the lag with which it left, and one that dozes no debt."""
        queue = self.queues[cpu]
        lags = [(task, queue.lag_of(task)) for task in queue.runnable]
        return queue.load(), lags + [(task, sleeper.lag) for task, sleeper in queue.asleep.items()]

    def note(self, cpu, time, load, lags):
        """Notes what a CPU has at a time."""
        self.looked[cpu] = time
        if load != self.loads[cpu][-1][1]:
            self.loads[cpu].append((time, load))
        for task, lag in lags:
            self.points[task].append((time, lag))

    def count_state(self, cpu, time):
        """Counts the load of a CPU, and the lags there and how late requests are, at a time of its clock."""
        begin, end = self.window
        if time > end:
            return
        self.cpus[cpu].load = self.queues[cpu].load()
        for task, late, bound in self.bounded.lateness(cpu):
            state = (lag_in_ns(self.queues[cpu], task), late, bound)
            if time < begin:
                self.tasks[task].first_state = state
            else:
                self.tasks[task].states.append(state)

    def do(self, cpu, deed):
        running = self.queues[cpu].running
        before = self.state(cpu)
        self.lags_before.append(dict(before[1]).get(running))
        answer = self.bounded.do(cpu, deed)
        begin, end, other = self.clocks.do(cpu, deed, answer)
        moment = Moment(cpu, deed, answer, begin, end, other)
        self.moments.append(moment)
        self.note_concerned(moment, running)
        self.count(moment, running)
        self.stretch(moment)
        if self.looked[cpu] != begin:
            self.note(cpu, begin, *before)
        self.note(cpu, moment.end, *self.state(cpu))
        if deed[0] == "pull":
            self.note(deed[1], other, *self.state(deed[1]))
        self.count_state(cpu, moment.end)
        if deed[0] == "pull":
            self.count_state(deed[1], other)

    def note_concerned(self, moment, running):
        word, *rest = moment.answer.split()
        task = int(rest[0]) if word in ("charged", "picked", "pulled") else running if word == "yielded" else None
        if moment.deed[0] in ("sleep", "doze", "wake", "renice", "begin", "end", "set"):
            task = moment.deed[1]
        self.concerned.append(task)
        self.lags_after.append(int(rest[0]) if word == "slept" else dict(self.state(moment.cpu)[1]).get(task))

    def stretch(self, moment):
        task, at = moment.charged(), self.open.get(moment.cpu)
        has_ended = moment.answer == "ended" and at is not None and self.stretches[at][1] == moment.deed[1]
        if moment.answer.startswith("slept") or has_ended:
            self.open[moment.cpu] = None
        if task is None:
            return
        if at is not None and self.stretches[at][1] == task and self.stretches[at][3] == moment.begin:
            self.stretches[at] = (*self.stretches[at][:3], moment.end)
            return
        self.open[moment.cpu] = len(self.stretches)
        self.stretches.append((moment.cpu, task, moment.begin, moment.end))

    def count(self, moment, running):
        words, cpu = moment.answer.split(), self.cpus[moment.cpu]
        ns = shared(self.window, moment.begin, moment.end)
        is_counted = is_in(self.window, moment.begin, moment.end)
        if words[0] == "pulled":
            self.tasks[int(words[1])].end_stay()
        elif words[0] in ("slept", "ended", "reniced", "set"):
            self.tasks[moment.deed[1]].end_stay()
        if words[0] == "charged":
            self.count_charge(moment.cpu, int(words[1]), ns)
        elif moment.deed[0] == "tick" and words[0] == "idle":
            cpu.idle_ticks += is_counted
            cpu.idle += ns
        elif words[0] == "picked":
            self.count_pick(int(words[1]), running, moment.begin, is_counted)
        elif words[0] == "pulled":
            cpu.pulls_in += is_counted
            self.cpus[moment.deed[1]].pulls_out += is_counted
            self.tasks[int(words[1])].migrations += is_counted
        elif words[0] in ("slept", "ended"):
            self.tasks[moment.deed[1]].migrations += is_counted and self.setup.tasks[moment.deed[1]].home != moment.cpu
            if moment.end < self.window[0]:
                self.tasks[moment.deed[1]].first_state = None
        elif words[0] == "woken":
            self.woken[moment.deed[1]] = moment.begin

    def count_charge(self, cpu, charged, ns):
        self.cpus[cpu].charged += ns
        self.tasks[charged].ran += ns
        load = self.queues[cpu].load()
        for task, entry in self.queues[cpu].runnable.items():
            self.tasks[task].shared += ns
            self.tasks[task].fair += Fraction(ns * entry.weight(), load)

    def count_pick(self, task, running, time, is_counted):
        """A wait is that of its pick, and is told whole."""
        woken = self.woken.pop(task, None)
        if not is_counted:
            return
        self.tasks[task].picks += 1
        if running is not None and running != task:
            self.tasks[running].preempted += 1
        if woken is not None:
            self.tasks[task].waits.append((time - woken, woken))


def shown(points, begin, end):
    """Of these points those of this time. One before the last of them isn't shown, nor is the same twice."""
    last = None
    for point in points:
        if begin <= point[0] <= end and (last is None or point[0] >= last[0] and point != last):
            last = point
            yield point


def before(points, begin, end):
    """Of these points the last one before this time, where none of it comes before that."""
    last = None
    for point in points:
        if begin <= point[0] <= end:
            break
        if point[0] < begin and (last is None or point[0] >= last[0]):
            last = point
    return last


def kept(points, begin, end):
    """Of these points those that a curve of this time has: in each of 220 parts of the time the first, the least, the greatest and the
    last."""
    parts = defaultdict(list)
    for time, lag in shown(points, begin, end):
        parts[220 * (time - begin) // (end - begin) if end > begin else 0].append((time, lag))
    for part in parts.values():
        if len(part) <= 4:
            yield from part
        else:
            middle = part[1:-1]
            least, greatest = min(middle, key=lambda point: point[1]), max(middle, key=lambda point: point[1])
            yield from (part[0], *((greatest, least) if greatest[0] < least[0] else (least, greatest)), part[-1])


def sign_of(moment, running):
    """The shape of a deed's mark, or None of a tick that charged a task."""
    word = moment.answer.split()[0]
    if word == "picked":
        return "same" if running == int(moment.answer.split()[1]) else "pick"
    # a yield where nobody runs is refused; a pick and a tick find nobody there, as some pulls find no task
    if word in ("balanced", "nothing") or word == "idle" and moment.deed[0] != "yield":
        return "nothing"
    return {"charged": None, "yielded": "yield", "slept": "sleep", "woken": "wake", "pulled": "pull",
            "reniced": "renice", "begun": "begin", "ended": "end", "set": "set", "rebased": "rebase"}.get(word, "refused")


def signs_of(moments):
    """The shapes of the marks, in the order of the deeds."""
    running = {}
    for moment in moments:
        yield sign_of(moment, running.get(moment.cpu))
        if moment.answer.startswith("picked"):
            running[moment.cpu] = int(moment.answer.split()[1])
        if moment.answer.startswith("slept") or moment.answer == "ended" and running.get(moment.cpu) == moment.deed[1]:
            running[moment.cpu] = None


def percentile(waits):
    """The least wait that 99 of 100 don't pass."""
    return sorted(waits)[-(-99 * len(waits) // 100) - 1] if waits else None


def permille(part, all_of_it):
    return 1000 * part // all_of_it if all_of_it else None


def wakes_of(waits):
    """What is said of the waits of a task, each with its beginning: the last figure is the beginning of the first of the greatest."""
    lengths = [length for length, _ in waits]
    return {
        "wakes_run": len(lengths),
        "wake_mean_ns": sum(lengths) // len(lengths) if lengths else None,
        "wake_p99_ns": percentile(lengths),
        "wake_greatest_ns": max(lengths, default=None),
        "wake_greatest_from_ns": next((begin for length, begin in waits if length == max(lengths)), None),
    }


def lags_of(states):
    """What is said of the lags of a task, and of how late its requests are and can be, cut."""
    lags, late, bounds = zip(*states) if states else ((), (), ())
    return {
        "greatest_lag_ns": max(lags, default=None),
        "least_lag_ns": min(lags, default=None),
        "late_ns": int(max(late)) if late else None,
        "late_bound_ns": max(bounds, default=None),
    }


def figures_of(timeline):
    """The rows of the table, of tasks and of CPUs. The share by weight is the least and the greatest that it may be."""
    rests = rests_of(timeline)
    tasks = [{
        "task": number,
        "ran_ns": task.ran,
        "share_permille": permille(task.ran, task.shared),
        "weight_share_permille": (permille(task.least_fair, task.shared), permille(task.greatest_fair, task.shared)),
        **lags_of(task.states),
        "picks": task.picks,
        "preempted": task.preempted,
        **wakes_of(task.waits),
        "waited_ns": sum(shared(timeline.window, begin, end) for other, sleeps, begin, end in rests if other == number and not sleeps),
        "migrations": task.migrations,
    } for number, task in enumerate(timeline.tasks)]
    cpus = [{
        "cpu": number,
        "charged_ns": cpu.charged,
        "load": cpu.load,
        "idle_ticks": cpu.idle_ticks,
        "idle_ns": cpu.idle,
        "pulls_in": cpu.pulls_in,
        "pulls_out": cpu.pulls_out,
    } for number, cpu in enumerate(timeline.cpus)]
    return {"tasks": tasks, "cpus": cpus}

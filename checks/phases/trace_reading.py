"""Reads a trace without a fault, as "From a trace" of docs/phases.md has it: the plan that is made of it."""

import re
from dataclasses import dataclass, field

from document import Kind, Plan

EVENT = re.compile(r"(?:sched:)?(sched_switch|sched_wakeup|sched_wakeup_new):")
DEFAULT_SLICE = 3000000

# A task, in both forms: its name goes as far as it can, up to the last key of a number or the last number in front of a bracket.
BY_KEYS = "{0}comm=(.*) {0}pid=([0-9]+) {0}prio=(-?[0-9]+)(?: (.*))?"
SHORT = r"(.*):([0-9]+) \[(-?[0-9]+)\]((?:(?! \[).)*)"


@dataclass
class Task:
    name: str
    home: int
    first_nice: int
    nice: int
    begins: int
    since: int
    # running, runnable, asleep or dead
    state: str = "runnable"
    ran: int = 0
    phases: list = field(default_factory=list)

    def change(self, state, moment):
        self.state, self.since = state, moment

    def wake(self, moment, nice):
        if self.state in ("asleep", "dead"):
            self.phases.append(phase("sleep", moment - self.since))
            self.change("runnable", moment)
        if nice != self.nice:
            self.phases.append(("nice", nice))
            self.nice = nice

    def come(self, moment, nice):
        self.wake(moment, nice)
        if self.state != "running":
            self.change("running", moment)

    def leave(self, moment, nice, state, switched):
        self.come(max(switched, self.since), nice)
        self.ran += moment - self.since
        if state[0] == "R":
            self.change("runnable", moment)
        else:
            self.end_run()
            self.change("dead" if state[0] in "XxZ" else "asleep", moment)

    def end_run(self):
        self.phases.append(phase("run", self.ran))
        self.ran = 0

    def end(self, moment):
        if self.state == "running":
            self.ran += moment - self.since
        if self.state in ("running", "runnable"):
            self.end_run()
        self.phases.append(("end",) if self.state == "dead" else ("suspend",))

    def kind(self):
        return Kind(self.name, 1, None, None, self.home, self.first_nice, DEFAULT_SLICE, self.begins, self.phases)


def phase(word, length):
    return word, (max(1, length), max(1, length))


def told(text, keys):
    """The name, the number, the nice level and what stands behind them."""
    match = re.fullmatch(BY_KEYS.format(keys), text, re.DOTALL) or re.fullmatch(SHORT, text, re.DOTALL)
    name, number, priority, behind = match.groups()
    return name, int(number), -20 if int(priority) < 100 else min(19, int(priority) - 120), behind or ""


def lines_of(text):
    """The moment, the CPU, the event's name and what stands behind it, of each line that is read."""
    for line in text.split("\n"):
        words = re.finditer(r"[^ \t]+", line.removesuffix("\r"))
        before, cpu = [], None
        for word in words:
            event = EVENT.fullmatch(word.group())
            if event and not before[0].startswith("#"):
                seconds, part = before[-1].removesuffix(":").split(".")
                cpu = [word for word in before if word.startswith("[")][-1]
                behind = line.removesuffix("\r")[word.end():].strip(" \t")
                yield int(seconds) * 10 ** 9 + int(part) * 10 ** (9 - len(part)), int(cpu.strip("[]")), event[1], behind
                break
            before.append(word.group())


class Tasks:
    def __init__(self):
        # by number, in the order in which they are seen
        self.tasks = {}

    def of(self, seen, home, begins):
        name, number, nice, _behind = seen
        if number not in self.tasks:
            name = re.sub(r"[^A-Za-z0-9_-]", "_", name[:48], flags=re.DOTALL)
            self.tasks[number] = Task(f"{name}-{number}", home, nice, nice, begins, begins)
        return self.tasks[number]

    def wakeup(self, moment, behind):
        seen = told(behind, "")
        home = int(re.fullmatch(r".*target_cpu=([0-9]+)|.*CPU:([0-9]+)", seen[3])[1] or re.fullmatch(r".*CPU:([0-9]+)", seen[3])[1])
        if seen[1]:
            self.of(seen, home, moment).wake(moment, seen[2])
        return home

    def switch(self, moment, cpu, behind, switched):
        front, _, back = behind.rpartition(" ==> ")
        leaves, comes = told(front, "prev_"), told(back, "next_")
        if leaves[1]:
            self.of(leaves, cpu, switched).leave(moment, leaves[2], leaves[3].lstrip(" \t").removeprefix("prev_state="), switched)
        if comes[1]:
            self.of(comes, cpu, moment).come(moment, comes[2])


def read_trace(text):
    """The plan of a trace."""
    tasks = Tasks()
    switched, cpus = {}, 1
    first, moment = None, 0
    for time, cpu, event, behind in lines_of(text):
        first = time if first is None else first
        moment = time - first
        cpus = max(cpus, cpu + 1)
        if event == "sched_switch":
            tasks.switch(moment, cpu, behind, switched.get(cpu, 0))
            switched[cpu] = moment
        else:
            cpus = max(cpus, tasks.wakeup(moment, behind) + 1)
    for task in tasks.tasks.values():
        task.end(moment)
    kinds = [task.kind() for task in tasks.tasks.values()]
    return Plan(cpus, max(1, moment), 0, True, "wakeup", "sleep", 0, kinds)

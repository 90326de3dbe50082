"""Draws tasks, programs and scripts that the model takes."""

from dataclasses import dataclass
from typing import Callable

from plain.limits import VERSIONS
from plain.machine import Setup, Task, is_at_home, queues_at_start, whole
from plain.numbers import BOUND, charge_of, weight_of

SLICES = (100000, 100001, 3000000, 99999999, 100000000)
LEVELS = (-20, -19, -5, 0, 0, 1, 5, 19)
TICKS = (1, 2, 99999, 100000, 3000000, 3000001, 999999999, 1000000000)


def level(dice):
    return dice.choice(LEVELS) if dice.random() < 0.5 else dice.randint(-20, 19)


def slice_length(dice):
    share = dice.random()
    if share < 0.4:
        return 3000000
    return dice.choice(SLICES) if share < 0.6 else int(100000 * 1000 ** dice.random())


def tick_length(dice):
    return dice.choice(TICKS) if dice.random() < 0.4 else int(10 ** (9 * dice.random()))


def start_below(dice, nice, length):
    """A start at or near the last one that the setup takes."""
    last = BOUND - charge_of(length, weight_of(nice))
    return last - dice.choice((0, 0, 1, 2, 1000, 10**8))


def start_anywhere(dice, _nice, _length):
    if dice.random() < 0.5:
        return 0
    return dice.choice((-1, 1)) * int(10 ** (8 * dice.random()))


def start_at_an_end(dice, nice, length):
    """A start at either end of the range, or anywhere."""
    share = dice.random()
    if share < 0.6:
        return start_below(dice, nice, length)
    if share < 0.8:
        return -BOUND + dice.choice((0, 0, 1, 10**8))
    return start_anywhere(dice, nice, length)


def start_beside(dice, _nice, _length):
    """A start that is a unit at most away from the others."""
    return dice.randrange(2)


def sizes(dice, version):
    """How many CPUs and tasks: mostly few, now and then many tasks on few CPUs, or as many CPUs as there may be."""
    share = dice.random()
    if share < 0.7:
        return dice.randint(1, 4), dice.randint(1, 9)
    if share < 0.82:
        return dice.randint(1, 2), dice.randint(10, 60)
    cpus = VERSIONS[version].cpus
    if share < 0.97:
        return dice.randint(1, cpus), dice.randint(1, 3 * cpus)
    return dice.choice((1, cpus - 1, cpus)), dice.choice((1, 200))


def sizes_of_a_crowd(dice, _version):
    """A CPU or two, with a few tasks for each."""
    cpus = dice.randint(1, 2)
    return cpus, cpus * dice.choice((2, 2, 3, 3, 5, 7))


def level_zero(_dice):
    return 0


def tick_of_units(dice):
    """So short a tick that tasks of level 0 stay a unit or two away from one another."""
    return dice.randint(1, 2)


@dataclass(frozen=True)
class Manner:
    """How the values of a machine are drawn."""

    sizes: Callable = sizes
    start: Callable = start_anywhere
    level: Callable = level
    tick: Callable = tick_length


# How often each manner is drawn. Where all tasks start at the upper end, whoever runs leaves the range; where all are a unit or two
# away from one another, one unit decides who is eligible.
MANNERS = {
    Manner(): 64,
    Manner(start=start_at_an_end): 12,
    Manner(sizes_of_a_crowd, start_below): 12,
    Manner(sizes_of_a_crowd, start_beside, level_zero, tick_of_units): 12,
}


def task(dice, cpus, manner):
    nice, length = manner.level(dice), slice_length(dice)
    return Task(dice.randrange(cpus), nice, length, manner.start(dice, nice, length), dice.random() < 0.2)


# How often each deed is drawn. Where tasks come and go they are woken and picked more often, so that some run.
SHARES = {"tick": 30, "pick": 24, "yield": 8, "wake": 14, "sleep": 12, "pull": 12, "renice": 14}
COMING = {"tick": 36, "pick": 36, "wake": 32, "sleep": 16, "begin": 20, "end": 20, "set": 20}
# Where tasks doze they run and wake more often, and more of them are pulled; few sleep in the plain way, begin anew or end.
DOZING = {"tick": 72, "wake": 48, "pick": 48, "doze": 48, "sleep": 6, "pull": 36, "begin": 20, "end": 20}
# Of a script that rebases often no virtual time comes to the end of the range.
REBASES = (0, 8, 56)
# The deeds that name nothing.
ALONE = ("pick", "yield", "rebase")


def shares_of(dice, version):
    """How often a script has each deed of its version."""
    shares = SHARES | COMING | {"rebase": dice.choice(REBASES)} if version >= 3 else SHARES
    shares = shares | DOZING if version >= 4 else shares
    return {name: share for name, share in shares.items() if name not in VERSIONS[version].unknown}


class Script:
    """Draws deeds one after the other, by the state that those before them leave."""

    def __init__(self, dice, version, setup, manner):
        self.dice, self.setup, self.manner = dice, setup, manner
        self.shares = shares_of(dice, version)
        self.queues = queues_at_start(setup)
        self.deeds = []

    def any_task(self):
        return self.dice.randrange(len(self.setup.tasks))

    def task_among(self, numbers):
        """Mostly one of the tasks that are named, else any."""
        numbers = sorted(numbers)
        return self.dice.choice(numbers) if numbers and self.dice.random() < 0.9 else self.any_task()

    def running_on(self, cpu):
        running = self.queues[cpu].running
        return self.task_among([] if running is None else [running])

    def sleep(self, cpu):
        return cpu, ("sleep", self.running_on(cpu))

    def doze(self, cpu):
        """Where a task runs; as often where one runs away from its home, and where one has run ahead, if there are such."""
        busy = [other for other, queue in enumerate(self.queues) if queue.running is not None]
        away = [other for other in busy if not is_at_home(self.setup, other, self.queues[other].running)]
        ahead = [other for other in busy if self.queues[other].lag_of(self.queues[other].running) < 0]
        cpu = self.dice.choice(self.dice.choice([cpus for cpus in (busy, away, ahead) if cpus] or [[cpu]]))
        return cpu, ("doze", self.running_on(cpu))

    def renice(self, cpu):
        return cpu, ("renice", self.task_among(self.queues[cpu].runnable), self.manner.level(self.dice))

    def asleep_among(self, queues):
        """The tasks that sleep there, half of the time only those that keep a lag or a place, where there are any."""
        tasks = {task: sleeper.lag != 0 or task in queue.places for queue in queues for task, sleeper in queue.asleep.items()}
        kept = [task for task, keeps in tasks.items() if keeps]
        return kept if kept and self.dice.random() < 0.5 else list(tasks)

    def set(self, cpu):
        queue = self.queues[cpu]
        asleep = self.asleep_among([queue])
        chosen = self.task_among(asleep if asleep and self.dice.random() < 0.5 else queue.runnable)
        return cpu, ("set", chosen, self.manner.level(self.dice), slice_length(self.dice))

    def end(self, cpu):
        return cpu, ("end", self.task_among(self.queues[cpu].runnable))

    def begin(self, _cpu):
        chosen = self.task_among(self.asleep_among(self.queues))
        return self.setup.tasks[chosen].home, ("begin", chosen, self.manner.level(self.dice), slice_length(self.dice))

    def wake(self, _cpu):
        chosen = self.task_among(task for queue in self.queues for task in queue.asleep)
        return self.setup.tasks[chosen].home, ("wake", chosen, self.dice.randrange(self.setup.cpus()))

    def pull(self, cpu):
        others = [other for other in range(self.setup.cpus()) if other != cpu]
        if not others:
            return cpu, ("pick",)
        crowded = [other for other in others if len(self.queues[other].runnable) > 1]
        source = self.dice.choice(crowded if crowded and self.dice.random() < 0.8 else others)
        return cpu, ("pull", source)

    def tick(self, cpu):
        return cpu, ("tick", self.manner.tick(self.dice))

    def deed(self):
        cpu = self.dice.randrange(self.setup.cpus())
        kind = self.dice.choices(list(self.shares), list(self.shares.values()))[0]
        return (cpu, (kind,)) if kind in ALONE else getattr(self, kind)(cpu)

    def draw(self, count):
        for _ in range(count):
            cpu, deed = self.deed()
            whole(self.setup, self.queues, cpu, deed)
            self.deeds.append((cpu, deed))
        return self.deeds


def length_of_script(dice):
    return int(2 ** (8 * dice.random())) - 1


def programs_of(dice, cpus, deeds):
    """Programs that come to deeds like those of a script: a wake is a post of its sender and a drain at its home."""
    programs = [[] for _ in range(cpus)]
    for cpu, deed in deeds:
        if deed[0] != "wake":
            programs[cpu].append(deed)
            continue
        programs[deed[2]].append(("post", deed[1]))
        if dice.random() < 0.7:
            programs[cpu].append(("drain",))
    return programs


def setup(dice, version):
    """A setup and a script that it allows."""
    manner = dice.choices(list(MANNERS), list(MANNERS.values()))[0]
    cpus, count = manner.sizes(dice, version)
    members = [task(dice, cpus, manner) for _ in range(count)]
    empty = Setup(members, [[] for _ in range(cpus)])
    script = Script(dice, version, empty, manner).draw(length_of_script(dice))
    like = Script(dice, version, empty, manner).draw(length_of_script(dice))
    return Setup(members, programs_of(dice, cpus, like)), script

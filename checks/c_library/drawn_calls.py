"""Draws sequences of calls, and compares what the library answers with what the plain model does."""

import random
from dataclasses import dataclass

from model import Model
from tools import ending, run

BOUND = 2**60
SLICES = (100000, 300000, 1000000, 3000000, 3000000, 6000000, 20000000, 100000000)
# Numbers that are out of some limit, and those at the ends of 32 and 64 bits.
ODD = (1024, 2**32, 2**32 + 1, 2**63, 2**64 - 1)
ODD_SIGNED = (-21, 20, -(2**31), 2**31, 2**32, -(2**63), 2**63 - 1)
ODD_SLICES = (0, 99999, 100000001, 2**32 + 3000000, 2**64 - 1)
ODD_STARTS = (BOUND + 1, -BOUND - 1, 2**63 - 1, -(2**63))


@dataclass(frozen=True)
class Kind:
    """What sequences are drawn: how many numbers of tasks they use, where tasks start, how they weigh, how long they run, and after how
    many calls the whole state is looked at."""

    name: str
    tasks: int
    starts: tuple
    levels: tuple
    longest: int
    looks: int


KINDS = (
    Kind("few tasks", 8, (0, 10000000), (-20, 19), 3000000, 1),
    Kind("tasks a unit apart", 6, (0, 1), (0, 0), 2, 1),
    Kind("tasks at the ends of the range", 6, (BOUND - 400000000, BOUND), (-20, 19), 1000000000, 1),
    Kind("many tasks", 200, (0, 10000000), (-10, 10), 2000000, 97),
)


class Sequence:
    """Draws one call after the other by what the model then holds."""

    def __init__(self, kind, seed):
        self.kind = kind
        self.random = random.Random(f"{kind.name} {seed}")
        self.model = Model()
        self.lines = []
        self.wanted = []

    def call(self, name, *numbers):
        self.lines.append(" ".join(map(str, (name, *numbers))))
        self.wanted.append(self.model.play(name, numbers))

    def is_rare(self):
        return self.random.random() < 0.02

    def task(self):
        return self.random.choice(ODD) if self.is_rare() else self.random.randrange(self.kind.tasks)

    def task_here(self, queue):
        """A task that is here, more often than another."""
        here = [*self.model.queues[queue].runnable, *self.model.queues[queue].asleep]
        return self.random.choice(here) if here and self.random.random() < 0.8 else self.task()

    def sleeper(self, queue):
        asleep = [*self.model.queues[queue].asleep]
        return self.random.choice(asleep) if asleep and self.random.random() < 0.8 else self.task()

    def runner(self, queue):
        running = self.model.queues[queue].running
        return running if running is not None and self.random.random() < 0.8 else self.task()

    def nice(self):
        return self.random.choice(ODD_SIGNED) if self.is_rare() else self.random.randint(*self.kind.levels)

    def slice(self):
        return self.random.choice(ODD_SLICES) if self.is_rare() else self.random.choice(SLICES)

    def start(self):
        if self.is_rare():
            return self.random.choice(ODD_STARTS)
        start = self.random.randint(*self.kind.starts)
        return -start if self.kind.starts[1] == BOUND and self.random.random() < 0.3 else start

    def nanoseconds(self):
        return self.random.choice((0, 1000000001, 2**64 - 1)) if self.is_rare() else self.random.randint(1, self.kind.longest)

    def draw(self):
        queue, hand = self.random.randrange(2), self.random.randrange(2)
        draws = {
            "pick": (20, lambda: (queue,)),
            "peek": (2, lambda: (queue,)),
            "tick": (20, lambda: (queue, self.nanoseconds())),
            "time_to_resched": (2, lambda: (queue,)),
            "yield": (3, lambda: (queue,)),
            "stop": (2, lambda: (queue,)),
            "run": (4, lambda: (queue, self.task_here(queue))),
            "sleep": (8, lambda: (queue, self.runner(queue))),
            "doze": (8, lambda: (queue, self.runner(queue))),
            "wake": (10, lambda: (queue, self.sleeper(queue))),
            "admit": (10, lambda: (queue, self.task(), self.nice(), self.slice(), self.start())),
            "end": (4, lambda: (queue, self.task_here(queue))),
            "renice": (5, lambda: (queue, self.task_here(queue), self.nice())),
            "set_slice": (3, lambda: (queue, self.task_here(queue), self.slice())),
            "set": (5, lambda: (queue, self.task_here(queue), self.nice(), self.slice())),
            "begin": (3, lambda: (queue, self.sleeper(queue), self.nice(), self.slice())),
            "rebase": (0.2, lambda: (queue,)),
            "take": (8, lambda: (queue, hand, self.task_here(queue))),
            "take_any": (2, lambda: (queue, hand)),
            "put": (8, lambda: (queue, hand)),
            "put_asleep": (4, lambda: (queue, hand)),
            "pull": (6, lambda: (queue, 1 - queue)),
            "pull_task": (4, lambda: (queue, 1 - queue, self.task_here(1 - queue))),
            "entry_of": (1, lambda: (queue, self.task())),
            "sleeper_of": (1, lambda: (queue, self.sleeper(queue))),
            "place_of": (1, lambda: (queue, self.sleeper(queue))),
            "lag": (1, lambda: (queue, self.task())),
            "is_asleep": (1, lambda: (queue, self.task())),
            "contains": (1, lambda: (queue, self.task())),
            "can_place": (2, lambda: (queue, self.nice(), self.slice(), self.random.randint(-9000000, 9000000))),
            "hand_task": (1, lambda: (hand,)),
            "hand_parcel": (1, lambda: (hand,)),
            "hand_renumber": (3, lambda: (hand, self.task())),
            "len": (1, lambda: (queue,)),
            "load": (1, lambda: (queue,)),
            "floor_time": (1, lambda: (queue,)),
            "running": (1, lambda: (queue,)),
            "candidate": (1, lambda: (queue,)),
            "hand_close": (0.2, lambda: (hand,)),
            "close": (0.05, lambda: (queue,)),
            "refuse": (0.5, lambda: (int(self.random.random() < 0.2),)),
        }
        names = [*draws]
        name = self.random.choices(names, [draws[name][0] for name in names])[0]
        self.call(name, *draws[name][1]())

    def run(self, calls):
        for name, number in (("open", 0), ("open", 1), ("hand_open", 0), ("hand_open", 1)):
            self.call(name, number)
        for number in range(calls):
            self.draw()
            if number % self.kind.looks == 0:
                self.call("state", number // self.kind.looks % 2, self.kind.tasks)
        # nothing of a sequence is left for the sanitizers to find
        for name, number in (("close", 0), ("close", 1), ("hand_close", 0), ("hand_close", 1)):
            self.call(name, number)


@dataclass(frozen=True)
class Compared:
    """What came of a comparison: the first difference from the model, or None; how many calls were compared; and which calls had which
    answers below 0."""

    fault: str | None
    count: int
    errors: frozenset


def errors_of(sequence):
    """Which calls answered which error."""
    answers = zip(sequence.lines, sequence.wanted)
    first = ((line.split()[0], int(wanted.split()[0])) for line, wanted in answers)
    return frozenset((name, answer) for name, answer in first if answer < 0)


def first_difference(lines, all_wanted, played):
    """The first line that a program answers otherwise than the model, or None."""
    said = played.stdout.splitlines()
    for at, (line, wanted) in enumerate(zip(lines, all_wanted, strict=True)):
        answered = said[at] if at < len(said) else "nothing"
        if answered != wanted:
            return f"line {at + 1}, {line}, is answered {answered}, where the model says {wanted} {ending(played.stderr)}"
    return f"status {played.returncode}: {ending(played.stderr)}" if played.returncode else None


def compare(job):
    """Plays a drawn sequence by a program over the library, and by the model."""
    program, kind, seed, calls = job
    sequence = Sequence(kind, seed)
    sequence.run(calls)
    played = run([program], input="\n".join(sequence.lines) + "\n")
    fault = first_difference(sequence.lines, sequence.wanted, played)
    count = sum(not line.startswith("state") for line in sequence.lines)
    return Compared(fault, count, errors_of(sequence))

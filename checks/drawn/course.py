"""Deeds of one CPU in any order, also joins in the middle of a turn, and by how much a request may be late after them: "Of one CPU of a
machine" of docs/model.md."""

from draw.machines import level, slice_length
from plain.machine import Setup, Task, queues_at_start, whole
from plain.numbers import charge_of

# How often each deed is drawn.
SHARES = {"tick": 8, "pick": 5, "wake": 5, "sleep": 3, "doze": 3, "end": 1, "yield": 1, "renice": 1, "set": 1, "begin": 1, "rebase": 1}


def text_of(deed):
    return f"wake {deed[1]} from {deed[2]}" if deed[0] == "wake" else " ".join(map(str, deed))


def placement(queue, task):
    """Where a wake would put a task if it had no place; None where it doesn't sleep here."""
    sleeper = queue.asleep.get(task)
    return sleeper and queue.place_for(sleeper.nice, sleeper.length, sleeper.lag).v


class Course:
    """A queue since its tasks were level: what is left of the turn, None where no tick may come before the next pick; by how much requests
    may be late beyond turns of the others; and who has joined."""

    def __init__(self, dice, tasks, longest, start):
        self.setup = Setup([Task(0, nice, length, start) for nice, length in tasks], [[]])
        self.queues = queues_at_start(self.setup)
        self.dice, self.longest, self.script = dice, longest, []
        self.begin_anew()

    def begin_anew(self):
        self.left, self.late, self.joined = None, 0, set()

    def is_level(self):
        """Whether no virtual runtime is past any deadline."""
        entries = self.queues[0].runnable.values()
        return not entries or max(entry.v for entry in entries) <= min(entry.d for entry in entries)

    def drawn(self):
        dice, queue = self.dice, self.queues[0]
        name = dice.choices(list(SHARES), list(SHARES.values()))[0]
        if name == "tick":
            return ("tick", dice.randint(1, self.left)) if self.left else ("pick",)
        if name in ("pick", "yield", "rebase"):
            return (name,)
        chosen = dice.randrange(len(self.setup.tasks))
        if name == "wake" and queue.asleep:
            chosen = dice.choice(sorted(queue.asleep))
        if name in ("sleep", "doze") and queue.running is not None:
            chosen = queue.running
        if name == "wake":
            return name, chosen, 0
        if name == "renice":
            return name, chosen, level(dice)
        return (name, chosen, level(dice), slice_length(dice)) if name in ("set", "begin") else (name, chosen)

    def go_on(self):
        """One deed more, and where the tasks are level then, now and then all begins anew."""
        self.follow(self.drawn())
        if self.is_level() and self.dice.random() < 0.2:
            self.begin_anew()

    def follow(self, deed):
        queue = self.queues[0]
        ran = queue.running
        others = [entry for task, entry in queue.runnable.items() if deed[1:2] != (task,)]
        had = queue.runnable.get(deed[1]) or queue.asleep.get(deed[1]) if len(deed) > 1 else None
        placed = placement(queue, deed[1]) if deed[0] == "wake" else None
        answer = whole(self.setup, self.queues, 0, deed)
        word = answer.split()[0]
        if word == "picked":
            self.left = self.longest
        elif word == "charged" and self.left is not None:
            self.left -= deed[1]
        elif word == "yielded" or word == "rebased" and answer != "rebased 0":
            self.left = None
        elif word == "woken":
            self.join(others, deed[1], had.length, ran, queue.runnable[deed[1]].v - placed)
        elif word == "reniced" or word == "set" and deed[1] in queue.runnable:
            self.join(others, deed[1], had.length, ran)
        self.script.append(text_of(deed))

    def join(self, others, task, length, ran, past=0):
        """A task has joined, so far past its placement."""
        if not others:
            self.begin_anew()
            return
        whole_weight, weight = sum(entry.weight() for entry in others), self.queues[0].runnable[task].weight()
        far = charge_of(2 * length, weight) * (whole_weight + weight)
        reach = ((len(others) - 1) * 1024 * self.longest + self.late + far) // whole_weight + 1
        self.late += max(0, weight * (reach + past) - 1024 * self.longest)
        self.joined.add(task)
        if task == ran:
            self.left = None

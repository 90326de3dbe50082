"""The calls of eevdf.h over the plain queue of checks/drawn/plain: each answers what the header says, tested in the header's order, and
every sum is a scan. It shares no code with the library."""

import sys
from dataclasses import replace
from pathlib import Path

TOP = Path(__file__).resolve().parents[2]
sys.path.append(str(TOP / "checks" / "drawn"))

from plain.dozes import DozingQueue  # noqa: E402
from plain.numbers import is_in_range, lag_limit_of, weight_of  # noqa: E402
from plain.queue import Carried, fits, fresh_entry  # noqa: E402

ABSENT, BALANCED, NO_MEMORY, BUSY, PRESENT, INVALID, RANGE = -2, -11, -12, -16, -17, -22, -34
TASKS = 1024


def is_task(task):
    return 0 <= task < TASKS


def is_nice(nice):
    return -20 <= nice <= 19


def is_slice(length):
    return 100000 <= length <= 100000000


def halves_of(place):
    """A number as its two halves of 64 bits, each with a sign, as play.c prints them."""
    high, low = divmod(place, 2**64)
    return high, low - 2**64 if low >= 2**63 else low


class Model:
    """Two queues and two hands. A call gives its answer, or a list of it and what it writes; on an error that is what stood there."""

    def __init__(self):
        self.queues = [DozingQueue(), DozingQueue()]
        self.hands = [None, None]
        self.refuses = False

    def is_here(self, queue, task):
        return task in self.queues[queue].runnable or task in self.queues[queue].asleep

    # Queues and hands begin and end.

    def open(self, queue):
        self.queues[queue] = DozingQueue()
        return 0

    def close(self, queue):
        for task in range(TASKS):
            self.leave(queue, task)
        return 0

    def hand_open(self, hand):
        self.hands[hand] = None
        return 0

    hand_close = hand_open

    def refuse(self, whether):
        self.refuses = bool(whether)
        return 0

    # Who runs.

    def pick(self, queue):
        return ABSENT if self.queues[queue].pick() == "idle" else self.queues[queue].running

    def peek(self, queue):
        task = self.queues[queue].peek()
        return ABSENT if task is None else task

    def tick(self, queue, nanoseconds):
        if not 1 <= nanoseconds <= 1000000000:
            return INVALID
        answer = self.queues[queue].tick(nanoseconds)
        return {"idle": ABSENT, "range": RANGE}.get(answer, int(answer.endswith("resched")))

    def time_to_resched(self, queue):
        nanoseconds = self.queues[queue].time_to_resched()
        return ABSENT if nanoseconds is None else nanoseconds

    def yield_(self, queue):
        return {"idle": ABSENT, "range": RANGE, "yielded": 0}[self.queues[queue].yield_now()]

    def stop(self, queue):
        task, self.queues[queue].running = self.queues[queue].running, None
        return ABSENT if task is None else task

    def run(self, queue, task):
        if not is_task(task):
            return INVALID
        if task not in self.queues[queue].runnable:
            return ABSENT
        self.queues[queue].running = task
        return 0

    def running(self, queue):
        return ABSENT if self.queues[queue].running is None else self.queues[queue].running

    # Tasks come, go and change.

    def admit(self, queue, task, nice, length, start):
        if not (is_task(task) and is_nice(nice) and is_slice(length) and is_in_range(start)):
            return INVALID
        if self.is_here(queue, task):
            return PRESENT
        if self.refuses:
            return NO_MEMORY
        if not fits(fresh_entry(start, nice, length)):
            return RANGE
        self.queues[queue].admit(task, nice, length, start)
        return 0

    def sleep(self, queue, task):
        if not is_task(task):
            return INVALID
        if self.queues[queue].running != task:
            return ABSENT
        carried = self.queues[queue].leave(task)
        self.queues[queue].put_asleep(task, carried.nice, carried.length, carried.lag)
        return 0

    def doze(self, queue, task):
        if not is_task(task):
            return [INVALID, -1]
        if self.queues[queue].running != task:
            return [ABSENT, -1]
        return [0, self.queues[queue].doze()]

    def wake(self, queue, task):
        if not is_task(task):
            return INVALID
        if task in self.queues[queue].runnable:
            return PRESENT
        return {"awake": ABSENT, "range": RANGE, "woken": 0}[self.queues[queue].wake(task)]

    def leave(self, queue, task):
        """Takes out a task, runnable or asleep; None where it isn't here."""
        if task in self.queues[queue].runnable:
            return self.queues[queue].leave(task)
        sleeper = self.queues[queue].asleep.pop(task, None)
        self.queues[queue].places.pop(task, None)
        return sleeper and Carried(task, sleeper.nice, sleeper.length, self.queues[queue].virtual_time(), sleeper.lag)

    def end(self, queue, task):
        if not is_task(task):
            return INVALID
        return ABSENT if self.leave(queue, task) is None else 0

    def renice(self, queue, task, nice):
        if not (is_task(task) and is_nice(nice)):
            return INVALID
        return {"not here": ABSENT, "range": RANGE, "reniced": 0}[self.queues[queue].renice(task, nice)]

    def set_slice(self, queue, task, length):
        if not (is_task(task) and is_slice(length)):
            return INVALID
        return 0 if self.queues[queue].set_slice(task, length) else ABSENT

    def set(self, queue, task, nice, length):
        if not (is_task(task) and is_nice(nice) and is_slice(length)):
            return INVALID
        return {"not here": ABSENT, "range": RANGE, "set": 0}[self.queues[queue].set(task, nice, length)]

    def begin(self, queue, task, nice, length):
        if not (is_task(task) and is_nice(nice) and is_slice(length)):
            return INVALID
        if task in self.queues[queue].runnable:
            return PRESENT
        return 0 if self.queues[queue].begin(task, nice, length) else ABSENT

    def rebase(self, queue):
        return [0, self.queues[queue].rebase()]

    # Hands.

    def hand_task(self, hand):
        return ABSENT if self.hands[hand] is None else self.hands[hand].task

    def hand_parcel(self, hand):
        held = self.hands[hand]
        return [ABSENT, 1, -1, 1, -1, -1] if held is None else [0, held.task, held.nice, held.length, held.v, held.lag]

    def hand_renumber(self, hand, task):
        if not is_task(task):
            return INVALID
        if self.hands[hand] is None:
            return ABSENT
        self.hands[hand] = replace(self.hands[hand], task=task)
        return 0

    def take(self, queue, hand, task):
        if not is_task(task):
            return INVALID
        if self.hands[hand] is not None:
            return BUSY
        self.hands[hand] = self.leave(queue, task)
        return ABSENT if self.hands[hand] is None else 0

    def take_any(self, queue, hand):
        if self.hands[hand] is not None:
            return BUSY
        here = self.queues[queue]
        first = here.peek()
        task = min(here.asleep, default=None) if first is None else first
        if task is None:
            return ABSENT
        self.hands[hand] = self.leave(queue, task)
        return task

    def put(self, queue, hand):
        held = self.hands[hand]
        if held is None:
            return ABSENT
        if self.is_here(queue, held.task):
            return PRESENT
        if not self.queues[queue].can_place(held.nice, held.length, held.lag):
            return RANGE
        self.queues[queue].put(held.task, held.nice, held.length, held.lag)
        self.hands[hand] = None
        return 0

    def put_asleep(self, queue, hand):
        held = self.hands[hand]
        if held is None:
            return ABSENT
        if self.is_here(queue, held.task):
            return PRESENT
        self.queues[queue].put_asleep(held.task, held.nice, held.length, held.lag)
        self.hands[hand] = None
        return 0

    # Pulls.

    def pull_waiting(self, to, source, task):
        """A task that waits in the source comes to another queue, where its load with the task is below that of the source."""
        here, there = self.queues[to], self.queues[source]
        entry = there.runnable[task]
        if here.load() + entry.weight() >= there.load():
            return BALANCED
        if self.is_here(to, task):
            return PRESENT
        if not here.can_place(entry.nice, entry.length, there.lag_of(task)):
            return RANGE
        carried = there.leave(task)
        here.put(task, carried.nice, carried.length, carried.lag)
        return task

    def pull(self, to, source):
        task = self.queues[source].candidate()
        return ABSENT if task is None else self.pull_waiting(to, source, task)

    def pull_task(self, to, source, task):
        if not is_task(task):
            return INVALID
        there = self.queues[source]
        waits = task in there.runnable and task != there.running
        return self.pull_waiting(to, source, task) if waits else ABSENT

    # What can be read.

    def len(self, queue):
        return len(self.queues[queue].runnable)

    def load(self, queue):
        return self.queues[queue].load()

    def floor_time(self, queue):
        return [0, self.queues[queue].virtual_time()]

    def candidate(self, queue):
        task = self.queues[queue].candidate()
        return ABSENT if task is None else task

    def entry_of(self, queue, task):
        entry = self.queues[queue].runnable.get(task)
        if entry is None:
            return [ABSENT if is_task(task) else INVALID, -1, -1, -1, 1]
        return [0, entry.v, entry.d, entry.nice, entry.length]

    def sleeper_of(self, queue, task):
        sleeper = self.queues[queue].asleep.get(task)
        if sleeper is None:
            return [ABSENT if is_task(task) else INVALID, -1, -1, 1]
        return [0, sleeper.lag, sleeper.nice, sleeper.length]

    def place_of(self, queue, task):
        place = self.queues[queue].place_now(task)
        if place is None:
            return [ABSENT if is_task(task) else INVALID, -1, 1]
        return [0, *halves_of(place)]

    def lag_at(self, queue, task):
        here = self.queues[queue]
        return here.lag_of(task) if task in here.runnable else here.asleep[task].lag

    def lag(self, queue, task):
        if not self.is_here(queue, task):
            return [ABSENT if is_task(task) else INVALID, -1]
        return [0, self.lag_at(queue, task)]

    def is_asleep(self, queue, task):
        return int(task in self.queues[queue].asleep) if is_task(task) else INVALID

    def contains(self, queue, task):
        return int(self.is_here(queue, task)) if is_task(task) else INVALID

    def can_place(self, queue, nice, length, lag):
        if not (is_nice(nice) and is_slice(length)) or abs(lag) > lag_limit_of(length, weight_of(nice)):
            return INVALID
        return int(self.queues[queue].can_place(nice, length, lag))

    def state(self, queue, tasks):
        """All of a queue and its tasks below a number, as play.c prints it."""
        words = [self.len(queue), self.load(queue), self.queues[queue].virtual_time(), self.running(queue), self.candidate(queue)]
        here = self.queues[queue]
        for task in sorted({*here.runnable, *here.asleep}):
            entry, sleeper = here.runnable.get(task), here.asleep.get(task)
            rest = [entry.v, entry.d, entry.nice, entry.length] if entry else [sleeper.nice, sleeper.length]
            place = here.place_now(task)
            rest += [] if place is None else halves_of(place)
            words.append(f"{task}:{','.join(map(str, [self.lag_at(queue, task), *rest]))}")
        return words

    def play(self, name, numbers):
        """The line that a call prints."""
        answer = getattr(self, "yield_" if name == "yield" else name)(*numbers)
        return " ".join(map(str, answer if isinstance(answer, list) else [answer]))

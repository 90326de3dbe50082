"""One queue: "One queue" of docs/model.md. Every sum is a scan."""

from bisect import bisect_left
from dataclasses import dataclass, replace

from plain.numbers import charge_of, is_in_range, limited, placement_of, weight_of

# The lengths of a tick in nanoseconds.
TICKS = range(1, 1000000001)


@dataclass(frozen=True)
class Entry:
    """A runnable task. `length` is its slice."""

    v: int
    d: int
    nice: int
    length: int

    def weight(self):
        return weight_of(self.nice)


@dataclass(frozen=True)
class Sleeper:
    lag: int
    nice: int
    length: int


@dataclass(frozen=True)
class Carried:
    """A task between two queues, with the lag that it had where it left."""

    task: int
    nice: int
    length: int
    v: int
    lag: int


def fresh_entry(v, nice, length):
    return Entry(v, v + charge_of(length, weight_of(nice)), nice, length)


def fits(entry):
    return is_in_range(entry.v) and is_in_range(entry.d)


class Queue:
    def __init__(self):
        self.runnable = {}
        self.running = None
        self.asleep = {}
        self.base = 0

    # What a queue shows.

    def load(self):
        return sum(entry.weight() for entry in self.runnable.values())

    def moment(self):
        return sum(entry.weight() * entry.v for entry in self.runnable.values())

    def virtual_time(self):
        return self.moment() // self.load() if self.runnable else self.base

    def lag_of(self, task):
        entry = self.runnable[task]
        return limited(self.virtual_time() - entry.v, entry.length, entry.weight())

    def candidate(self):
        waiting = [(entry.d, task) for task, entry in self.runnable.items() if task != self.running]
        return max(waiting)[1] if waiting else None

    def peek(self):
        """Who a pick would let run."""
        load, moment = self.load(), self.moment()
        eligible = [(entry.d, task) for task, entry in self.runnable.items() if entry.v * load <= moment]
        return min(eligible)[1] if eligible else None

    def time_to_resched(self):
        """The shortest tick that uses up the running task's request, and None where none does."""
        if self.running is None:
            return None
        entry = self.runnable[self.running]
        at = bisect_left(TICKS, entry.d - entry.v, key=lambda ns: charge_of(ns, entry.weight()))
        return TICKS[at] if at < len(TICKS) else None

    # Deeds on this queue alone. Each gives its answer as text.

    def pick(self):
        first = self.peek()
        if first is None:
            return "idle"
        self.running = first
        return f"picked {self.running}"

    def tick(self, nanoseconds):
        if self.running is None:
            return "idle"
        task, entry = self.running, self.runnable[self.running]
        charged = replace(entry, v=entry.v + charge_of(nanoseconds, entry.weight()))
        used_up = charged.v >= charged.d
        if used_up:
            charged = fresh_entry(charged.v, charged.nice, charged.length)
        if not fits(charged):
            return "range"
        self.runnable[task] = charged
        return f"charged {task} resched" if used_up else f"charged {task}"

    def yield_now(self):
        if self.running is None:
            return "idle"
        entry = self.runnable[self.running]
        later = replace(entry, d=entry.d + charge_of(entry.length, entry.weight()))
        if not fits(later):
            return "range"
        self.runnable[self.running] = later
        return "yielded"

    def wake(self, task):
        if task not in self.asleep:
            return "awake"
        sleeper = self.asleep[task]
        if not self.can_place(sleeper.nice, sleeper.length, sleeper.lag):
            return "range"
        del self.asleep[task]
        self.put(task, sleeper.nice, sleeper.length, sleeper.lag)
        return "woken"

    def renice(self, task, nice):
        if task not in self.runnable:
            return "not here"
        entry, ran, base = self.runnable[task], self.running == task, self.base
        carried = self.leave(task)
        lag = carried.lag * entry.weight() // weight_of(nice)
        lag = limited(lag, carried.length, weight_of(nice))
        if not self.can_place(nice, carried.length, lag):
            self.runnable[task], self.base = entry, base
            self.running = task if ran else self.running
            return "range"
        self.put(task, nice, carried.length, lag)
        self.running = task if ran else self.running
        return "reniced"

    def set_slice(self, task, length):
        """Whether the task is here."""
        if task in self.runnable:
            self.runnable[task] = replace(self.runnable[task], length=length)
        elif task in self.asleep:
            sleeper = self.asleep[task]
            self.asleep[task] = Sleeper(limited(sleeper.lag, length, weight_of(sleeper.nice)), sleeper.nice, length)
        else:
            return False
        return True

    def set(self, task, nice, length):
        """Another nice level and slice at once, of a runnable or a sleeping task."""
        if task in self.asleep:
            sleeper = self.asleep[task]
            lag = sleeper.lag * weight_of(sleeper.nice) // weight_of(nice)
            self.asleep[task] = Sleeper(limited(lag, length, weight_of(nice)), nice, length)
            return "set"
        answer = self.renice(task, nice)
        if answer != "reniced":
            return answer
        self.runnable[task] = replace(self.runnable[task], length=length)
        return "set"

    def begin(self, task, nice, length):
        """A sleeping task begins anew. Whether it sleeps here."""
        if task not in self.asleep:
            return False
        self.asleep[task] = Sleeper(0, nice, length)
        return True

    def rebase(self):
        """The number by which all virtual times are lower."""
        by = self.virtual_time()
        lowered = {task: replace(entry, v=entry.v - by, d=entry.d - by) for task, entry in self.runnable.items()}
        if not all(map(fits, lowered.values())):
            return 0
        self.runnable, self.base = lowered, 0
        return by

    # How tasks come and go.

    def admit(self, task, nice, length, start):
        self.runnable[task] = fresh_entry(start, nice, length)

    def put_asleep(self, task, nice, length, lag):
        self.asleep[task] = Sleeper(lag, nice, length)

    def leave(self, task):
        lag = self.lag_of(task)
        entry = self.runnable.pop(task)
        self.base = entry.v
        if self.running == task:
            self.running = None
        return Carried(task, entry.nice, entry.length, entry.v, lag)

    def place_for(self, nice, length, lag):
        v = self.base
        if self.runnable:
            v = placement_of(self.virtual_time(), self.load(), lag, weight_of(nice))
        return fresh_entry(v, nice, length)

    def can_place(self, nice, length, lag):
        return fits(self.place_for(nice, length, lag))

    def put(self, task, nice, length, lag):
        self.runnable[task] = self.place_for(nice, length, lag)

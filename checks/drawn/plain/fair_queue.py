"""A fair queue: "Bounds of a fair queue" of docs/model.md, beside how late requests really are."""

from plain.dozes import DozingQueue
from plain.numbers import charge_of
from plain.share_clock import ShareClock, Stays

LEAST, GREATEST = -(2**63), 2**63 - 1


def held(number):
    """A number as 64 bits have it."""
    return max(LEAST, min(GREATEST, number))


class Bounds:
    """The four numbers beside a queue, of which others make the calls."""

    def __init__(self, queue):
        self.queue = queue
        self.front, self.furthest, self.longest, self.turn = LEAST, LEAST, 0, None

    def late_by(self, deadline):
        return max(self.longest, held(self.front - deadline))

    def bound(self):
        first = self.queue.peek()
        return 0 if first is None else self.late_by(min(self.queue.virtual_time(), self.queue.runnable[first].d))

    def lateness(self):
        """By how much the exact virtual time is past the earliest deadline, times the load."""
        if not self.queue.runnable:
            return 0
        return self.queue.moment() - min(entry.d for entry in self.queue.runnable.values()) * self.queue.load()

    def begin_turn(self):
        self.turn = 0

    def charge(self, nanoseconds):
        """Whoever runs was charged."""
        entry = self.queue.runnable[self.queue.running]
        if self.turn is None:
            self.reach(entry.v)
        else:
            self.turn = held(self.turn + charge_of(nanoseconds, entry.weight()))
            self.longest = max(self.longest, self.turn)
            self.furthest = max(self.furthest, entry.v)

    def lower(self, by):
        self.front, self.furthest = held(self.front - by), held(self.furthest - by)

    def measure(self):
        """Looks at each runnable task in place of what was kept."""
        entries = self.queue.runnable.values()
        self.front, self.furthest, self.longest = LEAST, LEAST, 0
        if entries:
            self.furthest = max(entry.v for entry in entries)
            self.longest = max(0, held(self.furthest - min(entry.d for entry in entries)))

    def change(self, task, call):
        """Makes a call that touches one task alone, and looks at it beside the mark of before."""
        mark = self.mark(task)
        call(self.queue)
        entry = self.queue.runnable.get(task)
        if entry is None:
            return
        if mark is None:
            self.front, self.furthest, self.longest, self.turn = LEAST, LEAST, 0, None
            self.reach(entry.v)
            return
        time, deadline = mark
        self.reach(entry.v)
        if entry.d < deadline:
            self.front, self.turn = max(self.front, self.furthest), None
        if entry.v > time:
            self.turn = None

    def mark(self, task):
        if entry := self.queue.runnable.get(task):
            return entry.v, entry.d
        first = self.queue.peek()
        return None if first is None else (self.queue.virtual_time(), self.queue.runnable[first].d)

    def reach(self, v):
        """A task has come to a virtual runtime out of its turn."""
        if self.furthest < v:
            self.front, self.furthest = max(self.front, v), v


class FairQueue(Bounds):
    def __init__(self, clock=ShareClock):
        super().__init__(DozingQueue())
        self.clock, self.stays = clock(), Stays()

    def pick(self):
        self.queue.pick()
        self.begin_turn()

    def tick(self, nanoseconds):
        if not self.queue.tick(nanoseconds).startswith("charged"):
            return
        self.clock.charge(nanoseconds, self.queue.load())
        self.stays.charge(self.queue, nanoseconds)
        self.charge(nanoseconds)

    def adopt(self, task):
        if task in self.queue.runnable:
            self.queue.running, self.turn = task, None

    def rebase(self):
        by = self.queue.rebase()
        self.lower(by)
        self.clock.lower(by)

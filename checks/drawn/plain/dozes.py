"""A queue whose tasks may doze: "Dozes" of docs/model.md. Each other rule of RULES falls short of it in one thing."""

from plain.queue import Queue, fits, fresh_entry


class DozingQueue(Queue):
    """`places` has of each task that dozes the virtual runtime at which it left, and the `shift` of then: what all rebases had answered."""

    def __init__(self):
        super().__init__()
        self.places = {}
        self.shift = 0

    def place(self, task):
        """Where a task stands, or left to doze, as if no rebase had ever been made; None where it sleeps without a place."""
        if task in self.runnable:
            return self.runnable[task].v + self.shift
        return self.places.get(task)

    def place_now(self, task):
        """The place of a task that dozes, in the virtual times of now, or None."""
        return self.places[task] - self.shift if task in self.places else None

    def doze(self):
        """The running task falls asleep. It keeps its place, and of its lag what it is owed. The lag with which it leaves."""
        carried = self.leave(self.running)
        self.put_dozing(carried)
        return carried.lag

    def put_dozing(self, carried):
        """A task that has left this queue, and no other, sleeps here at its place."""
        self.put_asleep(carried.task, carried.nice, carried.length, max(0, carried.lag))
        self.places[carried.task] = carried.v + self.shift

    def sleep(self, task):
        """The plain sleep: the lag is kept whole, and no place."""
        carried = self.leave(task)
        self.put_asleep(task, carried.nice, carried.length, carried.lag)

    def put_asleep(self, task, nice, length, lag):
        super().put_asleep(task, nice, length, lag)
        self.places.pop(task, None)

    def begin(self, task, nice, length):
        self.places.pop(task, None)
        return super().begin(task, nice, length)

    def woken(self, task):
        """The entry of a task that wakes: at its placement, and no earlier than its place."""
        sleeper = self.asleep[task]
        entry = self.place_for(sleeper.nice, sleeper.length, sleeper.lag)
        if task not in self.places:
            return entry
        return fresh_entry(max(entry.v, self.place_now(task)), sleeper.nice, sleeper.length)

    def wake(self, task):
        if task not in self.asleep:
            return "awake"
        entry = self.woken(task)
        if not fits(entry):
            return "range"
        del self.asleep[task]
        self.places.pop(task, None)
        self.runnable[task] = entry
        return "woken"

    def rebase(self):
        by = super().rebase()
        self.shift += by
        return by


class AsASleep(DozingQueue):
    """A doze is a sleep: the lag is kept whole, cut to two slices, and no place."""

    def put_dozing(self, carried):
        self.put_asleep(carried.task, carried.nice, carried.length, carried.lag)


class AtItsPlacement(DozingQueue):
    """What is owed is kept and no debt, and a wake is at the placement."""

    def woken(self, task):
        sleeper = self.asleep[task]
        return self.place_for(sleeper.nice, sleeper.length, sleeper.lag)


class WithItsWholeDebt(DozingQueue):
    """What is owed is kept, cut to two slices, and any debt is kept whole; a wake is at the placement."""

    def doze(self):
        lag = self.virtual_time() - self.runnable[self.running].v
        carried = self.leave(self.running)
        self.put_asleep(carried.task, carried.nice, carried.length, min(carried.lag, lag))
        return carried.lag


class LeavesWhenPicked(DozingQueue):
    """Delayed dequeue: who is ahead stays in the queue until a pick comes to it, and leaves then with the lag 0. Who isn't ahead leaves as
    by a sleep. A wake that comes before finds it where it stands, or at the virtual time where that is later."""

    def __init__(self):
        super().__init__()
        self.delayed = set()

    def is_ahead(self, task):
        return self.runnable[task].v * self.load() > self.moment()

    def doze(self):
        task = self.running
        if self.is_ahead(task):
            self.delayed.add(task)
            self.running = None
        else:
            self.sleep(task)

    def drop(self, task):
        self.delayed.remove(task)
        carried = self.leave(task)
        self.put_asleep(task, carried.nice, carried.length, 0)

    def pick(self):
        while (first := self.peek()) in self.delayed:
            self.drop(first)
        return super().pick()

    def wake(self, task):
        if task not in self.delayed:
            return super().wake(task)
        if self.lag_of(task) > 0:
            self.drop(task)
            return super().wake(task)
        self.delayed.remove(task)
        return "woken"


class LeavesOnceNotAhead(LeavesWhenPicked):
    """Delayed dequeue in which who was ahead leaves as soon as it isn't."""

    def drop_due(self):
        while due := [task for task in self.delayed if not self.is_ahead(task)]:
            self.drop(min(due))

    def doze(self):
        super().doze()
        self.drop_due()

    def tick(self, nanoseconds):
        answer = super().tick(nanoseconds)
        self.drop_due()
        return answer

    def wake(self, task):
        answer = super().wake(task)
        self.drop_due()
        return answer


class WithoutTheShift(DozingQueue):
    """A rebase lowers the queue and forgets those that doze."""

    def rebase(self):
        return Queue.rebase(self)


RULES = {
    "a doze is a sleep": AsASleep,
    "a wake is at its placement": AtItsPlacement,
    "a debt is kept whole": WithItsWholeDebt,
    "who is ahead leaves when it is picked": LeavesWhenPicked,
    "who is ahead leaves once it isn't": LeavesOnceNotAhead,
    "a rebase isn't added": WithoutTheShift,
}

"""What tasks lack of their shares: "What a task lacks of its share" of docs/model.md, beside their exact shares."""

from fractions import Fraction

# The parts of one unit of virtual time, and those of a nanosecond, times the load.
PARTS, NS_PARTS = 2**32, 2**42


def rounded_up(number, divisor):
    return -(-number // divisor)


class ShareClock:
    def __init__(self):
        self.settled, self.since = 0, 0

    def charge(self, nanoseconds, _load):
        self.since += nanoseconds

    def lower(self, by):
        self.settled -= by * PARTS

    def reload(self, before, after):
        if before != after:
            self.settled += rounded_up(self.since * NS_PARTS, before) if before else 0
            self.since = 0

    def mark(self, entry, load):
        return self.settled - entry.v * PARTS + self.since * NS_PARTS // load

    def lack(self, mark, entry, load):
        standing = self.settled - entry.v * PARTS + rounded_up(self.since * NS_PARTS, load)
        return rounded_up(max(0, standing - mark) * entry.weight(), NS_PARTS)


class ClockBeside(ShareClock):
    """The clock beside any queue: it goes by the load of the last tick, and knows of no other call."""

    def __init__(self):
        super().__init__()
        self.load = 1

    def charge(self, nanoseconds, load):
        super().reload(self.load, load)
        self.load = load
        super().charge(nanoseconds, load)

    def reload(self, before, after):
        pass

    def mark(self, entry, _load):
        return super().mark(entry, self.load)

    def lack(self, mark, entry, _load):
        return super().lack(mark, entry, self.load)


class Stay:
    """A task since its mark: its share of what was charged, and what it was served."""

    def __init__(self, mark):
        self.mark, self.share, self.served = mark, Fraction(0), 0


class Stays:
    def __init__(self):
        self.of = {}
        self.greatest = 0

    def charge(self, queue, nanoseconds):
        load = queue.load()
        for task, stay in self.of.items():
            stay.share += Fraction(queue.runnable[task].weight() * nanoseconds, load)
            stay.served += nanoseconds if task == queue.running else 0

    def look(self, fair, moved):
        """Reads what each task lacks at most, and answers that beside what it really lacks; tasks that have come are marked."""
        self.of.pop(moved, None)
        load, read = fair.queue.load(), []
        self.of = {task: stay for task, stay in self.of.items() if task in fair.queue.runnable}
        for task, entry in fair.queue.runnable.items():
            if task not in self.of:
                self.of[task] = Stay(fair.clock.mark(entry, load))
                continue
            stay = self.of[task]
            lack = fair.clock.lack(stay.mark, entry, load)
            self.greatest = max(self.greatest, lack)
            read.append((lack, stay.share - stay.served))
        return read

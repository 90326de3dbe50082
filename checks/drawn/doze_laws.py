"""What is proved of dozes ("Dozes" of docs/model.md), each law as what is bounded and what bounds it, while a pattern is played on a plain
queue."""

from dataclasses import dataclass

from doze_patterns import DOZES, STAYS
from plain.numbers import charge_of, lag_limit_of, weight_of

LAWS = ("NoneRunsFarPast", "NobodyGains", "TogetherNobodyGains", "RequestsStayPunctual", "WhoStaysHasItsShare", "WhoSleepsHasNoMore",
        "NobodyIsEverFarAhead", "NobodyEverGains", "NobodyIsEverFarApart", "NobodyGainsLater")


@dataclass
class Tally:
    """What a task had from a moment on: in virtual time, in nanoseconds, and in 1024ths of them what was lost to rounding. `least` is the
    least that it was ever ahead by, in charges, of the one that stays."""

    place: int
    charged: int = 0
    ran: int = 0
    lost: int = 0
    least: int = 0


class Stretch:
    """A pattern that is played on a queue."""

    def __init__(self, pattern, queue):
        self.pattern, self.queue, self.longest = pattern, queue, pattern.longest()
        self.weights = [weight_of(nice) for nice, _ in pattern.tasks]
        self.requests = [charge_of(length, weight_of(nice)) for nice, length in pattern.tasks]
        self.turns = [charge_of(self.longest, weight) for weight in self.weights]
        self.is_together = False
        for task, (nice, length) in enumerate(pattern.tasks):
            queue.admit(task, nice, length, 0)
        self.begin()
        # until then it may be broken where tasks do anything
        self.is_together &= pattern.begun == 0 or pattern.begins == DOZES

    def begin(self):
        """From here on it is counted, of each task that has a place. The first task stays."""
        queue = self.queue
        queue.wake(STAYS)
        self.tallies = {task: Tally(queue.place(task)) for task in range(len(self.pattern.tasks)) if queue.place(task) is not None}
        self.first = queue.runnable[STAYS].v + queue.shift
        self.took = 0
        self.all_count = len(self.tallies) == len(self.pattern.tasks) and not self.pattern.wild
        past = max(tally.place for tally in self.tallies.values()) - queue.shift
        self.was_punctual = self.all_count and past <= queue.runnable[STAYS].d + max(self.turns)
        self.bound_by(max(self.requests + [entry.d - entry.v for entry in queue.runnable.values()]))
        # what is so goes on where all doze
        self.is_together = self.all_count and (self.is_together or past - self.least_runtime() <= self.request)
        self.was_level = None

    def least_runtime(self):
        return min(entry.v for entry in self.queue.runnable.values())

    def ahead(self):
        return self.queue.runnable[STAYS].v - self.least_runtime()

    # What bounds are made of.

    def bound_by(self, request):
        """What the laws of later moments allow, where no request is longer than this."""
        own, lightest, all_of_them = self.weights[STAYS], min(self.weights), range(len(self.weights))
        self.request = request
        self.most_ahead = request + self.turns[STAYS] + self.setbacks(all_of_them[1:], own)
        self.most_apart = request + charge_of(self.longest, lightest) + self.setbacks(all_of_them, lightest)
        self.most_ahead_later = self.most_apart + self.turns[STAYS] + self.setbacks(all_of_them, own)

    def setbacks(self, tasks, beside):
        """By how far wakes put these tasks back in all, beside a task of this weight."""
        lengths = {task: self.pattern.tasks[task][1] for task in tasks}
        return sum(lag_limit_of(length, self.weights[task]) + lag_limit_of(length, beside) for task, length in lengths.items())

    # What is played.

    def tick(self, nanoseconds):
        task, queue = self.queue.running, self.queue
        before = queue.runnable[task].v
        if nanoseconds == 0 or queue.tick(nanoseconds) == "range":
            return
        charged = queue.runnable[task].v - before
        self.took += nanoseconds
        if task in self.tallies:
            tally = self.tallies[task]
            tally.charged += charged
            tally.ran += nanoseconds
            tally.lost += 1024 * nanoseconds - charged * self.weights[task]

    def play(self, it, is_first=False):
        """A round, of those that come first where that is said."""
        queue = self.queue
        for task in it.wakes:
            queue.wake(task)
        if self.was_level is None:
            self.was_level = self.all_count and self.ahead() <= self.request
        if queue.pick() == "idle":
            return
        self.tick(it.runs // 2)
        for task in it.wakes_meanwhile:
            queue.wake(task)
        self.tick(it.runs - it.runs // 2)
        self.end_turn(queue.running, it, is_first)
        if it.rebases:
            queue.rebase()

    def end_turn(self, task, it, is_first):
        if is_first and self.pattern.begins == DOZES:
            if it.dozes and len(self.queue.runnable) > 1:
                self.queue.doze()
        elif task in self.pattern.wild or is_first and task != STAYS:
            do_other(self.queue, task, it)
        elif it.dozes and task not in self.pattern.stay:
            self.queue.doze()

    # What is bounded.

    def apart(self):
        """While all doze, and afterwards."""
        if self.is_together:
            runtimes = [entry.v for entry in self.queue.runnable.values()]
            yield "NobodyIsEverFarApart", max(runtimes) - min(runtimes), self.most_apart

    def clauses(self):
        """Each law as its name, what is bounded and what bounds it."""
        queue, stays = self.queue, self.tallies[STAYS]
        entry = queue.runnable[STAYS]
        request = charge_of(entry.length, entry.weight())
        fresh = self.pattern.begun == 0
        counted = {task: tally for task, tally in self.tallies.items() if task != STAYS and task not in self.pattern.wild}
        for task, tally in counted.items():
            # one that was charged for nothing may stand anywhere
            if tally.charged:
                yield "NoneRunsFarPast", tally.place + tally.charged - self.first, entry.d + queue.shift + self.turns[task] - self.first
                yield "NobodyGains", tally.charged - stays.charged, request + self.turns[task] + self.first - tally.place
        yield from self.together({task: tally for task, tally in counted.items() if tally.place >= self.first}, request)
        if self.was_punctual:
            yield "RequestsStayPunctual", queue.virtual_time() - entry.d, max(self.turns)
        if fresh and not self.pattern.wild:
            yield from self.share(counted, request)
        if fresh:
            yield from self.beside(counted)
        yield from self.apart()
        yield from self.later(counted, request)

    def together(self, counted, request):
        weight = sum(self.weights[task] for task in counted)
        all_of_them = sum(self.weights[task] * tally.charged for task, tally in counted.items())
        if counted:
            bound = weight * request + len(counted) * 1024 * self.longest
            yield "TogetherNobodyGains", all_of_them - weight * self.tallies[STAYS].charged, bound

    def share(self, counted, request):
        weight, own, stays = sum(self.weights), self.weights[STAYS], self.tallies[STAYS]
        lost = sum(tally.lost for tally in counted.values())
        bound = (weight - own) * own * request + own * len(counted) * 1024 * self.longest + own * lost
        yield "WhoStaysHasItsShare", 1024 * (own * self.took - weight * stays.ran), bound

    def beside(self, counted):
        """What a task has beside those that never sleep."""
        stay = self.pattern.stay
        weight = sum(self.weights[task] for task in stay)
        weighed = sum(self.weights[task] * self.requests[task] for task in stay)
        for task in counted.keys() - self.pattern.stay:
            own, tally = self.weights[task], counted[task]
            bound = own * weighed + own * weight * self.turns[task] + weight * tally.lost
            yield "WhoSleepsHasNoMore", 1024 * ((own + weight) * tally.ran - own * self.took), bound

    def later(self, counted, request):
        """From any moment of the past on, where all tasks count."""
        if self.was_level:
            yield "NobodyIsEverFarAhead", self.ahead(), self.most_ahead
        for task, tally in counted.items():
            gained = tally.charged - self.tallies[STAYS].charged
            tally.least = min(tally.least, gained)
            bound = request + self.turns[task]
            if self.was_level:
                yield "NobodyEverGains", gained - tally.least, bound + self.most_ahead
            if self.is_together:
                yield "NobodyGainsLater", gained - tally.least, bound + self.most_ahead_later


def do_other(queue, task, it):
    """What counts for nothing. A task that leaves is woken, if it sleeps, as any other."""
    entry = queue.runnable[task]
    match it.other:
        case "sleep":
            queue.sleep(task)
        case "end" | "begin":
            queue.sleep(task)
            queue.begin(task, entry.nice, entry.length)
        case "renice":
            queue.renice(task, entry.nice)
        case "yield":
            queue.yield_now()
        case "set":
            queue.set_slice(task, entry.length)
        case "leave and come":
            carried = queue.leave(task)
            queue.put(task, carried.nice, carried.length, carried.lag)

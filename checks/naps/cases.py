"""Tasks that fall asleep beside others on one CPU. All are of nice level 0, have slices of 3 ms, and run for 1 ms at a time, where nothing
else is said."""

from dataclasses import dataclass

from played import Behaviour
from plain.numbers import weight_of

US, MS, S = 10**3, 10**6, 10**9


@dataclass(frozen=True)
class Case:
    """`watched` are the tasks of which something is told. A case is played until the CPU has run for `took` nanoseconds."""

    what: str
    behaviours: tuple
    watched: tuple = (0,)
    took: int = 10 * S

    def due(self):
        """The part of the time that the weights of those that are watched give them."""
        weights = [weight_of(it.nice) for it in self.behaviours]
        return sum(weights[task] for task in self.watched) / sum(weights)

    def least_of(self, task, took):
        """What one that stays runs for at least beside those that doze, by the law `WhoStaysHasItsShare` of docs/model.md without what
        rounding takes."""
        it, weights = self.behaviours[task], [weight_of(other.nice) for other in self.behaviours]
        part = weights[task] / sum(weights)
        return part * took - (1 - part) * it.slice_ns - part * (len(weights) - 1) * max(other.runs for other in self.behaviours)


def stay(count, **more):
    """So many tasks that never sleep."""
    return (Behaviour(**{"runs": MS} | more),) * count


def naps(what, one, others, took=10 * S):
    """Task 0 falls asleep after each of its turns, which it naps for: until the next pick, where nothing else is said."""
    return Case(what, (one, *others), took=took)


def wake_seldom(what, count, one, others):
    """So many tasks begin asleep, and are woken at moments of their own."""
    return Case(what, (*(one,) * count, *others), watched=tuple(range(count)))


# A turn of 40 slices. Who rests for 0 ns wakes before the next pick.
HOG = 120 * MS
NAPPING = Behaviour(12 * MS, rests=0)
SHORT = 100 * US

# As in checks/cases/fair: task 1 runs for a moment, wakes task 2 and sleeps; task 2 runs for two slices, sleeps, and wakes task 1.
BY_TURNS = (Behaviour(6 * MS), Behaviour(SHORT, wakes_before=2), Behaviour(6 * MS, wakes_after=1, asleep=True))
RELAY = (Behaviour(500 * US, wakes_before=1), Behaviour(500 * US, wakes_before=0, asleep=True), *stay(2))

SHARES = (
    naps("naps after each slice, for 5 turns of others, beside one", Behaviour(3 * MS, rests_for_turns=5), stay(1)),
    naps("naps after each 40 slices, beside one", Behaviour(HOG, rests=0), stay(1), 24 * S),
    naps("naps after each 2 slices, for 5 turns of others, beside seven", Behaviour(6 * MS, rests_for_turns=5), stay(7)),
    naps("naps after each 4 slices, beside seven", Behaviour(12 * MS, rests=0), stay(7)),
    naps("naps after each 40 slices, beside seven", Behaviour(HOG, rests=0), stay(7), 24 * S),
    naps("naps after each quarter of a slice, beside seven of nice 5", Behaviour(750 * US, rests=0), stay(7, nice=5)),
    naps("of nice 5, naps after each 40 slices, beside seven", Behaviour(HOG, nice=5, rests=0), stay(7), 24 * S),
    naps("naps after each 40 slices, for 5 turns of others, beside 31", Behaviour(HOG, rests_for_turns=5), stay(31), 40 * S),
    naps("of nice -20, naps after each quarter of a slice, beside seven of nice 19", Behaviour(750 * US, nice=-20, rests=0),
         stay(7, nice=19)),
    Case("stays, beside two that sleep by turns", BY_TURNS),
    Case("two that wake each other each 0.5 ms, beside two", RELAY, watched=(0, 1)),
)

WAITS = (
    wake_seldom("one, for 1 ms of each 20 ms, beside seven", 1, Behaviour(MS, each=20 * MS, asleep=True), stay(7)),
    wake_seldom("four, for 2 ms of each 30 ms, beside seven", 4, Behaviour(2 * MS, each=30 * MS, asleep=True), stay(7)),
    wake_seldom("the same, all with slices of 0.1 ms", 4, Behaviour(2 * MS, slice_ns=SHORT, each=30 * MS, asleep=True),
                stay(7, slice_ns=SHORT)),
    wake_seldom("eight, for 2 ms of each 50 ms, beside 15", 8, Behaviour(2 * MS, each=50 * MS, asleep=True), stay(15)),
    wake_seldom("one, for 0.5 ms of each 10 ms, beside three and one that naps after each 12 ms", 1,
                Behaviour(500 * US, each=10 * MS, asleep=True), (NAPPING, *stay(3))),
    wake_seldom("four, for 4 ms of each 30 ms, beside seven and such a one", 4, Behaviour(4 * MS, each=30 * MS, asleep=True),
                (NAPPING, *stay(7))),
)

"""Patterns of dozes and wakes: who wakes, how long whoever is picked runs, and whether it dozes then. They are drawn and changed, and some
are kept that break a rule which falls short of a doze, or by which a task that sleeps loses."""

from dataclasses import dataclass, replace

from draw.machines import level, slice_length

MS = 1000000
STAYS = 0
# What a task that counts for nothing does in place of a doze.
OTHERS = ("sleep", "end", "begin", "renice", "yield", "set", "leave and come")
# What the tasks do in the rounds that come first: but for the first one anything, or all of them doze.
ANYTHING, DOZES = "anything", "dozes"


@dataclass(frozen=True)
class Round:
    """From one pick to the next."""

    wakes: tuple = ()
    runs: int = MS
    wakes_meanwhile: tuple = ()
    dozes: bool = True
    rebases: bool = False
    other: str = "sleep"


@dataclass(frozen=True)
class Pattern:
    """`tasks` are pairs of a nice level and a slice. Some tasks `stay`, task 0 among them: they never sleep. Some are `wild`, do anything,
    and count for nothing. `begun` is how many of the rounds come first, in which the tasks do what `begins` says; the rest is repeated."""

    tasks: tuple
    stay: frozenset
    wild: frozenset
    rounds: tuple
    begun: int = 0
    begins: str = ANYTHING

    def longest(self):
        return max(it.runs for it in self.rounds)


# What is kept.

def beside_one_that_stays(tasks, *rounds):
    return Pattern(tasks, frozenset({STAYS}), frozenset(), rounds)


def one_naps(one, others, runs, rests_for=0):
    """The last task naps after each of its turns, or for so many turns of others."""
    rounds = (Round((len(others),), runs), *(Round(),) * rests_for)
    return Pattern((*others, one), frozenset(range(len(others))), frozenset(), rounds)


@dataclass(frozen=True)
class Kept:
    """A pattern that breaks a law under each of these rules of plain/dozes.py. Where there are none, it is one by which a rule is refuted
    that harms no task that stays: the one that sleeps has less than its share there."""

    name: str
    pattern: Pattern
    rules: tuple = ()


ALIKE = ((0, 3 * MS),) * 3
LIGHT_BESIDE_HEAVY = ((19, 3 * MS), (5, 100 * MS), (-10, 3 * MS))
LEAVES_LATER = ("who is ahead leaves when it is picked", "who is ahead leaves once it isn't")

KEPT = (
    # Each falls asleep only after it ran, and each turn is two slices at most.
    Kept("two sleep by turns", beside_one_that_stays(ALIKE, Round((1,), MS // 10, (2,)), Round((2,), 6 * MS)),
         ("a doze is a sleep", "a wake is at its placement", "a debt is kept whole")),
    Kept("two owe by turns", beside_one_that_stays(
        ALIKE, Round((1, 2), 4600000, dozes=False), Round((1,), 550000, (1,)), Round((2,), 5700000)), ("a debt is kept whole",)),
    Kept("three alike", beside_one_that_stays(
        ALIKE, Round((), 360000), Round((1, 2), 6 * MS), Round((), 5400000, dozes=False), Round((1, 2), 3 * MS, (2,))), LEAVES_LATER),
    # By these rules task 0 has 2 ms of the first seconds, and nothing afterwards.
    Kept("a heavy one and two light ones", beside_one_that_stays(
        LIGHT_BESIDE_HEAVY, Round((2,), 2 * MS, (1,)), Round((2,), 2 * MS, (1,)), Round((), 4 * MS, (1,)),
        Round((2,), 170000, (1,), dozes=False)), LEAVES_LATER),
    Kept("a heavy one naps beside seven", one_naps((-20, 3 * MS), ((19, 3 * MS),) * 7, 750000)),
    Kept("one naps beside seven lighter ones", one_naps((0, 3 * MS), ((5, 3 * MS),) * 7, 750000)),
    Kept("one sleeps for five turns of another", one_naps((0, 3 * MS), ((0, 3 * MS),), 3 * MS, rests_for=5)),
)


# What is drawn.

def drawn_round(dice, count, longest):
    some = [task for task in range(count) if dice.random() < 0.3]
    meanwhile = [task for task in range(count) if dice.random() < 0.15]
    runs = longest if dice.random() < 0.5 else dice.randint(1, longest)
    return Round(tuple(some), runs, tuple(meanwhile), dice.random() < 0.6, dice.random() < 0.1, dice.choice(OTHERS))


def drawn_pattern(dice):
    count = dice.randint(2, dice.choice((3, 3, 5, 9)))
    alike = dice.random() < 0.4
    tasks = tuple((0 if alike else level(dice), 3000000 if alike else slice_length(dice)) for _ in range(count))
    longest = int(10 ** dice.uniform(4, 9))
    begun = dice.choice((0, 0, dice.randint(1, 20)))
    rounds = tuple(drawn_round(dice, count, longest) for _ in range(begun + dice.randint(1, 8)))
    stay = frozenset(task for task in range(count) if task == STAYS or dice.random() < 0.2)
    begins = dice.choice((ANYTHING, DOZES))
    wild = frozenset(task for task in range(count) if begins == ANYTHING and task not in stay and dice.random() < 0.15)
    return Pattern(tasks, stay, wild, rounds, begun, begins)


def changed(dice, pattern):
    """The pattern with one thing changed."""
    count, longest = len(pattern.tasks), pattern.longest()
    rounds, at = list(pattern.rounds), dice.randrange(len(pattern.rounds))
    match dice.randrange(6):
        case 0:
            rounds[at] = drawn_round(dice, count, longest)
        case 1:
            rounds[at] = replace(rounds[at], runs=max(1, int(rounds[at].runs * dice.choice((0.1, 0.5, 0.9, 1.1, 2))) % (10**9 + 1)))
        case 2:
            rounds[at] = replace(rounds[at], dozes=not rounds[at].dozes)
        case 3:
            turned = {task for task in range(count) if dice.random() < 0.4}
            rounds[at] = replace(rounds[at], wakes=tuple(sorted(turned ^ set(rounds[at].wakes))))
        case 4:
            rounds.insert(at, rounds[dice.randrange(len(rounds))])
        case _:
            tasks = list(pattern.tasks)
            tasks[dice.randrange(count)] = (level(dice), slice_length(dice))
            return replace(pattern, tasks=tuple(tasks))
    return replace(pattern, rounds=tuple(rounds))

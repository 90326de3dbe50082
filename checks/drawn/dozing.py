#!/usr/bin/env python3
"""dozing.py [--seconds N] [--seed SEED]: searches for a break of what is proved of dozes ("Dozes" of docs/model.md)
in the plain model, and tells how near it comes. A pattern says who wakes, how long whoever is picked runs, and whether it dozes then; task
0 never sleeps. The patterns that are kept come first, and others are drawn; each is repeated, and changed as long as it comes nearer. Of
rules that fall short of a doze a break has to be found of each, by the patterns that are kept for it or else by such a search. The last
line is 'N passed, M failed'."""

import argparse
import os
import random
import sys
import time
from pathlib import Path

sys.dont_write_bytecode = True
sys.path.append(str(Path(__file__).resolve().parents[1]))
from doze_laws import LAWS, Stretch
from doze_patterns import KEPT, changed, drawn_pattern
from plain.dozes import RULES, DozingQueue

# How many picks a pattern is repeated for, at each of which all is looked at, and how many changes of it are tried.
PICKS, CHANGES = 80, 25
# So many patterns are drawn at most until a rule that falls short is broken.
TRIES = 400


def part(is_so, bound):
    """How near a bound is come to: above 1 exactly where it is broken."""
    if is_so > bound:
        return 2.0 if bound <= 0 else max(1.0001, is_so / bound)
    return min(1.0, is_so / bound) if bound > 0 else 0.0


def nearest(pattern, rule):
    """For each law the nearest that a pattern comes to it, as a part of its bound."""
    stretch, found = Stretch(pattern, rule()), dict.fromkeys(LAWS, 0.0)

    def look(clauses):
        for name, is_so, bound in clauses:
            found[name] = max(found[name], part(is_so, bound))

    for it in pattern.rounds[:pattern.begun]:
        stretch.play(it, is_first=True)
        look(stretch.apart())
    stretch.begin()
    rounds = pattern.rounds[pattern.begun:]
    for at in range(PICKS):
        stretch.play(rounds[at % len(rounds)])
        look(stretch.clauses())
    return found


def nearest_law(found):
    return max(found, key=found.get)


def climb(dice, rule, pattern, best, law=None):
    """Changes a pattern where that brings it nearer to one law. `best` keeps the nearest to each."""
    found, law = nearest(pattern, rule), law or dice.choice(LAWS)
    keep_nearest(best, found, pattern)
    for _ in range(CHANGES):
        other = changed(dice, pattern)
        near = nearest(other, rule)
        if near[law] > found[law]:
            pattern, found = other, near
        keep_nearest(best, near, other)


def keep_nearest(best, found, pattern):
    for name, ratio in found.items():
        best[name] = max(best[name], (ratio, pattern), key=lambda it: it[0])


def breaks(dice, rule):
    """Whether a pattern is found that breaks a law under a rule, by how many tries."""
    for tries in range(1, TRIES + 1):
        best = dict.fromkeys(LAWS, (0.0, None))
        climb(dice, rule, drawn_pattern(dice), best)
        if any(ratio > 1 for ratio, _ in best.values()):
            return tries
    return None


class Count:
    """How much was as it should be."""

    def __init__(self):
        self.passed = self.failed = 0

    def look(self, is_right, told):
        print(told if is_right else f"FAILED: {told}")
        self.passed, self.failed = self.passed + is_right, self.failed + (not is_right)


def find_out(dice, count, name, rule):
    """A rule that falls short of a doze has to break a law, by each pattern that is kept for it."""
    kept = [it for it in KEPT if name in it.rules]
    for it in kept:
        found = nearest(it.pattern, rule)
        law = nearest_law(found)
        count.look(found[law] > 1, f"{name}, where {it.name}: {law} comes to {found[law]:.3f} of its bound")
    if not kept:
        tries = breaks(dice, rule)
        count.look(tries is not None, f"{name}: a law is broken at try {tries}")


def search(dice, seconds):
    """The nearest that any pattern comes to each law, and how many were begun with."""
    best, tries, end = dict.fromkeys(LAWS, (0.0, None)), 0, time.monotonic() + seconds
    for it in KEPT:
        found = nearest(it.pattern, DozingQueue)
        law = nearest_law(found)
        print(f"a doze, where {it.name}: {law} comes to {found[law]:.3f} of its bound")
        climb(dice, DozingQueue, it.pattern, best, law)
        tries += 1
    while time.monotonic() < end:
        climb(dice, DozingQueue, drawn_pattern(dice), best)
        tries += 1
    return best, tries


def main():
    words = argparse.ArgumentParser(description=__doc__)
    words.add_argument("--seconds", type=float, default=20)
    words.add_argument("--seed", default=str(int.from_bytes(os.urandom(4))))
    words = words.parse_args()
    print(f"seed {words.seed}")
    dice, count = random.Random(words.seed), Count()
    for name, rule in RULES.items():
        find_out(dice, count, name, rule)
    best, tries = search(dice, words.seconds)
    count.passed += tries
    for name, (ratio, pattern) in best.items():
        count.look(ratio <= 1, f"{name}: {ratio:.5f} of the bound at the nearest" + f", by {pattern}" * (ratio > 1))
    print(f"{count.passed} passed, {count.failed} failed")
    return count.failed > 0


if __name__ == "__main__":
    sys.exit(main())

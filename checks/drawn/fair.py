#!/usr/bin/env python3
"""fair.py [--seconds N] [--seed SEED] [--top TOP] [--model]: draws turns of one CPU, sends them to the built program `eevdf`, and looks
whether what it prints keeps within the bounds that "Fairness" of docs/model.md gives, and how near it comes to them. A turn is a pick
and then ticks of the task picked. Of the examples that are kept in checks/cases/fair one has to come near the bounds of `late`, `past`,
`rest`, `behind` and `apart`, two others those of a late request after a join and after two, and others to meet those of `ahead`, `owed`, a
share and a wait. With --model the plain model answers in place of the program. The last line is 'N passed, M failed'."""

import argparse
import os
import random
import re
import sys
import time
from fractions import Fraction
from pathlib import Path

sys.dont_write_bytecode = True
sys.path.append(str(Path(__file__).resolve().parents[1]))
from bounds import NEVER_MET, Seen, after_join, ahead, apart, behind, beyond, fair, has_passed, healed, joins, punctual, shares
from course import Course
from draw.machines import level, slice_length
from plain.numbers import BOUND, charge_of, weight_of
from plain.workbench import answer
from runner import Programs, TooSlow, status_of

EXAMPLES = Path(__file__).resolve().parent.parent / "cases/fair"
ASLEEP = re.compile(r"^asleep (\d+) ", re.M)
# A deed that has given a task a nice level, and a slice where it gives one.
GIVEN = re.compile(r"^(?:renice|begin|set) (\d+) (-?\d+)(?: (\d+))?: (?:reniced|begun|set)$", re.M)


class Comparison:
    def __init__(self, words):
        self.programs = None if words.model else Programs(words.top)
        self.nearest, self.passed, self.failed = {}, 0, 0

    def report(self, workload):
        if self.programs is None:
            out, status = answer(("solo",), workload.encode())
        else:
            printed = self.programs.run("eevdf", ["solo"], workload.encode())
            out, status = printed.out, printed.status
        if status != 0:
            raise SystemExit(f"status {status}: {out!r}\n{workload}")
        return out.decode()

    def look(self, clauses, workload):
        for name, is_so, bound in clauses:
            if is_so > bound or is_so == bound and name in NEVER_MET:
                self.failed += 1
                print(f"FAILED: {name}: {is_so} isn't within {bound}\n{workload}")
                return
            if bound > 0:
                self.nearest[name] = max(self.nearest.get(name, Fraction(0)), Fraction(is_so, bound))
        self.passed += 1


def workload_of(tasks, start, script):
    version = 4 if any(deed.startswith("doze") for deed in script) else 3
    rows = [f"version = {version}", "program = [[]]", f"script = [{', '.join(f'{chr(34)}0 {deed}{chr(34)}' for deed in script)}]"]
    for nice, length in tasks:
        rows += ["[[task]]", f"nice = {nice}", f"slice = {length}", f"start = {start}"]
    return "\n".join(rows) + "\n"


def turn(dice, longest):
    """A pick and ticks of at most so many nanoseconds in all, a few of them as short as can be."""
    cuts = sorted({0, longest, *(dice.randint(0, longest) for _ in range(dice.choice((0, 0, 0, 1, 4))))})
    if dice.random() < 0.1:
        cuts = sorted({*cuts, *range(min(longest, 5))})
    ticks = [b - a for a, b in zip(cuts, cuts[1:])]
    if dice.random() < 0.2:
        ticks.pop()
    return ["pick", *(f"tick {ns}" for ns in ticks)]


def drawn_tasks(dice):
    alike = dice.random() < 0.3
    return [(0 if alike else level(dice), slice_length(dice)) for _ in range(dice.randint(1, dice.choice((2, 4, 12, 40))))]


def drawn_start(dice, tasks):
    """A virtual runtime at which each can start, now and then one where its first request ends at the end of the range."""
    last = min(BOUND - charge_of(length, weight_of(nice)) for nice, length in tasks)
    return dice.choice((0, 0, -(10**9), 10**12, last, last - 10**7))


def leavings(dice, tasks, share):
    """A pick, and then a try to send asleep some of the tasks, of which the one that runs falls asleep; now and then some end besides."""
    ends = share / 4 if dice.random() < 0.3 else 0
    return ["pick", *(f"sleep {task}" for task in range(len(tasks)) if dice.random() < share),
            *(f"end {task}" for task in range(len(tasks)) if dice.random() < ends)]


def steps(dice, tasks, longest, most):
    """Turns, between which tasks fall asleep or end."""
    script = []
    for _ in range(dice.randint(0, most)):
        script += turn(dice, longest)
        if dice.random() < 0.2:
            script += leavings(dice, tasks, 0.5)
    return script


def draw_fresh(dice, comparison, tasks, longest, start):
    """Turns from a fresh start, and rebases: each task's share is looked at from one of the stages on."""
    script, begun = [], [0]
    for _ in range(dice.randint(1, 12)):
        script += ["rebase"] * (dice.random() < 0.2)
        for _ in range(dice.randint(1, 8)):
            script += turn(dice, longest)
        workload = workload_of(tasks, start, script)
        seen = Seen(comparison.report(workload), tasks)
        comparison.look([*fair(seen, longest), *shares(seen, longest, dice.choice(begun))], workload)
        begun.append(len(seen.charges))


def draw_leaving(dice, comparison, tasks, longest, start):
    """Turns from a fresh start, between which tasks fall asleep or end."""
    workload = workload_of(tasks, start, steps(dice, tasks, longest, 40))
    seen = Seen(comparison.report(workload), tasks)
    comparison.look([*punctual(seen, longest), *behind(seen, longest), *apart(seen, longest)], workload)


def draw_joining(dice, comparison, tasks, longest, start):
    """Turns and leavings from a fresh start, then a wake, and turns and leavings again."""
    script = steps(dice, tasks, longest, 20) + turn(dice, longest) + leavings(dice, tasks, 0.7) + steps(dice, tasks, longest, 3)
    text = comparison.report(workload_of(tasks, start, script))
    before, asleep = Seen(text, tasks), ASLEEP.findall(text)
    if not before.entries or not asleep:
        return
    look_at_join(dice, comparison, lambda more: workload_of(tasks, start, script + more), tasks, longest, before, int(dice.choice(asleep)))


def look_at_join(dice, comparison, workload_with, tasks, longest, before, number):
    """A wake, now and then of a task that has begun or was set meanwhile, and turns and leavings after it."""
    more = []
    if dice.random() < 0.4:
        given = (level(dice), slice_length(dice))
        more = [f"{dice.choice(('begin', 'set'))} {number} {given[0]} {given[1]}"]
        tasks = [*tasks[:number], given, *tasks[number + 1:]]
    more += [f"wake {number} from 0"]
    workload = workload_with(more)
    after = Seen(comparison.report(workload), tasks)
    if number not in after.entries:
        return
    comparison.look([*joins(before, after, number, tasks[number]), *after_join(before, after, longest, number, tasks[number])], workload)
    workload = workload_with(more + steps(dice, tasks, longest, 20))
    seen = Seen(comparison.report(workload), tasks)
    comparison.look(after_join(before, seen, longest, number, tasks[number]), workload)


def other_deed(dice, tasks):
    task = dice.randrange(len(tasks))
    given = f"{task} {level(dice)} {slice_length(dice)}"
    return dice.choice((f"sleep {task}", f"end {task}", f"begin {given}", *[f"wake {task} from 0"] * 3, "yield", "rebase",
                        f"renice {task} {level(dice)}", f"set {given}"))


def tasks_after(tasks, text):
    """The nice levels and slices after the deeds of a script that were done."""
    tasks = list(tasks)
    for task, nice, length in GIVEN.findall(text):
        tasks[int(task)] = (int(nice), int(length or tasks[int(task)][1]))
    return tasks


def has_caught_up(before, after, longest, front):
    """Whether what was charged brings the virtual time past a front and the others' turns."""
    charged = sum(1024 * ns - 1024 * ns % after.entries[task].weight for ns, task in after.charges[len(before.charges):])
    return before.weight * front + before.others(longest) < before.moment + charged


def draw_anywhere(dice, comparison, tasks, longest, start):
    """Any deeds, and then turns alone, or turns between which tasks fall asleep or end."""
    script = []
    for _ in range(dice.randint(1, 20)):
        script += turn(dice, 10 * longest if longest < 10**8 else longest) if dice.random() < 0.6 else [other_deed(dice, tasks)]
    text = comparison.report(workload_of(tasks, start, script))
    now = tasks_after(tasks, text)
    before = Seen(text, now)
    if not before.entries:
        return
    front = max(entry.v for entry in before.entries.values())
    if dice.random() < 0.4:
        look_at_leavings(dice, comparison, lambda more: workload_of(tasks, start, script + more), now, longest, front)
        return
    for _ in range(dice.randint(1, 40)):
        script += turn(dice, longest)
    workload = workload_of(tasks, start, script)
    after = Seen(comparison.report(workload), now)
    clauses = [*punctual(after, longest, front), *ahead(after, longest, front), *healed(after, longest, front)]
    comparison.look(clauses, workload)
    if not has_caught_up(before, after, longest, front):
        return
    for _ in range(dice.randint(0, 20)):
        script += turn(dice, longest)
    workload = workload_of(tasks, start, script)
    seen = Seen(comparison.report(workload), now)
    clauses = fair(seen, longest)
    if all(entry.d <= entry.v + entry.request for entry in before.entries.values()):
        clauses += shares(seen, longest, len(after.charges))
    comparison.look(clauses, workload)


def look_at_leavings(dice, comparison, workload_with, tasks, longest, front):
    """Turns and leavings from any state: where the virtual time has passed the front in the middle, all are punctual at the end, and so
    are the others after a wake."""
    more = steps(dice, tasks, longest, 30)
    middle = Seen(comparison.report(workload_with(more)), tasks)
    more += steps(dice, tasks, longest, 10)
    workload = workload_with(more)
    text = comparison.report(workload)
    after, asleep = Seen(text, tasks), ASLEEP.findall(text)
    clauses = [*punctual(after, longest, front), *healed(after, longest, front)]
    if has_passed(middle, longest, front):
        clauses += [*punctual(after, longest), *behind(after, longest)]
    comparison.look(clauses, workload)
    if has_passed(middle, longest, front) and after.entries and asleep:
        look_at_join(dice, comparison, lambda last: workload_with(more + last), tasks, longest, after, int(dice.choice(asleep)))


def draw_course(dice, comparison, tasks, longest, start):
    """Deeds of any kind in any order, but for ticks beyond a turn: several tasks join, also in the middle of a turn."""
    course = Course(dice, tasks, longest, start)
    for _ in range(dice.randint(1, dice.choice((10, 40, 150)))):
        course.go_on()
    workload = workload_of(tasks, start, course.script)
    text = comparison.report(workload)
    comparison.look(beyond(Seen(text, tasks_after(tasks, text)), longest, course.late, course.joined), workload)


def look_at_examples(comparison):
    late = ("a-request-is-late-by-almost-two-turns-of-the-others", [(0, 100000), (0, 100000), (0, 100000000)], 10**9)
    ahead = ("a-task-is-ahead-by-a-whole-turn-of-the-others", [(0, 3000000)] * 2, 10**6)
    off = ("a-task-is-off-its-share-by-a-whole-turn", [(0, 1000000), (0, 1500000)], 10**6)
    joined = ("a-request-is-late-after-a-join-by-almost-four-slices", [(0, 3000000)] * 2, 12 * 10**6)
    twice = ("a-request-is-late-after-two-joins-by-almost-nine-slices", [(0, 3000000)] * 3, 10**6)
    for (name, tasks, longest), looked_at, clause, least in (
        *((late, turns_alone, clause, Fraction(9999, 10000)) for clause in ("late", "past", "rest", "apart")),
        (late, turns_alone, "behind", Fraction(9998, 10000)),
        *((ahead, turns_alone, clause, Fraction(1)) for clause in ("ahead", "owed")),
        *((off, last_two_turns, clause, Fraction(1)) for clause in ("share", "wait")),
        (joined, last_wake, "late after a join", Fraction(11999998, 12000001)),
        (twice, last_wakes, "late after joins", Fraction(26999997, 27000002)),
    ):
        workload = (EXAMPLES / f"{name}.toml").read_text()
        clauses = looked_at(lambda text: Seen(comparison.report(text), tasks), workload, tasks, longest)
        nearest = max(Fraction(is_so, bound) for which, is_so, bound in clauses if which == clause)
        print(f"{name}: {clause}: {float(nearest):.7f} of the bound")
        if least <= nearest <= 1:
            comparison.passed += 1
        else:
            comparison.failed += 1
            print(f"FAILED: {name}: {clause}")


def turns_alone(seen_of, workload, tasks, longest):
    seen = seen_of(workload)
    return [*fair(seen, longest), *apart(seen, longest)]


def last_two_turns(seen_of, workload, tasks, longest):
    return shares(seen_of(workload), longest, 1)


def last_wake(seen_of, workload, tasks, longest):
    """The bounds of the others after the last deed, a wake of task 0."""
    before = seen_of(re.sub(r'  "[^"]*",\n\]', "]", workload))
    return list(after_join(before, seen_of(workload), longest, 0, tasks[0]))


def last_wakes(seen_of, workload, tasks, longest):
    """The bounds after the last two deeds, wakes of tasks 0 and 1, before which task 2 was alone."""
    course = Course(None, tasks, longest, 0)
    deeds = re.findall(r'^  "0 (.*)",$', workload, re.M)
    for number, deed in enumerate(deeds):
        name, *words = deed.replace(" from", "").split()
        course.follow((name, *map(int, words)))
        if number < len(deeds) - 2:
            course.begin_anew()
    return list(beyond(seen_of(workload), longest, course.late, course.joined))


def main():
    words = argparse.ArgumentParser(description=__doc__)
    words.add_argument("--seconds", type=float, default=20)
    words.add_argument("--seed", default=str(int.from_bytes(os.urandom(4))))
    words.add_argument("--top", default=os.environ.get("TOP", Path(__file__).resolve().parents[2]))
    words.add_argument("--model", action="store_true")
    words = words.parse_args()
    print(f"seed {words.seed}")
    dice = random.Random(words.seed)
    comparison = Comparison(words)
    look_at_examples(comparison)
    end = time.monotonic() + words.seconds
    while time.monotonic() < end and comparison.failed < 10:
        tasks, longest = drawn_tasks(dice), int(10 ** dice.uniform(dice.choice((0, 3, 3, 5)), 9))
        draw = dice.choice((draw_fresh, draw_leaving, draw_joining, draw_anywhere, draw_course))
        try:
            draw(dice, comparison, tasks, longest, drawn_start(dice, tasks))
        except TooSlow as why:
            print(f"skipped: drawn turns: {why}")
            break
    for name, nearest in sorted(comparison.nearest.items()):
        print(f"{name}: {float(nearest):.5f} of the bound at the nearest")
    print(f"{comparison.passed} passed, {comparison.failed} failed")
    return comparison.failed > 0


if __name__ == "__main__":
    sys.exit(status_of(main))

"""What a report shows of a queue, and the bounds that "Fairness" of docs/model.md gives of it."""

import re
from dataclasses import dataclass

from plain.numbers import charge_of, weight_of

TASK = re.compile(r"^task (\d+) v (-?\d+) d (-?\d+) ", re.M)
CHARGED = re.compile(r"^tick (\d+): charged (\d+)", re.M)


@dataclass(frozen=True)
class Entry:
    v: int
    d: int
    weight: int
    request: int


class Seen:
    """A queue as the report has it, by the tasks that the workload has: pairs of a nice level and a slice."""

    def __init__(self, text, tasks):
        self.entries = {}
        for number, v, d in TASK.findall(text):
            nice, length = tasks[int(number)]
            self.entries[int(number)] = Entry(int(v), int(d), weight_of(nice), charge_of(length, weight_of(nice)))
        self.weight = sum(entry.weight for entry in self.entries.values())
        self.moment = sum(entry.weight * entry.v for entry in self.entries.values())
        self.charges = [(int(ns), int(task)) for ns, task in CHARGED.findall(text)]

    def others(self, longest):
        return (len(self.entries) - 1) * 1024 * longest


# The clauses, each as its name, what is bounded and what bounds it. Both sides are times the weight of all where the virtual time is
# spoken of, and of a late request that is less than the bound and never meets it.
NEVER_MET = ("late", "late after a join")


def punctual(seen, longest, front=None):
    """No request is late, counted from a front where its deadline lies before that."""
    weight, moment, others = seen.weight, seen.moment, seen.others(longest)
    for entry in seen.entries.values():
        due = entry.d if front is None else max(entry.d, front)
        for other in seen.entries.values():
            yield "past", other.v - due, charge_of(longest, other.weight)
        yield "late", moment - weight * due, others
        yield "rest", moment - weight * due + entry.weight * (due - entry.v), others


def behind(seen, longest):
    """No task is behind; one that has yielded may be."""
    for entry in seen.entries.values():
        if entry.d <= entry.v + entry.request:
            yield "behind", seen.moment - seen.weight * entry.v, (seen.weight - entry.weight) * entry.request + seen.others(longest)


def apart(seen, longest):
    """No task is far past another."""
    for entry in seen.entries.values():
        for other in seen.entries.values():
            yield "apart", entry.v - other.v, other.request + charge_of(longest, entry.weight)


def ahead(seen, longest, front=None):
    """No task is ahead, of those that are past a front."""
    for entry in seen.entries.values():
        if front is None or front < entry.v:
            yield "ahead", seen.weight * entry.v - seen.moment, (seen.weight - entry.weight) * charge_of(longest, entry.weight)


def owed(seen, longest):
    """No task is owed more than turns of the others."""
    for entry in seen.entries.values():
        most = seen.weight * seen.others(longest) - (seen.weight - entry.weight) * 1024 * longest
        yield "owed", entry.weight * (seen.moment - seen.weight * entry.v), most


def has_passed(seen, longest, front):
    return seen.weight * front + seen.others(longest) < seen.moment


def healed(seen, longest, front):
    """Once the virtual time is past a front by the others' turns, so is each deadline past it."""
    if has_passed(seen, longest, front):
        for entry in seen.entries.values():
            yield "healed", front + 1 - entry.d, 0


def fair(seen, longest):
    return [*punctual(seen, longest), *behind(seen, longest), *ahead(seen, longest), *owed(seen, longest)]


def most_lost(weight):
    """The most that rounding takes from a charge of this weight, in weight times virtual time."""
    return 0 if weight == 1024 else weight - 1


def longest_wait(charges, entries, task):
    """What the others were charged for, in weight times virtual time, while the task didn't run at all."""
    longest, now = 0, 0
    for ns, charged in charges:
        now = 0 if charged == task else now + 1024 * ns - 1024 * ns % entries[charged].weight
        longest = max(longest, now)
    return longest


def shares(seen, longest, first=0):
    """The share of each task since this one of the charges, before which nothing but turns happened since a fresh start or healing. With
    what rounding took, by how many charges there were, and in time alone, by the shortest of the ticks; and how long it waits."""
    charges = seen.charges[first:]
    ran, lost = dict.fromkeys(seen.entries, 0), dict.fromkeys(seen.entries, 0)
    for ns, task in charges:
        ran[task] += ns
        lost[task] += 1024 * ns % seen.entries[task].weight
    whole, part = sum(ran.values()), sum(lost.values())
    least = min((ns for ns, _ in charges), default=0)
    most = max(most_lost(entry.weight) for entry in seen.entries.values())
    for task, entry in seen.entries.items():
        light, weight = seen.weight - entry.weight, entry.weight
        by_slice = weight * (light * (entry.request + charge_of(longest, weight)) + seen.others(longest))
        swing = min(by_slice, seen.weight * seen.others(longest))
        off = seen.weight * (1024 * ran[task] - lost[task]) - weight * (1024 * whole - part)
        yield "share", abs(off), swing
        own = sum(charged == task for _, charged in charges)
        ahead_by_charges = 1024 * (seen.weight * ran[task] - weight * whole)
        yield "share by charges at most", ahead_by_charges, seen.weight * most_lost(weight) * own + swing
        yield "share by charges at least", -ahead_by_charges, weight * most * len(charges) + swing
        ahead_in_time = 1024 * least * (seen.weight * ran[task] - weight * whole)
        yield "share of time at most", ahead_in_time, seen.weight * most_lost(weight) * ran[task] + least * swing
        yield "share of time at least", -ahead_in_time, weight * most * whole + least * swing
        yield "wait", weight * longest_wait(charges, seen.entries, task), swing


def lag_limit(task):
    nice, length = task
    return charge_of(2 * length, weight_of(nice))


def joins(before, after, number, task):
    """Where a task stands that has just joined others, and how late it makes these."""
    weight, limit, entry = before.weight, lag_limit(task), after.entries[number]
    far = weight + limit * after.weight
    yield "near", weight * entry.v - before.moment, far
    yield "near", abs(after.weight * entry.v - after.moment), far
    for other in before.entries.values():
        late = max(0, before.moment - weight * other.d)
        now = weight * (after.moment - after.weight * other.d)
        yield "later", now, (late + entry.weight * limit) * after.weight + entry.weight * weight


def after_join(before, seen, longest, number, task):
    """No request of the others is late after turns and leavings from there on, and none of them is behind that hasn't yielded."""
    weight = weight_of(task[0])
    reach = (before.others(longest) + lag_limit(task) * (before.weight + weight)) // before.weight + 1
    most = seen.others(longest) + max(0, weight * reach - 1024 * longest)
    for other, entry in seen.entries.items():
        if other != number:
            yield "late after a join", seen.moment - seen.weight * entry.d, most
            if entry.d <= entry.v + entry.request:
                yield "behind after a join", seen.moment - seen.weight * entry.v, seen.weight * entry.request + most


def beyond(seen, longest, late, joined):
    """No request is late by more than turns of the others and what the joins add, but for those of tasks that have joined themselves; and
    none of these tasks is behind that hasn't yielded."""
    most = seen.others(longest) + late
    for task, entry in seen.entries.items():
        if task not in joined:
            yield "late after joins", seen.moment - seen.weight * entry.d, most
            if entry.d <= entry.v + entry.request:
                yield "behind after joins", seen.moment - seen.weight * entry.v, seen.weight * entry.request + most

"""What the tasks of a timeline did: what is said of each stretch, and the times in which a task waited or slept."""

from collections import defaultdict
from dataclasses import dataclass


@dataclass(frozen=True)
class Turn:
    cpu: int
    task: int
    begin: int
    end: int
    waited: int
    # from its wake, or None where it has run since
    delay: int | None
    why: str


def is_in(window, begin, end):
    """Whether what lasts from a begin to an end shares time with a window, or is itself a moment of it."""
    first, last = window
    return begin < last and first < end if begin < end else first <= begin <= last


def changes_of(timeline):
    """Of each task the moments at which it falls asleep or ends, and those at which it wakes: (time, whether it sleeps)."""
    changes = defaultdict(list)
    for moment in timeline.moments:
        if moment.answer.startswith("slept") or moment.answer in ("ended", "woken"):
            changes[moment.deed[1]].append((moment.begin, moment.answer != "woken"))
    return changes


def why_of(task, after):
    """What ended a stretch of a task, by the deeds of its CPU after its last tick."""
    for moment in after:
        word, *rest = moment.answer.split()
        if word in ("slept", "yielded") or word == "ended" and moment.deed[1] == task:
            return word
        if word == "picked" and int(rest[0]) != task:
            return "preempted"
        if word == "charged":
            return "gap"
    return "-"


def turns_of(timeline):
    """The stretches in the order in which they began in the history."""
    moments = timeline.moments
    of_cpu = defaultdict(list)
    for at, moment in enumerate(moments):
        of_cpu[moment.cpu].append(at)
    firsts = {(moment.cpu, moment.begin): at for at, moment in enumerate(moments) if moment.charged() is not None}
    lasts = {(moment.cpu, moment.end): at for at, moment in enumerate(moments) if moment.charged() is not None}
    runs = defaultdict(list)
    for cpu, task, begin, end in timeline.stretches:
        runs[task].append((firsts[cpu, begin], lasts[cpu, end], cpu, begin, end))
    turns = {}
    for task, stretches in runs.items():
        since, woken, last = 0, None, -1
        for first, final, cpu, begin, end in sorted(stretches):
            for moment in moments[last + 1:first]:
                if moment.answer == "woken" and moment.deed[1] == task:
                    since = woken = moment.begin
            after = (moments[at] for at in of_cpu[cpu] if at > final)
            turns[first] = Turn(cpu, task, begin, end, begin - since, None if woken is None else begin - woken, why_of(task, after))
            since, woken, last = end, None, final
    return [turns[first] for first in sorted(turns)]


def rests_of(timeline):
    """(task, whether it sleeps, begin, end) of each time in which a task waits or sleeps. A wait ends with what the task's CPU did last, and
    a sleep with the whole history."""
    clocks = {cpu: max((moment.end for moment in timeline.moments if moment.cpu == cpu), default=0) for cpu in range(timeline.setup.cpus())}
    changes, rests = changes_of(timeline), []
    for number, task in enumerate(timeline.setup.tasks):
        own = [(begin, end) for _, other, begin, end in timeline.stretches if other == number]
        home = [cpu for cpu, queue in enumerate(timeline.queues) if number in queue.runnable]
        states = [(0, task.asleep), *changes[number], (clocks[home[0]] if home else timeline.end(), None)]
        for (begin, sleeps), (end, _) in zip(states, states[1:]):
            rests += [(number, sleeps, *rest) for rest in ([(begin, end)] if sleeps else without(begin, end, own)) if rest[0] < rest[1]]
    return rests


def without(begin, end, runs):
    """What of a time isn't in one of these, which are in order."""
    for run_begin, run_end in sorted(runs):
        if run_begin < end and begin < run_end:
            yield begin, max(begin, run_begin)
            begin = min(run_end, end)
    yield begin, end

"""What a time shows of the tasks of a timeline, on some of its CPUs."""

from model import shared
from turns import is_in

# So many tasks have curves at most.
MOST_CURVES = 16


def stays_of(timeline):
    """(task, CPU, begin, end) of each time in which a task is runnable on a CPU. What hasn't ended ends with what the CPU did last."""
    clocks = {moment.cpu: moment.end for moment in timeline.moments}
    for number, task in enumerate(timeline.setup.tasks):
        at = None if task.asleep else (task.home, 0)
        for moment in timeline.moments:
            word, *rest = moment.answer.split()
            if word == "pulled" and int(rest[0]) == number:
                yield number, *at, moment.other
                at = moment.cpu, moment.begin
            elif word in ("slept", "ended") and moment.deed[1] == number:
                yield number, *at, moment.begin
                at = None
            elif word == "woken" and moment.deed[1] == number:
                at = moment.cpu, moment.begin
        if at is not None:
            yield number, *at, clocks.get(at[0], 0)


class Shown:
    """The tasks that are runnable on these CPUs in a window, or that a deed of it there concerns, the deeds, and the tasks with curves."""

    def __init__(self, timeline, window, cpus):
        deeds = [(moment, task) for moment, task in zip(timeline.moments, timeline.concerned)
                 if moment.cpu in cpus and is_in(window, moment.begin, moment.end)]
        self.deeds = len(deeds)
        runnable = {task for task, cpu, begin, end in stays_of(timeline) if cpu in cpus and is_in(window, begin, end)}
        self.tasks = sorted(runnable | {task for _, task in deeds if task is not None})
        ran = dict.fromkeys(self.tasks, 0)
        for moment, task in deeds:
            if moment.charged() is not None:
                ran[task] += shared(window, moment.begin, moment.end)
        self.curves = sorted(sorted(self.tasks, key=lambda task: (-ran[task], task))[:MOST_CURVES])

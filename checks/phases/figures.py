"""What each task comes to, by the plain model: the output of `--stats`."""

from dataclasses import dataclass, field
from fractions import Fraction
from math import ceil

from model import Machine
from plain.numbers import weight_of

HEAD_OF_TIMERS = "timers: missed periods"
HEAD_OF_ARRIVALS = "arrivals: begun, late, ended; stay mean ns, p99 ns, longest ns"
HEAD = ("task: ran ns, share, fair share; waits, mean ns, p99 ns, longest ns; requests, late, latest virtual ns; sleeps; pulls")


@dataclass(eq=False)
class Figures:
    """What a task comes to, or all that arrive of a name."""

    name: str
    ran: int = 0
    fair: Fraction = Fraction(0)
    waits: list = field(default_factory=list)
    # by how much each request that was used up was late, or 0
    requests: list = field(default_factory=list)
    sleeps: int = 0
    pulls: int = 0
    begun: int = 0
    late: int = 0
    stays: list = field(default_factory=list)
    has_timer: bool = False
    missed: int = 0

    def row(self, lasts):
        return (f"{self.name}: {self.ran}, {share_text(self.ran, lasts)}, {share_text(self.fair, lasts)}; {len(self.waits)}, "
                f"{times_text(self.waits)}; {requests_text(self.requests)}; {self.sleeps}; {self.pulls}")

    def row_of_arrivals(self):
        return f"{self.name}: {self.begun}, {self.late}, {len(self.stays)}; {times_text(self.stays)}"


@dataclass(eq=False)
class Counted:
    """A number, with the figures that it counts for."""

    figures: Figures
    weight: int
    since: int | None


def times_text(times):
    mean = sum(times) // len(times) if times else 0
    return f"{mean}, {most_of_99(times)}, {max(times, default=0)}"


def requests_text(requests):
    return f"{len(requests)}, {len(requests) - requests.count(0)}, {max(requests, default=0)}"


def lateness(queue, deadline):
    """By how much the virtual time was past a deadline when it was used up, in a tick that may have gone on beyond that."""
    entry = queue.runnable[queue.running]
    beyond = Fraction((entry.v - deadline) * entry.weight(), queue.load())
    return max(0, queue.virtual_time() - ceil(beyond) - deadline)


def figures_of(actors):
    """The figures of each actor, which those of one name share where they arrive."""
    by_name = {}
    for actor in actors:
        name = actor.kind.name if actor.kind.every else actor.name
        by_name.setdefault(name, Figures(name))
    return by_name


def has_timer(phases):
    return any(phase[0] == "timer" or phase[0] == "loop" and has_timer(phase[2]) for phase in phases)


def share_text(time, lasts):
    share = time * 10000 // lasts
    return f"{share // 100}.{share % 100:02} %"


def most_of_99(waits):
    """The wait that 99 of 100 don't pass, with its binary digits behind the sixth as ones, or the longest where that is less."""
    if not waits:
        return 0
    wait = sorted(waits)[len(waits) - len(waits) // 100 - 1]
    behind = (1 << max(0, wait.bit_length() - 6)) - 1
    return min(wait | behind, max(waits))


def figure_lines(plan):
    machine = Machine(plan)
    rows = figures_of(machine.actors)
    tasks = [Counted(rows[actor.kind.name if actor.kind.every else actor.name], weight_of(actor.kind.nice),
                     None if actor.is_free or actor.kind.begins > 0 else 0) for actor in machine.actors]
    running = [None] * plan.cpus
    # those that can run, by CPU
    able = [[task for task, actor in zip(tasks, machine.actors) if actor.home == cpu and task.since == 0] for cpu in range(plan.cpus)]
    # the deadline of the request of the task that runs, by CPU
    deadlines = [None] * plan.cpus
    for cpu, deed, answer, now, _name in machine.deeds():
        words = answer.split()
        queue = machine.queues[cpu]
        if words[0] == "charged" and words[-1] == "resched":
            tasks[int(words[1])].figures.requests.append(lateness(queue, deadlines[cpu]))
        deadlines[cpu] = queue.runnable[queue.running].d if queue.running is not None else None
        if deed[0] == "tick":
            load = sum(task.weight for task in able[cpu])
            for task in able[cpu]:
                task.figures.fair += Fraction(deed[1] * task.weight, load)
        if words[0] == "charged":
            tasks[int(words[1])].figures.ran += deed[1]
        elif words[0] == "picked":
            task = tasks[int(words[1])]
            if running[cpu] is not None and running[cpu] is not task:
                running[cpu].since = now
            if running[cpu] is not task:
                task.figures.waits.append(now - task.since)
                task.since = None
            running[cpu] = task
        elif words[0] == "pulled":
            task = tasks[int(words[1])]
            task.figures.pulls += 1
            able[deed[1]].remove(task)
            able[cpu].append(task)
        elif words[0] == "woken":
            tasks[deed[1]].since = now
            able[cpu].append(tasks[deed[1]])
        elif words[0] == "reniced":
            tasks[deed[1]].weight = weight_of(deed[2])
        elif words[0] == "begun":
            tasks[deed[1]].weight = weight_of(deed[2])
            tasks[deed[1]].figures.begun += 1
            tasks[deed[1]].figures.late += machine.actors[deed[1]].arrived < now
        elif words[0] in ("slept", "ended"):
            if words[0] == "slept":
                running[cpu].figures.sleeps += 1
            elif machine.actors[deed[1]].kind.every:
                running[cpu].figures.stays.append(now - machine.actors[deed[1]].arrived)
            able[cpu].remove(running[cpu])
            running[cpu] = None
    names = {kind.name for kind in plan.kinds if kind.every}
    arriving = [row for row in rows.values() if row.name in names]
    for task, actor in zip(tasks, machine.actors):
        task.figures.has_timer = has_timer(actor.kind.phases)
        task.figures.missed += actor.missed
    timed = [row for row in rows.values() if row.has_timer]
    return ([HEAD] + [row.row(plan.lasts) for row in rows.values()]
            + [HEAD_OF_ARRIVALS] * bool(arriving) + [row.row_of_arrivals() for row in arriving]
            + [HEAD_OF_TIMERS] * bool(timed) + [f"{row.name}: {row.missed}" for row in timed])

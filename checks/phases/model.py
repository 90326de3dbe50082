"""Drives a machine by a workload of phases: "What happens when" of docs/phases.md, over the plain queues of checks/drawn/."""

import sys
from pathlib import Path

sys.path.append(str(Path(__file__).resolve().parents[1] / "drawn"))

from plain.machine import Setup, Task, queues_at_start, whole  # noqa: E402

WORD = (1 << 64) - 1
LONGEST_TICK = 1000000000
MOST_TASKS = 1024


def words_from(state):
    """The words of splitmix64."""
    while True:
        state = state + 0x9E3779B97F4A7C15 & WORD
        word = state
        word = (word ^ word >> 30) * 0xBF58476D1CE4E5B9 & WORD
        word = (word ^ word >> 27) * 0x94D049BB133111EB & WORD
        yield word ^ word >> 31


def steps_of(phases):
    """The phases of a task, one after the other, without end."""
    for phase in phases:
        if phase[0] == "loop":
            for _round in range(phase[1]):
                yield from steps_of(phase[2])
        else:
            yield phase


def for_ever(phases):
    while True:
        yield from steps_of(phases)


def generator_of(seed, number):
    return words_from(seed ^ next(words_from(number)))


def draw(words, bounds):
    least, most = bounds
    return least if least == most else least + next(words) % (most - least + 1)


class Arrivals:
    """The moments at which the tasks of a name arrive that haven't begun, of which the next one is drawn."""

    def __init__(self, kind, place, seed):
        self.kind, self.words = kind, generator_of(seed, MOST_TASKS + place)
        self.left = kind.arrivals
        self.next = kind.begins

    def take(self):
        arrived = self.next
        self.next += draw(self.words, self.kind.every)
        if self.left is not None:
            self.left -= 1
        return arrived


class Actor:
    def __init__(self, number, kind, name, home, seed):
        self.number, self.kind, self.name, self.home = number, kind, name, home
        self.words = generator_of(seed, number)
        self.is_suspended = False
        self.missed = 0
        self.is_free = kind.every is not None
        self.begin(kind.begins)
        self.sleeps_until = kind.begins if kind.begins > 0 and not self.is_free else None

    def begin(self, moment):
        self.begun = moment
        # the last moment to which it slept by a timer, or at which it began
        self.timer = moment
        self.phases = for_ever(self.kind.phases)
        self.next_phase = next(self.phases)
        self.left = 0

    def draw(self, bounds):
        return draw(self.words, bounds)

    def go_on(self):
        self.next_phase = next(self.phases)

    def timer_after(self, now, period):
        """The next moment of a timer. Those that came since the last one are missed."""
        moment = self.begun + ((self.timer - self.begun) // period + 1) * period
        while moment <= now:
            self.missed += 1
            moment += period
        self.timer = moment
        return moment


class Cpu:
    def __init__(self):
        self.charged = 0
        self.task = None
        self.picks = "soon"
        self.has_woken = False
        # how many of the others were looked at, or None where there is no reason to look
        self.looked = None
        self.heard = 0


class Machine:
    def __init__(self, plan):
        self.plan = plan
        self.actors = []
        for kind in plan.kinds:
            for number in range(kind.count):
                name = kind.name if kind.count == 1 else f"{kind.name}.{number}"
                home = number % plan.cpus if kind.home is None else kind.home
                self.actors.append(Actor(len(self.actors), kind, name, home, plan.seed))
        tasks = [Task(actor.home, actor.kind.nice, actor.kind.slice, 0, actor.is_free or actor.kind.begins > 0) for actor in self.actors]
        self.setup = Setup(tasks, [[] for _ in range(plan.cpus)])
        self.queues = queues_at_start(self.setup)
        self.cpus = [Cpu() for _ in range(plan.cpus)]
        self.arrivals = [Arrivals(kind, place, plan.seed) for place, kind in enumerate(plan.kinds) if kind.every is not None]
        self.kept = {kind.name: 0 for kind in plan.kinds}
        self.now = 0

    # When something happens.

    def has_others(self, number):
        return len(self.queues[number].runnable) >= 2

    def next_turn(self, number):
        """The moment at which a CPU has something to do, or None."""
        cpu = self.cpus[number]
        if cpu.picks:
            return self.now
        if cpu.task is None:
            return self.now if self.plan.pull and cpu.looked is not None and cpu.looked < len(self.cpus) else None
        moments = [cpu.charged + cpu.task.left]
        if self.plan.tick:
            moments.append((cpu.heard // self.plan.tick + 1) * self.plan.tick)
        elif self.has_others(number):
            left = self.queues[number].time_to_resched()
            moments.append(cpu.charged + (LONGEST_TICK if left is None else left))
        return min(moments)

    def deeds(self):
        """Each deed as it is done: (CPU, deed, answer, moment, name of the task that it concerns)."""
        while (deed := self.next_deed()) is not None:
            cpu, operation = deed
            answer = whole(self.setup, self.queues, cpu, operation)
            self.learn(cpu, operation, answer)
            yield cpu, operation, answer, self.cpus[cpu].charged, self.concerned(operation, answer)

    def concerned(self, operation, answer):
        words = answer.split()
        if words[0] in ("charged", "picked", "pulled"):
            return self.actors[int(words[1])].name
        return self.actors[operation[1]].name if operation[0] in ("sleep", "doze", "wake", "renice", "begin", "end") else "-"

    def next_deed(self):
        while True:
            turns = [(moment, number) for number in range(len(self.cpus)) if (moment := self.next_turn(number)) is not None]
            sleeps = [(actor.sleeps_until, actor.number) for actor in self.actors if actor.sleeps_until is not None]
            comes = [(arrivals.next, place) for place, arrivals in enumerate(self.arrivals) if arrivals.left != 0 and self.free(arrivals.kind)]
            # one that found no number free has come before now
            first = max(self.now, min([moment for moment, _number in turns + sleeps + comes], default=self.plan.lasts))
            if first >= self.plan.lasts:
                self.now = self.plan.lasts
                return self.first_charge(range(len(self.cpus)))
            self.now = first
            if sleeps and min(sleeps)[0] == first:
                return self.wake(self.actors[min(sleeps)[1]])
            if comes and min(comes)[0] <= first:
                arrivals = self.arrivals[min(comes)[1]]
                return self.begin(self.free(arrivals.kind)[0], arrivals)
            deed = self.turn(min(turns)[1])
            if deed is not None:
                return deed

    def first_charge(self, numbers):
        return next((charge for number in numbers if (charge := self.charge(number)) is not None), None)

    def charge(self, number):
        since = self.now - self.cpus[number].charged
        return (number, ("tick", min(since, LONGEST_TICK))) if since else None

    def wake(self, actor):
        charge = self.charge(actor.home)
        if charge is not None:
            return charge
        actor.sleeps_until = None
        return actor.home, ("wake", actor.number, actor.home)

    def free(self, kind):
        return [actor for actor in self.actors if actor.kind is kind and actor.is_free]

    def begin(self, actor, arrivals):
        charge = self.charge(actor.home)
        if charge is not None:
            return charge
        actor.arrived = arrivals.take()
        actor.begin(self.now)
        actor.is_free = False
        actor.sleeps_until = self.now
        return actor.home, ("begin", actor.number, actor.kind.nice, actor.kind.slice)

    # What a CPU does in its turn.

    def turn(self, number):
        cpu = self.cpus[number]
        charge = self.charge(number)
        if charge is not None:
            return charge
        self.hear(cpu)
        if cpu.picks == "at once":
            return number, ("pick",)
        if cpu.task is not None:
            deed = self.go_on(number, cpu.task)
            if deed is not None:
                return deed
        if cpu.picks == "soon":
            return number, ("pick",)
        if cpu.task is None and self.plan.pull:
            return self.look(number)
        return None

    def hear(self, cpu):
        tick = self.plan.tick
        if tick and cpu.task is not None and self.now // tick > cpu.heard // tick:
            cpu.heard = self.now
            if cpu.has_woken:
                self.pick_soon(cpu)

    def pick_soon(self, cpu):
        cpu.picks = cpu.picks or "soon"

    def look(self, number):
        cpu = self.cpus[number]
        if cpu.looked is None:
            return None
        for steps in range(cpu.looked + 1, len(self.cpus)):
            source = (number + steps) % len(self.cpus)
            if self.has_others(source):
                charge = self.charge(source)
                if charge is not None:
                    return charge
                cpu.looked = steps
                return number, ("pull", source)
        cpu.looked = None
        return None

    def go_on(self, number, actor):
        while actor.left == 0:
            phase = actor.next_phase
            word = phase[0]
            if word == "resume":
                deed, is_over = self.resume(number, phase[1])
                if is_over:
                    actor.go_on()
                if deed is not None:
                    return deed
                continue
            actor.go_on()
            if word == "run":
                actor.left = actor.draw(phase[1])
            elif word == "sleep":
                return self.fall_asleep(number, actor, self.now + actor.draw(phase[1]))
            elif word == "timer":
                return self.fall_asleep(number, actor, actor.timer_after(self.now, phase[1]))
            elif word == "suspend":
                if self.kept[actor.kind.name]:
                    self.kept[actor.kind.name] -= 1
                else:
                    actor.is_suspended = True
                    return self.fall_asleep(number, actor, None)
            elif word == "end":
                self.leave(number)
                actor.is_free = actor.kind.every is not None
                return number, ("end", actor.number)
            else:
                self.cpus[number].picks = "at once"
                return number, ("yield",) if word == "yield" else ("renice", actor.number, phase[1])
        return None

    def resume(self, number, name):
        """The deed that a resume comes to, if it comes to one, and whether the phase is over then."""
        suspended = [actor for actor in self.actors if actor.kind.name == name and actor.is_suspended]
        if not suspended:
            self.kept[name] += 1
            return None, True
        woken = suspended[0]
        charge = self.charge(woken.home)
        if charge is not None:
            return charge, False
        woken.is_suspended = False
        return (woken.home, ("wake", woken.number, number)), True

    def fall_asleep(self, number, actor, moment):
        actor.sleeps_until = moment
        self.leave(number)
        return number, (self.plan.sleep, actor.number)

    def leave(self, number):
        self.cpus[number].task = None
        self.pick_soon(self.cpus[number])

    # What is learned of an answer.

    def learn(self, number, operation, answer):
        cpu = self.cpus[number]
        word = operation[0]
        if word == "tick":
            self.has_ticked(number, operation[1], answer)
        elif word == "pick":
            cpu.picks, cpu.has_woken = None, False
            cpu.task = None if answer == "idle" else self.actors[int(answer.split()[1])]
            if cpu.task is None:
                cpu.looked = 0
            else:
                cpu.heard = self.now
        elif word == "wake":
            self.has_woken(number)
        elif word == "pull" and answer.startswith("pulled"):
            cpu.picks = "at once"

    def has_ticked(self, number, length, answer):
        cpu = self.cpus[number]
        cpu.charged += length
        if answer == "idle":
            return
        cpu.task.left = max(0, cpu.task.left - length)
        if answer.endswith("resched") and self.has_others(number):
            self.pick_soon(cpu)

    def has_woken(self, number):
        cpu = self.cpus[number]
        cpu.has_woken = True
        if cpu.task is None or self.plan.preempt == "wakeup":
            self.pick_soon(cpu)
        if self.has_others(number):
            for other in self.cpus:
                if other.task is None and not other.picks:
                    other.looked = 0

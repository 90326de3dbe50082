#!/usr/bin/env -S python3 -B
"""checks/idle_flags.py: tries every interleaving of three CPUs that wait for interrupts by the protocol of docs/fleets.md, "Parking", which
crates/eevdf_uses/src/parking.rt has. A step is one access to a queue, a ring, what a CPU says of itself, or its interrupt. The CPUs begin
with some tasks and post some wakes, and some running tasks sleep. Every run has to end, and at no end may a CPU that has nothing wait
beside a crowded one, a request lie in a ring, or a CPU wait for an interrupt that nobody sends. Each of some mistakes in the protocol has to
be found. What is tried is bounded by what the CPUs do, and not by time. The last line is 'N passed, M failed'."""

import sys
from collections import namedtuple

from runner import Checks

CPUS = 3
# What a CPU says of itself.
AT_WORK, RUNS_ON, IDLES = range(3)

# A CPU: its step, with a place in a loop over CPUs; what it is about (AT_WORK, or what it says before it waits); what it says; whether an
# interrupt has come; how many tasks run or wait on it; whether its drain has taken anything, and whether it has idled since it last got a
# task; the homes to which it is to post, and how many sleeps are left to its tasks.
Cpu = namedtuple("Cpu", "step place about says interrupted tasks took idled posts sleeps")

# Cases: the tasks of each CPU, the homes to which it posts, and the sleeps of its tasks.
CASES = {
    "two CPUs wake tasks of a third": ((1, 0, 0), ((), (0,), (0,)), (0, 0, 0)),
    "a CPU that idles gets a wake of its own": ((1, 0, 0), ((), (0, 2), (0,)), (0, 0, 0)),
    "each CPU wakes a task of the next": ((1, 0, 0), ((1,), (2,), (0,)), (0, 0, 0)),
    "a task sleeps meanwhile": ((1, 1, 0), ((), (0,), (0,)), (1, 0, 0)),
    "a crowded CPU and two that idle": ((3, 0, 0), ((), (), (0,)), (0, 1, 0)),
}
# What is left out of the protocol, or comes too late.
MISTAKES = ("the flag is put up after the search", "who has idled and gets a task looks at no flag", "a crowded home looks at no flag",
            "who posts sends no interrupt", "a CPU says that it waits after its last drain")
LATE_FLAG, NO_SECOND_LOOK, NO_LOOK, NO_INTERRUPT, LATE_WORD = MISTAKES


class Protocol:
    """The steps of the CPUs, with a mistake or none. A state is a tuple of the CPUs, and then the rings: how many requests lie at each home
    of each sender."""

    def __init__(self, mistake=None):
        self.mistake = mistake

    def next_states(self, state):
        """What may come next: a step of any CPU that doesn't wait in vain."""
        for number in range(CPUS):
            cpu = state[number]
            if cpu.interrupted or cpu.step not in ("wait", "take_interrupt"):
                yield from getattr(self, cpu.step)(state, number, cpu)

    def drain(self, state, number, cpu):
        """Asks the next sender's ring; a request wakes a task. After the last ring the CPU goes on by what it is about."""
        if state[CPUS][number][cpu.place]:
            state = with_request(state, number, cpu.place, -1)
            cpu = cpu._replace(tasks=cpu.tasks + 1, took=True)
        if cpu.place + 1 < CPUS:
            cpu = cpu._replace(place=cpu.place + 1)
        elif cpu.about == AT_WORK:
            cpu = begin(cpu, "look") if cpu.took else self.choose(cpu)
        elif self.mistake == LATE_WORD:
            cpu = begin(cpu, "say") if not cpu.took else begin(cpu, "look", about=AT_WORK)
        elif cpu.took:
            cpu = self.stop_waiting(cpu)
        else:
            cpu = begin(cpu, "search" if cpu.about == IDLES else "wait")
        yield with_cpu(state, number, cpu)

    def choose(self, cpu):
        """What a CPU at work does whose drain took nothing."""
        if cpu.posts:
            return begin(cpu, "push")
        if not cpu.tasks:
            about = begin(cpu, "say", about=IDLES, idled=True)
            return begin(about, "drain") if self.mistake in (LATE_FLAG, LATE_WORD) else about
        if cpu.idled:
            return begin(cpu, "drain" if self.mistake == NO_SECOND_LOOK else "look_at_flags", idled=False)
        return begin(cpu, "run")

    def run(self, state, number, cpu):
        """The task that runs sleeps, or runs on while the CPU waits."""
        if cpu.sleeps:
            yield with_cpu(state, number, begin(cpu, "drain", tasks=cpu.tasks - 1, sleeps=cpu.sleeps - 1))
        yield with_cpu(state, number, begin(cpu, "drain" if self.mistake == LATE_WORD else "say", about=RUNS_ON))

    def say(self, state, number, cpu):
        """Says before it waits that it will."""
        step = "drain"
        if self.mistake == LATE_FLAG and cpu.about == IDLES:
            step = "wait"
        elif self.mistake == LATE_WORD:
            step = "search" if cpu.about == IDLES else "wait"
        yield with_cpu(state, number, begin(cpu, step, says=cpu.about))

    def search(self, state, number, cpu):
        """Looks for work on the next CPU, one after the other."""
        other = (number + cpu.place + 1) % CPUS
        if state[other].tasks >= 2:
            state = with_cpu(state, other, state[other]._replace(tasks=state[other].tasks - 1))
            cpu = self.stop_waiting(cpu._replace(tasks=cpu.tasks + 1))
        elif cpu.place + 1 < CPUS - 1:
            cpu = cpu._replace(place=cpu.place + 1)
        else:
            cpu = begin(cpu, "say" if self.mistake == LATE_FLAG else "wait")
        yield with_cpu(state, number, cpu)

    def stop_waiting(self, cpu):
        has_said = self.mistake != LATE_FLAG or cpu.about == RUNS_ON
        return begin(cpu, "take_back") if has_said else self.go_on(cpu)

    def take_back(self, state, number, cpu):
        """Doesn't wait after all: takes back what it said; where somebody has, an interrupt is under way."""
        cpu = begin(cpu, "take_interrupt") if cpu.says == AT_WORK else self.go_on(cpu._replace(says=AT_WORK))
        yield with_cpu(state, number, cpu)

    def take_interrupt(self, state, number, cpu):
        yield with_cpu(state, number, self.go_on(cpu._replace(interrupted=False)))

    def go_on(self, cpu):
        """At work again: looks how many tasks it has where it has woken some."""
        cpu = cpu._replace(about=AT_WORK)
        return begin(cpu, "look") if cpu.took else self.choose(cpu)

    def wait(self, state, number, cpu):
        yield with_cpu(state, number, begin(cpu, "drain", about=AT_WORK, interrupted=False))

    def look(self, state, number, cpu):
        """Looks after wakes whether it is crowded."""
        is_to_look = cpu.tasks >= 2 and self.mistake != NO_LOOK
        yield with_cpu(state, number, begin(cpu, "look_at_flags" if is_to_look else "drain"))

    def look_at_flags(self, state, number, cpu):
        """Looks at the next flag, and takes it down where it is up."""
        other = state[cpu.place]
        if other.says == IDLES:
            state = with_cpu(state, cpu.place, other._replace(says=AT_WORK))
            cpu = begin(cpu, "send", place=cpu.place)
        elif cpu.place + 1 < CPUS:
            cpu = cpu._replace(place=cpu.place + 1)
        else:
            cpu = begin(cpu, "drain")
        yield with_cpu(state, number, cpu)

    def send(self, state, number, cpu):
        """Sends an interrupt to the CPU of this place."""
        state = with_cpu(state, cpu.place, state[cpu.place]._replace(interrupted=True))
        yield with_cpu(state, number, begin(state[number], "drain"))

    def push(self, state, number, cpu):
        home, *posts = cpu.posts
        yield with_cpu(with_request(state, home, number, 1), number, begin(cpu, "look_at_ring", place=home, posts=tuple(posts)))

    def look_at_ring(self, state, number, cpu):
        """Looks whether the request is alone in its ring."""
        is_alone = state[CPUS][cpu.place][number] == 1 and self.mistake != NO_INTERRUPT
        yield with_cpu(state, number, begin(cpu, "look_at_home", place=cpu.place) if is_alone else begin(cpu, "drain"))

    def look_at_home(self, state, number, cpu):
        """Takes back what the home says where it waits."""
        home = state[cpu.place]
        waits = home.says != AT_WORK
        state = with_cpu(state, cpu.place, home._replace(says=AT_WORK))
        yield with_cpu(state, number, begin(state[number], "send", place=cpu.place) if waits else begin(state[number], "drain"))


def begin(cpu, step, place=0, **more):
    """The CPU at the beginning of a step. A drain has taken nothing yet."""
    return cpu._replace(step=step, place=place, took=cpu.took and step != "drain", **more)


def with_cpu(state, number, cpu):
    return (*state[:number], cpu, *state[number + 1 :])


def with_request(state, home, sender, more):
    rings = [list(ring) for ring in state[CPUS]]
    rings[home][sender] += more
    return (*state[:CPUS], tuple(map(tuple, rings)))


def opened(case):
    cpus = (Cpu("drain", 0, AT_WORK, AT_WORK, False, tasks, False, False, posts, sleeps) for tasks, posts, sleeps in zip(*case))
    return (*cpus, ((0,) * CPUS,) * CPUS)


def fault_at_end(state):
    """What is wrong where no CPU does anything more."""
    *cpus, rings = state
    if any(map(any, rings)):
        return "a request lies in a ring"
    if any(cpu.step == "take_interrupt" for cpu in cpus):
        return "a CPU waits for an interrupt that nobody sends"
    tasks = [cpu.tasks for cpu in cpus]
    return f"a CPU waits beside a crowded one: {tasks}" if min(tasks) == 0 and max(tasks) >= 2 else None


def search_all(protocol, first):
    """Goes through every run from a state on. Gives the first fault, if there is one, and how many states were met."""
    under_way, done = {first}, set()
    path = [(first, protocol.next_states(first), [])]
    while path:
        state, coming, has_next = path[-1]
        following = next(coming, None)
        if following is None:
            if not has_next and (fault := fault_at_end(state)):
                return fault, len(done)
            under_way.discard(state)
            done.add(state)
            path.pop()
            continue
        has_next[:] = [True]
        if following in under_way:
            return "a run goes on without end", len(done)
        if following not in done:
            under_way.add(following)
            path.append((following, protocol.next_states(following), []))
    return None, len(done)


def main():
    checks = Checks()
    for name, case in CASES.items():
        fault, states = search_all(Protocol(), opened(case))
        checks.look(name, fault, f"{states} states")
    for mistake in MISTAKES:
        faults = (search_all(Protocol(mistake), opened(case))[0] for case in CASES.values())
        found = next(filter(None, faults), None)
        checks.look(mistake, None if found else "it isn't found", found)
    return checks.end()


if __name__ == "__main__":
    sys.exit(main())

"""Micro-steps and orders: "Micro-steps" of docs/model.md."""

from dataclasses import replace

from plain.machine import Outcome, own_deed, pull_refusal, put_to_doze, put_to_sleep, queues_at_start


def locked_pair(one, other, between):
    low, high = min(one, other), max(one, other)
    return [("acquire", low), ("acquire", high), *between, ("release", high), ("release", low)]


def moving_steps(cpu, other, operation):
    between = [("detach", operation), ("attach", operation), ("commit", operation)]
    if cpu == other:
        return [("acquire", cpu), *between, ("release", cpu)]
    return locked_pair(cpu, other, between)


def steps_of(setup, cpu, operation):
    """The micro-steps of an operation of a CPU's program."""
    name = operation[0]
    if name == "post":
        return [("post", operation[1])]
    if name == "drain":
        found = [step for sender in range(setup.cpus()) for step in (("take", sender), ("settle", sender))]
        return [("acquire", cpu), *found, ("release", cpu)]
    if name in ("sleep", "doze", "end"):
        return moving_steps(cpu, setup.tasks[operation[1]].home, operation)
    if name == "pull":
        return moving_steps(cpu, operation[1], operation)
    return [("acquire", cpu), ("act", operation), ("commit", operation), ("release", cpu)]


def count_of_steps(setup):
    return sum(len(steps_of(setup, cpu, operation))
               for cpu, program in enumerate(setup.programs) for operation in program)


class Player:
    def __init__(self, setup):
        self.setup = setup
        self.queues = queues_at_start(setup)
        self.waiting = [[step for operation in program for step in steps_of(setup, cpu, operation)]
                        for cpu, program in enumerate(setup.programs)]
        self.counters = [0 for _ in setup.programs]
        self.holders = {}
        self.answers = [None for _ in setup.programs]
        self.hands = [None for _ in setup.programs]
        self.found = [None for _ in setup.programs]
        self.posted = {}
        self.taken = {}
        self.lines = []

    def next_step(self, caller):
        steps = self.waiting[caller]
        return steps[self.counters[caller]] if self.counters[caller] < len(steps) else None

    def refusal(self, caller):
        """Why a caller may not step, or None."""
        if caller >= self.setup.cpus():
            return "no caller"
        step = self.next_step(caller)
        if step is None:
            return "done"
        if step[0] == "acquire" and step[1] in self.holders:
            return f"blocked on {step[1]}"
        return None

    def may_step(self):
        return [caller for caller in range(self.setup.cpus()) if self.refusal(caller) is None]

    def step(self, caller):
        name, operand = self.next_step(caller)
        self.counters[caller] += 1
        getattr(self, name)(caller, operand)

    def acquire(self, caller, cpu):
        self.holders[cpu] = caller

    def release(self, _caller, cpu):
        del self.holders[cpu]

    def act(self, caller, operation):
        self.answers[caller] = own_deed(self.queues[caller], operation)

    def detach(self, caller, operation):
        by_name = {"end": self.detach_ending, "pull": self.detach_candidate}
        by_name.get(operation[0], self.detach_running)(caller, operation[1])

    def detach_running(self, caller, task):
        if self.queues[caller].running != task:
            self.answers[caller] = "not running"
            return
        self.hands[caller] = self.queues[caller].leave(task)
        self.answers[caller] = f"slept {self.hands[caller].lag}"

    def detach_ending(self, caller, task):
        if task not in self.queues[caller].runnable:
            self.answers[caller] = "not here"
            return
        self.hands[caller] = replace(self.queues[caller].leave(task), lag=0)
        self.answers[caller] = "ended"

    def detach_candidate(self, caller, source):
        refusal = pull_refusal(self.queues, caller, source)
        if refusal is not None:
            self.answers[caller] = refusal
            return
        self.hands[caller] = self.queues[source].leave(self.queues[source].candidate())
        self.answers[caller] = f"pulled {self.hands[caller].task}"

    def attach(self, caller, operation):
        carried, self.hands[caller] = self.hands[caller], None
        if carried is None:
            return
        if operation[0] in ("sleep", "end"):
            put_to_sleep(self.setup, self.queues, caller, carried)
        elif operation[0] == "doze":
            put_to_doze(self.setup, self.queues, caller, carried)
        else:
            self.queues[caller].put(carried.task, carried.nice, carried.length, carried.lag)

    def commit(self, caller, operation):
        self.lines.append((caller, operation, self.answers[caller]))

    def post(self, caller, task):
        self.posted.setdefault((caller, self.setup.tasks[task].home), []).append(task)

    def take(self, caller, sender):
        pair = (sender, caller)
        requests, taken = self.posted.get(pair, []), self.taken.get(pair, 0)
        self.found[caller] = None
        if taken < len(requests):
            self.found[caller] = requests[taken]
            self.taken[pair] = taken + 1

    def settle(self, caller, sender):
        task, self.found[caller] = self.found[caller], None
        if task is not None:
            self.lines.append((caller, ("wake", task, sender), self.queues[caller].wake(task)))

    def least_not_done(self):
        for caller in range(self.setup.cpus()):
            if self.next_step(caller) is not None:
                return caller
        return None

    def outcome(self):
        left = {pair: requests[self.taken.get(pair, 0):] for pair, requests in self.posted.items()}
        return Outcome(self.lines, self.queues, left)


def play(setup, order):
    """The outcome of an order, and the fault of it: one of the two is None."""
    player = Player(setup)
    for at, caller in enumerate(order):
        refusal = player.refusal(caller)
        if refusal is not None:
            return None, f"order at {at}: {refusal}"
        player.step(caller)
    short = player.least_not_done()
    if short is not None:
        return None, f"order short at {short}"
    return player.outcome(), None

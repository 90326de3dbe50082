"""Setups, deeds and whole operations: "The machine" of docs/model.md.

An operation and a deed are tuples: ("tick", N), ("pick",), ("yield",), ("sleep", T), ("doze", T), ("pull", S),
("renice", T, N), ("begin", T, N, S), ("end", T), ("set", T, N, S), ("rebase",), ("post", T), ("drain",), and of deeds alone
("wake", T, Q). A deed stands beside the number of its CPU.
"""

from dataclasses import dataclass, replace

from plain.dozes import DozingQueue
from plain.numbers import weight_of


@dataclass(frozen=True)
class Task:
    home: int = 0
    nice: int = 0
    length: int = 3000000
    start: int = 0
    asleep: bool = False


@dataclass(frozen=True)
class Setup:
    tasks: list
    programs: list

    def cpus(self):
        return len(self.programs)


def queues_at_start(setup):
    queues = [DozingQueue() for _ in setup.programs]
    for number, task in enumerate(setup.tasks):
        if task.asleep:
            queues[task.home].put_asleep(number, task.nice, task.length, 0)
        else:
            queues[task.home].admit(number, task.nice, task.length, task.start)
    return queues


def is_at_home(setup, cpu, task):
    return task < len(setup.tasks) and setup.tasks[task].home == cpu


def is_allowed(setup, cpu, deed):
    if cpu >= setup.cpus():
        return False
    name, operands = deed[0], deed[1:]
    if name in ("sleep", "doze", "renice", "end", "set"):
        return operands[0] < len(setup.tasks)
    if name == "begin":
        return is_at_home(setup, cpu, operands[0])
    if name == "wake":
        task, sender = operands
        return is_at_home(setup, cpu, task) and sender < setup.cpus()
    if name == "pull":
        return operands[0] < setup.cpus() and operands[0] != cpu
    return True


def pull_refusal(queues, cpu, source):
    """Why a pull takes nobody, or None where it takes the candidate."""
    task = queues[source].candidate()
    if task is None:
        return "nothing"
    entry = queues[source].runnable[task]
    if not queues[cpu].load() + weight_of(entry.nice) < queues[source].load():
        return "balanced"
    if not queues[cpu].can_place(entry.nice, entry.length, queues[source].lag_of(task)):
        return "range"
    return None


def put_to_sleep(setup, queues, cpu, carried):
    """A task that has left a CPU sleeps at its home."""
    queues[setup.tasks[carried.task].home].put_asleep(carried.task, carried.nice, carried.length, carried.lag)


def put_to_doze(setup, queues, cpu, carried):
    """The same by a doze. Away from its home there is no place, since the virtual times of two queues aren't to be compared."""
    if is_at_home(setup, cpu, carried.task):
        queues[cpu].put_dozing(carried)
    else:
        put_to_sleep(setup, queues, cpu, carried)


def sleep(setup, queues, cpu, task, put_down=put_to_sleep):
    if queues[cpu].running != task:
        return "not running"
    carried = queues[cpu].leave(task)
    put_down(setup, queues, cpu, carried)
    return f"slept {carried.lag}"


def doze(setup, queues, cpu, task):
    return sleep(setup, queues, cpu, task, put_to_doze)


def end(setup, queues, cpu, task):
    if task not in queues[cpu].runnable:
        return "not here"
    put_to_sleep(setup, queues, cpu, replace(queues[cpu].leave(task), lag=0))
    return "ended"


def pull(queues, cpu, source):
    refusal = pull_refusal(queues, cpu, source)
    if refusal is not None:
        return refusal
    carried = queues[source].leave(queues[source].candidate())
    queues[cpu].put(carried.task, carried.nice, carried.length, carried.lag)
    return f"pulled {carried.task}"


def own_deed(queue, deed):
    """A deed on the queue of its own CPU alone."""
    name, operands = deed[0], deed[1:]
    if name == "tick":
        return queue.tick(*operands)
    if name == "pick":
        return queue.pick()
    if name == "yield":
        return queue.yield_now()
    if name == "renice":
        return queue.renice(*operands)
    if name == "begin":
        return "begun" if queue.begin(*operands) else "awake"
    if name == "set":
        return queue.set(*operands)
    if name == "rebase":
        return f"rebased {queue.rebase()}"
    task, _sender = operands
    return queue.wake(task)


def whole(setup, queues, cpu, deed):
    """Does a deed at once, and gives its answer."""
    if deed[0] == "sleep":
        return sleep(setup, queues, cpu, deed[1])
    if deed[0] == "doze":
        return doze(setup, queues, cpu, deed[1])
    if deed[0] == "end":
        return end(setup, queues, cpu, deed[1])
    if deed[0] == "pull":
        return pull(queues, cpu, deed[1])
    return own_deed(queues[cpu], deed)


@dataclass(frozen=True)
class Outcome:
    """Lines (CPU, deed, answer), the queues, and the requests left, by sender and home."""

    lines: list
    queues: list
    left: dict


def one_thread(setup, script):
    queues = queues_at_start(setup)
    lines = [(cpu, deed, whole(setup, queues, cpu, deed)) for cpu, deed in script]
    return Outcome(lines, queues, {})

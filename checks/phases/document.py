"""Reads a workload of phases, which has no fault, as docs/phases.md has it."""

import re
import tomllib
from dataclasses import dataclass

UNITS = {"ns": 1, "us": 1000, "ms": 1000000, "s": 1000000000}


@dataclass(frozen=True)
class Kind:
    """Tasks of one name."""

    name: str
    # how many numbers they have
    count: int
    # how long one arrives after the other, where they do, and how many in all
    every: tuple | None
    arrivals: int | None
    home: int | None
    nice: int
    slice: int
    begins: int
    phases: list


@dataclass(frozen=True)
class Plan:
    cpus: int
    lasts: int
    tick: int
    pull: bool
    preempt: str
    sleep: str
    seed: int
    kinds: list


def length_of(text):
    if text == "0":
        return 0
    number, unit = re.fullmatch(r"([0-9]+)(ns|us|ms|s)", text).groups()
    return int(number) * UNITS[unit]


def range_of(text):
    least, _, most = text.partition("..")
    return length_of(least), length_of(most or least)


def phase_of(phase):
    """A phase as a tuple of its word and what it takes; a loop takes how often and its phases."""
    if isinstance(phase, str):
        return (phase,)
    if "loop" in phase:
        return "loop", phase["loop"], [phase_of(inner) for inner in phase["phases"]]
    [(word, value)] = phase.items()
    if word in ("run", "sleep"):
        return word, range_of(value)
    return word, length_of(value) if word == "timer" else value


def kind_of(task):
    every = range_of(task["every"]) if "every" in task else None
    count, arrivals = (task.get("count", 1), None) if every is None else (task["at_once"], task.get("count"))
    return Kind(task["name"], count, every, arrivals, task.get("home"), task.get("nice", 0), length_of(task.get("slice", "3ms")),
                length_of(task.get("begins", "0")), [phase_of(phase) for phase in task["phases"]])


def read(text):
    document = tomllib.loads(text)
    machine = document["machine"]
    return Plan(machine.get("cpus", 1), length_of(machine["lasts"]), length_of(machine.get("tick", "0")), machine.get("pull", True),
                machine.get("preempt", "wakeup"), machine.get("sleep", "sleep"), document.get("seed", 0), [kind_of(task) for task in document["task"]])

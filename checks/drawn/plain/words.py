"""The texts of operations and deeds: "Workload" of docs/formats.md."""

import re

from plain.limits import LONGEST, SHORTEST, TASKS

NUMBER = "(0|[1-9][0-9]*)"
LEVEL = "(0|[1-9][0-9]*|-[1-9][0-9]*)"

# The words of both, then those of operations and of deeds alone.
SHARED = {
    "tick": re.compile(f"tick {NUMBER}"),
    "pick": re.compile("pick"),
    "yield": re.compile("yield"),
    "sleep": re.compile(f"sleep {NUMBER}"),
    "doze": re.compile(f"doze {NUMBER}"),
    "pull": re.compile(f"pull {NUMBER}"),
    "renice": re.compile(f"renice {NUMBER} {LEVEL}"),
    "begin": re.compile(f"begin {NUMBER} {LEVEL} {NUMBER}"),
    "end": re.compile(f"end {NUMBER}"),
    "set": re.compile(f"set {NUMBER} {LEVEL} {NUMBER}"),
    "rebase": re.compile("rebase"),
}
OPERATIONS = SHARED | {"post": re.compile(f"post {NUMBER}"), "drain": re.compile("drain")}
DEEDS = SHARED | {"wake": re.compile(f"wake {NUMBER} from {NUMBER}")}


def is_within(limits, name, numbers):
    """Whether a version knows an operation or a deed, and its numbers are within their limits."""
    if name in limits.unknown:
        return False
    if name == "tick":
        return 1 <= numbers[0] <= 1000000000
    if name in ("sleep", "doze", "post", "end"):
        return numbers[0] < TASKS
    if name == "pull":
        return numbers[0] < limits.cpus
    if name == "wake":
        return numbers[0] < TASKS and numbers[1] < limits.cpus
    if name == "renice":
        return numbers[0] < TASKS and -20 <= numbers[1] <= 19
    if name in ("begin", "set"):
        return numbers[0] < TASKS and -20 <= numbers[1] <= 19 and SHORTEST <= numbers[2] <= LONGEST
    return True


def read(limits, forms, text):
    for name, form in forms.items():
        found = form.fullmatch(text)
        if found:
            numbers = [number_of(digits) for digits in found.groups()]
            return (name, *numbers) if is_within(limits, name, numbers) else None
    return None


def number_of(digits):
    """A number that is over every limit stands for all longer ones."""
    return int(digits) if len(digits) < 30 else 10**30


def operation_of(limits, text):
    return read(limits, OPERATIONS, text) if isinstance(text, str) else None


def deed_of(limits, text):
    """A CPU and its deed, or None."""
    found = re.compile(f"{NUMBER} (.*)", re.DOTALL).fullmatch(text) if isinstance(text, str) else None
    if found is None or number_of(found[1]) >= limits.cpus:
        return None
    deed = read(limits, DEEDS, found[2])
    return (int(found[1]), deed) if deed is not None else None

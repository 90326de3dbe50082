"""From the bytes of a workload to its meaning or its first fault: docs/formats.md."""

from dataclasses import dataclass

from plain.document import document_of
from plain.fault import Fault, bad_value, missing
from plain.limits import BYTES, LONGEST, OPERATIONS, SHORTEST, TASKS, VERSIONS
from plain.machine import Setup, Task, is_allowed, is_at_home
from plain.numbers import charge_of, is_in_range, weight_of
from plain.words import deed_of, operation_of


@dataclass(frozen=True)
class Workload:
    setup: Setup
    order: list
    script: list


def is_integer(value):
    return isinstance(value, int) and not isinstance(value, bool)


def array_at(document, key):
    if key not in document:
        raise missing(key)
    if not isinstance(document[key], list):
        raise bad_value(key)
    return document[key]


def limits_of(document):
    if "version" not in document:
        raise missing("version")
    version = document["version"]
    if not is_integer(version) or version not in VERSIONS:
        raise bad_value("version")
    return VERSIONS[version]


def integer_at(table, key, least, greatest, default, place):
    value = table.get(key, default)
    if not is_integer(value) or not least <= value <= greatest:
        raise bad_value(f"{place} {key}")
    return value


def boolean_at(table, key, place):
    value = table.get(key, False)
    if not isinstance(value, bool):
        raise bad_value(f"{place} {key}")
    return value


def task_of(limits, table, number):
    place = f"task {number}"
    if not isinstance(table, dict):
        raise bad_value(place)
    return Task(
        home=integer_at(table, "home", 0, limits.cpus - 1, 0, place),
        nice=integer_at(table, "nice", -20, 19, 0, place),
        length=integer_at(table, "slice", SHORTEST, LONGEST, 3000000, place),
        start=integer_at(table, "start", -(2**63), 2**63 - 1, 0, place),
        asleep=boolean_at(table, "asleep", place),
    )


def tasks_of(limits, document):
    return [task_of(limits, table, number) for number, table in enumerate(array_at(document, "task"))]


def program_of(limits, strings, cpu):
    if not isinstance(strings, list):
        raise bad_value(f"program {cpu}")
    operations = []
    for at, text in enumerate(strings):
        operation = operation_of(limits, text)
        if operation is None:
            raise bad_value(f"program {cpu} at {at}")
        operations.append(operation)
    return operations


def programs_of(limits, document):
    return [program_of(limits, strings, cpu) for cpu, strings in enumerate(array_at(document, "program"))]


def order_of(document):
    if "order" not in document:
        return None
    order = array_at(document, "order")
    for at, caller in enumerate(order):
        if not is_integer(caller) or caller < 0:
            raise bad_value(f"order at {at}")
    return order


def script_of(limits, document):
    if "script" not in document:
        return None
    strings = array_at(document, "script")
    if len(strings) > limits.deeds:
        raise bad_value("script")
    script = []
    for at, text in enumerate(strings):
        deed = deed_of(limits, text)
        if deed is None:
            raise bad_value(f"script at {at}")
        script.append(deed)
    return script


def check_task(setup, number, task):
    if task.home >= setup.cpus():
        raise Fault(f"home of task {number}")
    deadline = task.start + charge_of(task.length, weight_of(task.nice))
    if not is_in_range(task.start) or not is_in_range(deadline):
        raise Fault(f"start of task {number}")


def check_operation(setup, cpu, at, operation):
    if operation[0] in ("sleep", "doze", "post", "renice", "begin", "end", "set") and operation[1] >= len(setup.tasks):
        raise Fault(f"unknown task at program {cpu} at {at}")
    if operation[0] == "begin" and not is_at_home(setup, cpu, operation[1]):
        raise Fault(f"bad begin at program {cpu} at {at}")
    if operation[0] == "pull" and (operation[1] >= setup.cpus() or operation[1] == cpu):
        raise Fault(f"bad pull at program {cpu} at {at}")


def check_program(setup, cpu, program):
    if len(program) > OPERATIONS:
        raise Fault(f"program {cpu} too long")
    for at, operation in enumerate(program):
        check_operation(setup, cpu, at, operation)


def check_setup(limits, setup):
    if not 1 <= setup.cpus() <= limits.cpus:
        raise Fault("number of cpus")
    if not 1 <= len(setup.tasks) <= TASKS:
        raise Fault("number of tasks")
    for number, task in enumerate(setup.tasks):
        check_task(setup, number, task)
    for cpu, program in enumerate(setup.programs):
        check_program(setup, cpu, program)


def check_script(setup, script):
    for at, (cpu, deed) in enumerate(script or []):
        if not is_allowed(setup, cpu, deed):
            raise bad_value(f"script at {at}")


def read_workload(data):
    """The workload that bytes mean; raises the first fault of them."""
    if len(data) > BYTES:
        raise Fault(f"workload longer than {BYTES} bytes")
    document = document_of(data)
    limits = limits_of(document)
    tasks = tasks_of(limits, document)
    programs = programs_of(limits, document)
    order = order_of(document)
    script = script_of(limits, document)
    setup = Setup(tasks, programs)
    check_setup(limits, setup)
    check_script(setup, script)
    return Workload(setup, order, script)

"""Compares what the built programs print for a case with what the plain model says."""

import re
from dataclasses import dataclass

from plain.fault import Fault
from plain.limits import BYTES, NEWEST, VERSIONS
from plain.machine import is_allowed
from plain.made_order import made_order, ordered_text
from plain.report import report
from plain.runs import run
from plain.words import deed_of
from plain.workbench import answer, fault_line, order_refusal
from plain.workload import read_workload
from put_back import with_script, without_requests
from runner import Printed

REPORT = re.compile(rb"((?:.*\n)?)(script = \[\n((?:\".*\",\n)*)\]\n)", re.DOTALL)


@dataclass(frozen=True)
class Difference:
    what: str
    said: object
    expected: object


def compared(what, said, expected):
    return None if said == expected else Difference(what, said, expected)


def history_of(setup, text):
    """The deeds of the history at the end of a report, or None where it has none that the setup allows."""
    found = REPORT.fullmatch(text)
    if found is None:
        return None
    deeds = [deed_of(VERSIONS[NEWEST], line[1:-2]) for line in found[3].decode().splitlines()]
    if not all(deed is not None and is_allowed(setup, *deed) for deed in deeds):
        return None
    return deeds


def check_run(programs, data):
    """A run by threads, whose history has to be one of the programs, and its report that of one thread."""
    said = programs.run("eevdf", ("run", "--history"), data)
    try:
        setup = read_workload(data).setup
    except Fault as fault:
        return compared("eevdf run", said, Printed(fault_line(fault), 1))
    history = history_of(setup, said.out)
    expected = None if history is None else run(setup, history)
    if expected is None:
        return Difference("history of eevdf run", said, None)
    difference = compared("eevdf run", said, Printed(report(expected, True), 0))
    return difference or check_put_back(programs, data, said.out)


def check_put_back(programs, data, text):
    """The history of a run in place of the workload's own script: one thread comes to the same, but for requests that are left."""
    script = REPORT.fullmatch(text)[2]
    said = programs.run("eevdf", ("solo", "--history"), with_script(data, script))
    return compared("eevdf solo of the history of eevdf run", said, Printed(without_requests(text), 0))


def check_bench(programs, words, data):
    if words[0] == "run":
        return check_run(programs, data)
    expected = Printed(*answer(words, data))
    return compared(f"eevdf {' '.join(words)}", programs.run("eevdf", words, data), expected)


def seed_of(words):
    """The seed that the words give, or None; a `+` may stand before it."""
    return int(words[1]) if words else None


def check_ordered(programs, words, data):
    said = programs.run("eevdf_orders", words, data)
    refusal = order_refusal(data)
    if refusal is not None:
        return compared("eevdf_orders", said, Printed(b"", 1, refusal))
    order = made_order(read_workload(data).setup, seed_of(words))
    difference = compared("eevdf_orders", said, Printed(ordered_text(data, order), 0))
    if difference is not None or len(said.out) > BYTES:
        return difference
    return check_bench(programs, ("replay", "--history"), said.out)


def check(programs, case):
    """The first difference between the programs and the model, or None."""
    if case.program == "eevdf":
        return check_bench(programs, case.words, case.data)
    return check_ordered(programs, case.words, case.data)


BENCH_USAGE = Printed(b"usage: eevdf solo|replay|run [--history] [--times] [solo: --strict] [FILE]\n", 2)
ORDERS_USAGE = Printed(b"usage: eevdf_orders [--seed N] [FILE]\n", 2)
OTHER_WORDS = (
    ("eevdf", ()), ("eevdf", ("stop",)), ("eevdf", ("Solo",)), ("eevdf", ("",)), ("eevdf", ("help",)),
    ("eevdf", ("--helps",)), ("eevdf", ("solo", "--helps")), ("eevdf", ("--history",)), ("eevdf", ("--history", "solo")),
    ("eevdf", ("solo", "replay")), ("eevdf", ("solo", "--histories")),
    ("eevdf", ("solo", b"\xff")), ("eevdf", ("replay", "file")), ("eevdf", ("run", "1")),
    ("eevdf_orders", ("7",)), ("eevdf_orders", ("--helps",)), ("eevdf_orders", ("--seed",)), ("eevdf_orders", ("--seed", "")),
    ("eevdf_orders", ("--seed", "-1")), ("eevdf_orders", ("--seed", "1.0")), ("eevdf_orders", ("--seed", "x")),
    ("eevdf_orders", ("--seed", "++1")), ("eevdf_orders", ("--seed", "18446744073709551616")),
)


def check_words(programs, name, words):
    """Words that a program doesn't know."""
    said = programs.run(name, words, b"")
    if name == "eevdf":
        return compared("words of eevdf", said, BENCH_USAGE)
    return compared("words of eevdf_orders", Printed(said.errors + said.out, said.status), ORDERS_USAGE)

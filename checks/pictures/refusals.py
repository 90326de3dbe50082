"""Words and workloads that are refused, and faults: the line and the status are those of `eevdf`, and nothing is on standard output."""

import os
import resource
import sys
from pathlib import Path

import made
from program import SOURCES, is_well, stored_workloads
from runner import TOP
from svg import expect

sys.path.append(str(TOP / "checks/hostile"))

from documents import DOCUMENTS

USAGE = (b"usage: eevdf_timeline [--replay [--race]|--run] [--html|--perfetto|--table|--stats [--json]] [--rows cpus|tasks]"
         b" [--width PX] [--from NS] [--to NS] [--cpu N,..] [--task N,..] [FILE]\n")
BAD_WORDS = ("--replay --run", "--perfetto --stats", "--table --stats", "--table --perfetto", "--table --json", "--html --table",
             "--html --perfetto", "--html --stats", "--html --json", "--html --html", "--html --rows", "--rows", "--rows task",
             "--rows tasks --table", "--json", "--perfetto --json", "--stats --from 5 --to 5", "--from 5 --to 5", "--from x",
             "--from -1", "--to", "--cpu 64", "--cpu 0,", "--task 1024", "--task 0;1", "--task", "solo", "--helps", "help",
             "--replay --replay", "--race", "--run --race", "--replay --race --html", "--replay --race --stats",
             "--replay --race --rows tasks", "--replay --race --cpu 0", "--replay --race --task 0", "--replay --race --from 5 --to 5",
             "--to 18446744073709551616", "--width", "--width x", "--width 319", "--width 10001", "--width 400 --width 400",
             "--width 400 --table", "--perfetto --width 400", "--stats --width 400", "--replay --race --width 400")

# The address space in which hostile texts are read, and which of them are sent.
BYTES = 1 << 30
HOSTILE = ("newlines", "opening brackets", "arrays 100000 deep", "deep arrays of an array")


def check_refused(checks, words, data, line, status):
    printed = checks.run(words, data)
    expect("what is refused", (printed.status, printed.errors, printed.out), (status, line, b""))


def check_workload_refused(checks, command, words, data):
    printed = checks.programs.run("eevdf", [command], data)
    check_refused(checks, (*SOURCES[command], *words), data, printed.out + printed.errors, printed.status)


def check_hostile(checks, text):
    printed = checks.run((), text.make(), limits={resource.RLIMIT_AS: BYTES})
    expect("the answer", (printed.status, printed.errors, printed.out), (text.answer.status, text.answer.out, b""))


def check_full(checks):
    with open("/dev/full", "wb") as full:
        printed = checks.run((), made.empty(), stdout=full)
    expect("a write that fails", (printed.status, printed.errors), (3, b"fault: writing\n"))


def check_folder(checks):
    """A folder can be opened and not read."""
    folder = os.open(TOP, os.O_RDONLY)
    try:
        printed = checks.run((), b"", stdin=folder)
    finally:
        os.close(folder)
    expect("a read that fails", (printed.status, printed.errors, printed.out), (3, b"fault: reading\n", b""))


def check_refusals(checks):
    for words in BAD_WORDS:
        checks.attempt(f"the words {words}", check_refused, checks, words.split(), made.empty(), USAGE, 2)
    for path, data, command in stored_workloads("checks/cases/*/*.toml"):
        for words in () if is_well(path) else ((), ("--html",), ("--perfetto",), ("--stats",)):
            checks.attempt(f"{path.name} {words}", check_workload_refused, checks, command, words, data)
    for text in DOCUMENTS:
        if text.name in HOSTILE:
            checks.attempt(f"the hostile text {text.name}", check_hostile, checks, text)
    if Path("/dev/full").is_char_device():
        checks.attempt("a write that fails", check_full, checks)
    checks.attempt("a read that fails", check_folder, checks)

"""Drawn sequences of calls, through the library and through the plain model, side by side: in a program at any address, in one at a fixed
address, and in one that is sanitized. Together they have to come to each error that the header names with a call, and to no
other."""

import multiprocessing
import os
import re

import model
from drawn_calls import KINDS, compare
from object_file import difference
from tools import SANITIZED, TOP

# How many calls of each kind a program makes, and how it is built.
BUILDS = {"": (100000, ("-fPIE", "-pie")), ", at a fixed address": (20000, ("-fno-pie", "-no-pie")), ", sanitized": (10000, SANITIZED)}
ERRORS = "ABSENT", "BALANCED", "NO_MEMORY", "BUSY", "PRESENT", "INVALID", "RANGE"
# The calls that no sequence names: callers/play.c makes them in the place of `admit`, `end` and `hand_close`, and callers/blocks.c comes to
# their errors. The calls beside bounds, which begin so, are compared by callers/fair.c with those that they stand for.
UNNAMED = {"admit_in", "end_out", "hand_end_out"}
BESIDE_BOUNDS = "fair_"
# A comment of the header with the call that it belongs to.
DECLARED = re.compile(r"/\*((?:(?!\*/).)*)\*/\n(?:EEVDF_MUST_CHECK\n)?int64_t eevdf_(\w+)\(", re.DOTALL)


def documented():
    """Which calls can answer which errors, as the header says."""
    header = (TOP / "include" / "eevdf.h").read_text()
    declared = [(text, name) for text, name in DECLARED.findall(header) if name not in UNNAMED and not name.startswith(BESIDE_BOUNDS)]
    return {(name, error) for text, name in declared for error in ERRORS if re.search(rf"\b{error}:", text)}


def named(errors):
    return {(name, error) for name, answer in errors for error in ERRORS if getattr(model, error) == answer}


def jobs_of(tools, seed):
    """What is to be compared. Says which programs can't be built."""
    for label, (calls, flags) in BUILDS.items():
        program, fault = tools.compile("play" + label.replace(", ", "_").replace(" ", "_"), [tools.callers / "play.c"], *flags)
        if fault:
            tools.checks.look(f"callers/play.c{label}", fault)
            continue
        for kind in KINDS:
            yield f"drawn calls of {kind.name}{label}", (program, kind, seed, calls)


def all_compared(jobs):
    """Each of the jobs, which have names, with what comes of it. They are done side by side."""
    with multiprocessing.Pool(max(1, min(len(jobs), os.cpu_count()))) as pool:
        yield from zip(jobs, pool.imap(compare, [job for _, job in jobs]))


def check(tools, seed):
    errors = set()
    for (name, _), compared in all_compared(list(jobs_of(tools, seed))):
        tools.checks.look(f"{name}, seed {seed}", compared.fault, f"{compared.count} calls are answered as by the model")
        errors |= compared.errors
    wanted = documented()
    name = f"drawn calls of seed {seed} come to the errors of the header"
    tools.checks.look(name, difference(named(errors), wanted), f"{len(wanted)} of them")

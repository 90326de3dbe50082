#!/usr/bin/env -S python3 -B
"""checks/phases/check.py: compares what the built program `eevdf_phases` makes of workloads of phases with a plain model of docs/phases.md:
of those of examples/phases/, and of drawn ones until so many deeds are compared. `eevdf solo --times` has to take each script and give the
answers that the program rested on, each at its moment. Faulty workloads have to be refused with their lines, and hostile ones answered
within bounds. The last line is 'N passed, M failed'."""

import argparse
import re
import resource
import sys
from pathlib import Path
from random import Random

HERE = Path(__file__).resolve().parent
sys.path[:0] = [str(HERE), str(HERE.parent)]

from document import read  # noqa: E402
from drawing import LONG_REQUEST, MANY_WAITS, UNRESUMED, UNRESUMED_SAID, draw  # noqa: E402
from faulty import OTHERS, faulty  # noqa: E402
from figures import figure_lines  # noqa: E402
from hostile import HOSTILE, MANY_DEEDS, MANY_TASKS, ROWS_OF_MANY, ROWS_OF_MANY_TASKS  # noqa: E402
from model import Machine  # noqa: E402
from moments import fall_of, moment_of, reported_by_cpu, timed_by_cpu  # noqa: E402
from runner import TOP, Checks, Printed, built, run, run_on_terminal, status_of  # noqa: E402
from script import MOST_BYTES, MOST_DEEDS, run_lines, script_lines, suspended_text  # noqa: E402
from traces import check_traces  # noqa: E402
from words import check_words  # noqa: E402
from work import within  # noqa: E402

# At least so many workloads are drawn.
LEAST = 10

# A hostile workload is answered within so many seconds of processor time (work.py), in an address space of so many bytes.
SECONDS = 10
MEMORY = 64 << 20


def parse_words():
    words = argparse.ArgumentParser(description=__doc__)
    words.add_argument("--deeds", type=int, default=10000, help="how many deeds of drawn workloads are compared")
    words.add_argument("--seed", default="1", help="what they are drawn from")
    return words.parse_args()


def lines_of(printed):
    return printed.out.decode().splitlines()


def first_difference(lines, expected):
    for place, (line, other) in enumerate(zip(lines, expected)):
        if line != other:
            return f"line {place + 1} is {line!r}, and not {other!r}"
    return None if len(lines) == len(expected) else f"{len(lines)} lines, and not {len(expected)}"


def difference(programs, text):
    """What differs from the model, or None, and how many deeds were compared."""
    data = text.encode()
    plan = read(text)
    scripted, run, figures = (programs.run("eevdf_phases", flag, data) for flag in ([], ["--run"], ["--stats"]))
    machine = Machine(plan)
    expected = list(run_lines(plan, machine))
    said = suspended_text(machine).encode()
    for printed in (scripted, run, figures):
        if (printed.status, printed.errors) != (0, said):
            return f"is answered {printed.errors!r}, with the status {printed.status}", 0
    differs = (first_difference(lines_of(run), expected) or first_difference(lines_of(scripted), list(script_lines(plan)))
               or first_difference(lines_of(figures), list(figure_lines(plan))) or fall_of(lines_of(run)))
    solo = programs.run("eevdf", ["solo", "--times"], scripted.out)
    if not differs and (solo.status or reported_by_cpu(lines_of(solo)) != timed_by_cpu(expected)):
        differs = "`eevdf solo --times` gives other answers or times"
    return differs, len(expected)


def check_examples(checks, programs):
    for file in sorted((TOP / "examples" / "phases").glob("*.toml")):
        differs, deeds = difference(programs, file.read_text())
        figures = programs.run("eevdf_phases", ["--stats", file])
        if not differs and (figures.status, figures.out) != (0, file.with_suffix(".out").read_bytes()):
            differs = f"has the figures {figures}"
        checks.look(f"{file.name}, {deeds} deeds", differs)


def check_rare(checks, programs):
    for name, text in (("more than a second of a request is left", LONG_REQUEST), ("more than a hundred waits", MANY_WAITS),
                       ("tasks that nobody resumes", UNRESUMED)):
        differs, deeds = difference(programs, text)
        checks.look(f"{name}, {deeds} deeds", differs)


def check_unresumed(checks, programs):
    """Who waits to be resumed at the end is told behind the output, and is no fault."""
    text = UNRESUMED.encode()
    for flag in ([], ["--run"], ["--stats"]):
        printed = programs.run("eevdf_phases", flag, text)
        is_right = printed.out and (printed.status, printed.errors) == (0, UNRESUMED_SAID)
        checks.expect(f"tasks that nobody resumes, {flag}", printed, is_right)


def check_drawn(checks, programs, words):
    random = Random(words.seed)
    deeds = 0
    drawn = 0
    while deeds < words.deeds or drawn < LEAST:
        text = draw(random)
        differs, more = difference(programs, text)
        drawn += 1
        deeds += more
        if differs:
            checks.look(f"drawn workload {drawn} of the seed {words.seed}", f"{differs} in\n{text}")
            return
    checks.look("drawn workloads", None, f"{drawn} of them, {deeds} deeds")


def check_faults(checks, programs):
    wrong = []
    for text, said in faulty():
        printed = programs.run("eevdf_phases", [], text.encode())
        if printed != Printed(b"", 1, said.encode()):
            wrong.append(f"{said!r} is {printed}")
    checks.look("faulty workloads", "; ".join(wrong))
    for words, text, line, what in OTHERS:
        printed = programs.run("eevdf_phases", words, text.encode())
        wanted = Printed(b"", 1, f"fault: {line}\n{what}\n".encode())
        checks.expect(f"eevdf_phases {' '.join(words)}: {what}", printed, printed == wanted)


def check_hostile(checks, programs):
    for name, (text, status, error) in HOSTILE.items():
        with checks.unless_slow(name):
            check_bounds(checks, programs, name, text, status, error)


def check_bounds(checks, programs, name, text, status, error):
    printed, late = within(SECONDS, programs, "eevdf_phases", [], text.encode(), {resource.RLIMIT_AS: MEMORY})
    is_short = printed.out.count(b'"') <= 2 * MOST_DEEDS and len(printed.out) <= MOST_BYTES
    is_right = printed.status == status and printed.errors.splitlines(keepends=True)[:1] == error.splitlines(keepends=True) and is_short
    checks.look(name, late or (None if is_right else f"status {printed.status}, {printed.errors!r}"), f"{printed.processor:.1f} s")


def check_full_size(checks, programs):
    """`eevdf solo` takes a script of the greatest length, which has no room for another deed, and one of as many deeds as it may have."""
    for name in ("a timer of 1 ns", "loops in loops"):
        text, _status, error = HOSTILE[name]
        scripted = programs.run("eevdf_phases", [], text.encode())
        deeds = [line for line in scripted.out.splitlines(keepends=True) if line.startswith(b'  "')]
        is_full = len(deeds) == MOST_DEEDS or MOST_BYTES - 2 * max(map(len, deeds)) <= len(scripted.out) <= MOST_BYTES
        said = f"{len(scripted.out)} bytes, {len(deeds)} deeds, {scripted.errors}"
        checks.look(f"a script of full size: {name}", None if is_full and scripted.errors == error else said)
        solo = programs.run("eevdf", ["solo"], scripted.out)
        is_done = solo.status == 0 and solo.out.count(b"\n") >= len(deeds)
        checks.look(f"`eevdf solo` of it: {name}", None if is_done else f"status {solo.status}, {solo.out[:200]!r}")


def check_many_deeds(checks, programs):
    """There may be more deeds than a script has where none is written."""
    text = MANY_DEEDS.encode()
    figures, answers = (programs.run("eevdf_phases", [flag], text) for flag in ("--stats", "--run"))
    is_right = figures.status == 0 and lines_of(figures)[1:] == ROWS_OF_MANY
    checks.look("--stats of many deeds", None if is_right else f"{figures}")
    lines = lines_of(answers)
    is_right = answers.status == 0 and len(lines) > MOST_DEEDS and moment_of(lines[-1].split(" ", 1)[0]) == 400000000
    checks.look("--run of many deeds", fall_of(lines) if is_right else f"status {answers.status}, {len(lines)} lines, {lines[-1:]}")


def check_progress(checks, programs):
    """A terminal is told how far it is, and nobody else."""
    program, text = programs.path("eevdf_phases"), MANY_DEEDS.encode()
    for flag in ("--stats", "--run"):
        printed, quiet = run_on_terminal([program, flag], text), run([program, flag], text)
        line = rb"\reevdf_phases: \d+ % of the time is over"
        is_told = re.fullmatch(rb"(%s)+\r\x1b\[K" % line, printed.errors)
        is_right = (printed.out, printed.status, quiet.errors) == (quiet.out, 0, b"") and is_told
        checks.look(f"{flag} on a terminal", None if is_right else f"status {printed.status}, {printed.errors[:200]!r}")


def check_many_tasks(checks, programs):
    """There may be a million tasks, in the memory of their numbers."""
    figures = programs.run("eevdf_phases", ["--stats"], MANY_TASKS.encode(), limits={resource.RLIMIT_AS: MEMORY})
    is_right = figures.status == 0 and lines_of(figures)[1:] == ROWS_OF_MANY_TASKS
    checks.look("a million tasks", None if is_right else f"{figures}", f"{figures.processor:.1f} s")


def main():
    words = parse_words()
    programs = built("eevdf", "eevdf_phases")
    checks = Checks()
    check_examples(checks, programs)
    check_rare(checks, programs)
    check_unresumed(checks, programs)
    check_drawn(checks, programs, words)
    check_faults(checks, programs)
    check_words(checks, programs)
    check_hostile(checks, programs)
    check_full_size(checks, programs)
    check_many_deeds(checks, programs)
    check_many_tasks(checks, programs)
    check_progress(checks, programs)
    check_traces(checks, programs, words)
    return checks.end()


if __name__ == "__main__":
    sys.exit(status_of(main))

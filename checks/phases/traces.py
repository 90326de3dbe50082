"""Traces: what `eevdf_phases --from trace` makes of those in traces/, each beside a workload of phases that means the same, and of drawn
ones; faulty ones; and one of the greatest length."""

import resource
from pathlib import Path
from random import Random

from figures import figure_lines
from runner import Printed
from script import MOST_BYTES, run_lines, script_lines
from trace_drawing import draw_trace
from trace_faults import faulty_traces
from trace_reading import read_trace
from work import within

TRACES = Path(__file__).resolve().parent / "traces"
FLAGS = ([], ["--run"], ["--stats"])

# At least so many traces are drawn, and at most.
LEAST, MOST = 40, 1000

# One of the greatest length is read and played in so many seconds of processor time (work.py), in an address space of so many bytes.
SECONDS = 20
MEMORY = 512 << 20


def model_lines(plan):
    return [list(lines(plan)) for lines in (script_lines, run_lines, figure_lines)]


def printed_lines(programs, data, words=("--from", "trace")):
    printed = [programs.run("eevdf_phases", [*words, *flag], data) for flag in FLAGS]
    faults = [f"{done.errors!r}" for done in printed if done.status]
    return [done.out.decode().splitlines() for done in printed], "; ".join(faults)


def difference(programs, data):
    """What differs from the model, or None, and how many deeds were compared."""
    expected = model_lines(read_trace(data.decode()))
    lines, faults = printed_lines(programs, data)
    if faults:
        return faults, 0
    for which, these, those in zip(FLAGS, lines, expected):
        for place, (line, other) in enumerate(zip([*these, None], [*those, None])):
            if line != other:
                return f"line {place + 1} of {which} is {line!r}, and not {other!r}", 0
    return None, len(expected[1])


def check_samples(checks, programs):
    for file in sorted(TRACES.glob("*.txt")):
        data = file.read_bytes()
        differs, deeds = difference(programs, data)
        told = printed_lines(programs, file.with_suffix(".toml").read_bytes(), ())
        if not differs and told != printed_lines(programs, data):
            differs = f"{file.with_suffix('.toml').name} comes to something else"
        checks.look(f"{file.name}, {deeds} deeds", differs)


def check_drawn(checks, programs, seed, least_deeds):
    random = Random(seed)
    deeds = drawn = 0
    while (deeds < least_deeds or drawn < LEAST) and drawn < MOST:
        data = draw_trace(random).encode()
        differs, more = difference(programs, data)
        drawn += 1
        deeds += more
        if differs:
            checks.look(f"drawn trace {drawn} of the seed {seed}", f"{differs} in\n{data.decode()}")
            return
    checks.look("drawn traces", None, f"{drawn} of them, {deeds} deeds")


def check_faults(checks, programs):
    wrong = []
    for data, said in faulty_traces():
        printed = programs.run("eevdf_phases", ["--from", "trace"], data)
        if printed != Printed(b"", 1, said.encode()):
            wrong.append(f"{said!r} is {printed}")
    checks.look("faulty traces", "; ".join(wrong))


def check_full_size(checks, programs):
    """Short lines, of which each ends a run and a sleep and has two new nice levels, all at one moment, so that little is played."""
    lines = [f"[0] 1.0: sched_switch: :1 [{100 + k % 40}] S ==> :{k % 1000 + 1} [120]\n" for k in range(400000)]
    data = "".join(lines).encode()[:MOST_BYTES].rpartition(b"\n")[0]
    with checks.unless_slow("a trace of the greatest length"):
        words = ["--from", "trace", "--stats"]
        printed, late = within(SECONDS, programs, "eevdf_phases", words, data, {resource.RLIMIT_AS: MEMORY})
        is_right = printed.status == 0 and printed.out.count(b"\n") == 1001
        said = f"status {printed.status}, {printed.errors!r}, {len(data)} bytes, {printed.processor:.1f} s"
        checks.look("a trace of the greatest length", late or (None if is_right else said), said)


def check_traces(checks, programs, words):
    check_samples(checks, programs)
    check_drawn(checks, programs, words.seed, words.deeds // 5)
    check_faults(checks, programs)
    check_full_size(checks, programs)

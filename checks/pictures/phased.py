"""The schedules of workloads of phases: of those of examples/phases/ the built program `eevdf_phases` makes scripts."""

import re

from model import Timeline
from plain.workload import read_workload
from runner import TOP
from svg import Wrong, expect

# A deed of such a script, with the moment up to which its CPU is charged then, in milliseconds.
MARKED = re.compile(rb'^  "[^"]*", # (\d+)\.(\d{6}) ', re.MULTILINE)

FOLDER = TOP / "examples" / "phases"


def script_of(checks, path):
    """The script of a workload of phases. Who waits to be resumed at its end is told beside it."""
    printed = checks.programs.run("eevdf_phases", (), path.read_bytes())
    if printed.status:
        raise Wrong(f"status {printed.status} of eevdf_phases: {printed.errors.decode(errors='replace')[:500]}")
    return printed.out


def check_moments(data):
    """Each deed is drawn at the moment that its comment says."""
    workload = read_workload(data)
    said = [int(whole) * 1000000 + int(rest) for whole, rest in MARKED.findall(data)]
    expect("the moments", [moment.end for moment in Timeline(workload.setup, workload.script).moments], said)

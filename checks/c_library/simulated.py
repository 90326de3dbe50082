"""The module of examples/sched_ext without Linux: what Linux does to it is drawn, in a program of one thread, until the queues are full.
Each task is where it belongs, the tasks that are too many are refused, and each traced call is answered as by the plain model."""

import re

from tools import SANITIZED, TOP, fault_of, run

FOLDER = TOP / "checks" / "c_library" / "simulated"
MODULE = TOP / "examples" / "sched_ext"
FILES = ("calls", "tasks", "numbers", "queues", "moves", "pulls", "scheduler", "forks")
FLAGS = ("-std=gnu11", "-O1", "-Wall", "-Werror", f"-I{TOP / 'include'}", f"-I{FOLDER}", f"-I{MODULE}")
INCLUDED = re.compile(r"#include <(linux/\w[\w/-]*\.h)>")
# How many CPUs, and how many steps.
RUNS = ((1, 3000), (2, 8000), (4, 12000))
# So many tasks of a run on several CPUs got another number, and were put into a queue by a hand while they waited.
LEAST = 100


def write_headers(folder):
    """A header of each name of Linux's that the module asks for. Gives the folder."""
    for file in MODULE.glob("*.[ch]"):
        for name in INCLUDED.findall(file.read_text()):
            header = folder / name
            header.parent.mkdir(parents=True, exist_ok=True)
            header.write_text('#include "linux.h"\n')
    return folder


def build(tools):
    """The program, and what is wrong. What the module has as its parameters is set by the program."""
    headers = write_headers(tools.work / "simulated_headers")
    program = tools.work / "simulated"
    sources = [*(MODULE / f"{name}.c" for name in FILES), FOLDER / "drawn.c", TOP / "bindings" / "c" / "eevdf_no_memory.c"]
    return program, fault_of(run([tools.cc, *FLAGS, *SANITIZED, f"-I{headers}", "-o", program, *sources, tools.archive]))


def counts_fault(said, cpus, again):
    """Each CPU was full, and tasks were renumbered."""
    tasks, refused, full, _ = map(int, re.findall(r"\d+", said))
    if tasks < 1000 * cpus or not refused or not full:
        return f"no CPU was full: {said}"
    renumbered = {name: int(count) for count, name in re.findall(r"(\d+) (hand_renumber|put)\b", again)}
    few = [name for name in ("hand_renumber", "put") if renumbered.get(name, 0) < LEAST]
    return f"there are fewer than {LEAST} of {', '.join(few)}" if cpus > 1 and few else None


def check(tools):
    program, fault = build(tools)
    if fault:
        tools.checks.look("examples/sched_ext without Linux", fault)
        return
    for cpus, steps in RUNS:
        trace = tools.work / "simulated.trace"
        made = run([program, cpus, 1, steps, trace])
        again = run([MODULE / "replay.py", trace]) if made.returncode == 0 else None
        fault = fault_of(made) or fault_of(again) or counts_fault(made.stdout, cpus, again.stdout)
        tools.checks.look(f"examples/sched_ext without Linux, {cpus} CPU{'s' * (cpus > 1)}", fault, made.stdout.strip())

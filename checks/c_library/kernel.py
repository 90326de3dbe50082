"""The kernel under qemu: its log has to be the plain model's, and to repeat byte for byte."""

import os
import shutil

from tools import TOP, fault_of, run

FOLDER = TOP / "examples" / "kernel"
# Time is counted by instructions, so that it doesn't depend on the host.
COUNTED = "-icount", "shift=6,sleep=off"
IS_LATE = 124


def first_difference(said, wanted):
    for at, (one, other) in enumerate(zip(said.splitlines(), wanted.splitlines())):
        if one != other:
            return f"line {at + 1} is {one!r}, and the model says {other!r}"
    return None if said == wanted else f"{len(said.splitlines())} lines, where the model has {len(wanted.splitlines())}"


def check(tools):
    name = "examples/kernel"
    if not shutil.which("qemu-system-x86_64"):
        tools.checks.skip(name, "qemu-system-x86_64", "qemu-system-x86")
        return
    env = {**os.environ, "ARCHIVE": str(tools.archive), "CC": tools.cc}
    first, second = (run([FOLDER / "run.sh", *COUNTED], env=env) for _ in range(2))
    if IS_LATE in (first.returncode, second.returncode):
        tools.checks.leave_out(name, "the machine is too slow, or too busy: qemu hasn't come to its end in 600 seconds")
        return
    if first.returncode:
        tools.checks.look(name, fault_of(first))
        return
    said = f"{first.stdout.count(' to ')} switches"
    wanted = run([FOLDER / "model.py"])
    tools.checks.look("the kernel's log is the model's", fault_of(wanted) or first_difference(first.stdout, wanted.stdout), said)
    again = fault_of(second) or (None if first.stdout == second.stdout else "two runs differ")
    tools.checks.look("the kernel's log repeats", again)

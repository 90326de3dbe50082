"""Linux's own tasks in the queues: the machine of examples/sched_ext, in the Linux that build_linux.sh has put into the folder that the
environment names as LINUX_SCHED_EXT. Shares are those of the weights, none of its tasks stands still, both planted faults end in Linux's
own class, and each traced call is answered as by the plain model, which notices where a trace is changed."""

import os
import re
import shutil
from concurrent.futures import ThreadPoolExecutor
from dataclasses import dataclass, field, replace

from tools import TOP, fault_of, run

FOLDER = TOP / "examples" / "sched_ext"
TOOLS = {"qemu-system-x86_64": "qemu-system-x86", "make": "make", "clang": "clang", "pahole": "pahole"}
IS_MISSING, IS_LATE = 3, 124
# How long qemu may take, and with it the build before it, also on a busy machine.
SECONDS, ALL_SECONDS = 6000, 4 * 3600
# What the weights of the four hogs come to, in percent.
SHARES = (37.67, 37.67, 12.33, 12.33)
CALLS, DOZES, PLANTED = 100000, 1000, "10"
# Of these changes many change nothing that a later call shows; examples/sched_ext/README.md says which. Of ten of each other kind at least
# half are noticed, and of other answers all.
UNSEEN = {"a charge is a nanosecond shorter", "a pick is left out", "a sleep in the place of a doze", "an end is left out",
          "another level of a task that is set"}
LEAST = 0.5


@dataclass(frozen=True)
class Machine:
    """How many CPUs it has, what it does, and what run.sh is told besides by its environment."""

    cpus: int
    words: tuple
    more: dict = field(default_factory=dict)

    @property
    def name(self):
        return f"examples/sched_ext, {self.cpus} CPU{'s' * (self.cpus > 1)}"


ONE = Machine(1, ("load", "fault=1", "unload", "load", "fault=2", "unload", "load", "forks", "shares=4", "unload"))
TWO = Machine(2, ("load", "shares=4", "hunt=4", "unload"))
# With a wait on both sides of the second look at a task's CPUs, and without that look.
FOUR = Machine(4, ("load", "plant=3", "cpus=2", "unload", "load", "plant=4", "cpus=2", "unload"))


def share_fault(said, off):
    found = re.search(r"^queues: shares:([ \d.]+) %", said, re.MULTILINE)
    shares = [float(word) for word in found[1].split()] if found else []
    if len(shares) != len(SHARES):
        return "no shares are said"
    is_off = max(abs(one - other) for one, other in zip(shares, SHARES))
    return f"the shares are{found[1]} %, and {is_off:.2f} off" if is_off > off else None


def hunts_fault(said, *wanted):
    """Each hunt ended in the class that is wanted: in the queues, or in Linux's own where the scheduler was put out meanwhile."""
    classes = tuple(re.findall(r"^(\w+): the hunt:", said, re.MULTILINE))
    return None if classes == wanted else f"the hunts ended in {', '.join(classes) or 'no class'}, and not in {', '.join(wanted)}"


def look_fault(said):
    """The second look finds tasks whose CPUs have changed; and where it isn't done Linux puts the scheduler out."""
    found = re.search(r"(\d+) dispatches cancelled", said)
    if not found or int(found[1]) == 0:
        return "no dispatch is cancelled"
    if said.count("not allowed for") != 1:
        return "without the look the scheduler isn't put out, or it is put out with it"
    return hunts_fault(said, "queues", "fair")


def calls_fault(said):
    calls, dozes = re.search(r"^(\d+) calls on", said, re.MULTILINE), re.search(r"\b(\d+) doze\b", said)
    if not calls or int(calls[1]) < CALLS:
        return f"there are fewer than {CALLS} calls"
    return None if dozes and int(dozes[1]) >= DOZES else f"there are fewer than {DOZES} dozes"


def unnoticed(said):
    counts = re.findall(r"^(.*): (\d+) of (\d+) are noticed", said, re.MULTILINE)
    wrong = [name for name, seen, made in counts
             if name not in UNSEEN and int(seen) < int(made) * (1 if name.startswith("another answer") else LEAST)]
    return f"too seldom: {', '.join(wrong)}" if wrong or not counts else None


def build(tools, folder):
    """What the machines boot with. None where it can't be built, of which it is said why."""
    initramfs = tools.work / "sched_ext.initramfs"
    made = run([FOLDER / "build_machine.sh", folder, initramfs], seconds=ALL_SECONDS, env={
        **os.environ, "MODULE": str(tools.module), "TMPDIR": str(tools.work)})
    if made.returncode == IS_MISSING:
        tools.checks.leave_out("examples/sched_ext", made.stderr.strip())
        return None
    tools.checks.look("examples/sched_ext: the module and its machine are built", fault_of(made))
    return None if made.returncode else initramfs


def boot(tools, folder, initramfs, machine):
    """Has the machine do what it does, in the folder of the check, where nothing is left of it."""
    return run([FOLDER / "run.sh", folder, *machine.words], seconds=ALL_SECONDS, env={
        **os.environ, "INITRAMFS": str(initramfs), "SECONDS_OF_QEMU": str(SECONDS), "CPUS": str(machine.cpus),
        "TMPDIR": str(tools.work), **machine.more})


def what_it_says(tools, machine, made):
    """Counts a run. What the machine said; nothing where it can't be looked at."""
    if made.returncode == IS_MISSING:
        tools.checks.leave_out(machine.name, made.stderr.strip())
    elif made.returncode == IS_LATE:
        tools.checks.leave_out(machine.name, f"the machine is too slow, or too busy: {made.stderr.strip()[-200:]}")
    else:
        tools.checks.look(f"{machine.name}: {' '.join(machine.words)}", fault_of(made))
    return "" if made.returncode else made.stdout


def replay(booted, *words):
    """What replay.py says once the machine has come to a good end. None where it hasn't."""
    return None if booted.result().returncode else run([FOLDER / "replay.py", *words])


def check_one(tools, said):
    tools.checks.look(f"{ONE.name}: shares within 1 % of the weights", share_fault(said, 1))


def check_two(tools, said, again, changed):
    tools.checks.look(f"{TWO.name}: shares within 2 % of the weights", share_fault(said, 2))
    tools.checks.look(f"{TWO.name}: the hunt ends under the scheduler", hunts_fault(said, "queues"))
    last = again.stdout.strip().splitlines()
    tools.checks.look("examples/sched_ext: each call is answered as by the model", fault_of(again) or calls_fault(again.stdout),
                      last[-1] if last else "")
    tools.checks.look("examples/sched_ext: changes of the trace are noticed", fault_of(changed) or unnoticed(changed.stdout))


def check_four(tools, said):
    tools.checks.look(f"{FOUR.name}: a task whose CPUs change isn't dispatched where it may not run", look_fault(said))


def check_machines(tools, folder, initramfs):
    """Where time is counted by instructions a machine takes one processor, so all run at once, and the replays as soon as there is a
    trace."""
    trace = tools.work / "sched_ext.trace"
    traced = replace(TWO, more={"TRACE": str(trace), "WORDS": "rebase_ms=500"})
    with ThreadPoolExecutor() as pool:
        one, two, four = (pool.submit(boot, tools, folder, initramfs, machine) for machine in (ONE, traced, FOUR))
        again, changed = pool.submit(replay, two, trace), pool.submit(replay, two, "--plant", trace, PLANTED)
        if said := what_it_says(tools, ONE, one.result()):
            check_one(tools, said)
        if said := what_it_says(tools, traced, two.result()):
            check_two(tools, said, again.result(), changed.result())
        if said := what_it_says(tools, FOUR, four.result()):
            check_four(tools, said)


def check(tools):
    folder = os.environ.get("LINUX_SCHED_EXT")
    if not folder:
        tools.checks.leave_out("examples/sched_ext", "no built Linux is named; by hand: examples/sched_ext/build_linux.sh FOLDER, and "
                               "LINUX_SCHED_EXT=FOLDER")
        return
    for tool, package in TOOLS.items():
        if not shutil.which(tool):
            tools.checks.skip("examples/sched_ext", tool, package)
            return
    if initramfs := build(tools, folder):
        check_machines(tools, folder, initramfs)

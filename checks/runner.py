"""What the checks share: runs of programs with what they print, and a count of what is as it should be."""

import os
import re
import resource
import signal
import subprocess
import sys
import tempfile
import threading
import time
from contextlib import contextmanager, suppress
from dataclasses import dataclass, field, replace
from functools import partial
from pathlib import Path
from typing import ClassVar

TOP = Path(__file__).resolve().parents[1]
sys.path.append(str(TOP / "tools"))

from crate_copies import say  # noqa: E402
from gate_crates import proved_crates  # noqa: E402
from try_compiler import Ended, NotCompiled  # noqa: E402
from unproved_programs import PLAIN, open_program  # noqa: E402

# A program that runs for so many seconds is ended. No run takes a tenth of it, also on a processor that it shares with four others.
PATIENCE = 1200

# A program that was seen to stand still so often, a second apart, will never end.
LOOKS = 30
STANDS_STILL = b"stands still: all its threads wait"


class TooSlow(Exception):
    """A run was ended for its time, which says nothing of the program. What needs the run is skipped with a word, and never fails."""


@dataclass(frozen=True)
class Printed:
    """What a program printed on standard output and on standard error, with its status; and what it took, in which two may differ and
    are equal: the wall time and the processor time in seconds, and the greatest resident memory in bytes."""

    out: bytes
    status: int = 0
    errors: bytes = b""
    wall: float = field(default=0.0, compare=False)
    processor: float = field(default=0.0, compare=False)
    memory: int = field(default=0, compare=False)

    def whole(self):
        """All that was printed, and the status as the last line: the form of the files beside the workloads of checks/."""
        return self.out + self.errors + b"status %d\n" % self.status

    def __str__(self):
        return f"status {self.status}, output {self.out!r}, errors {self.errors!r}"


def stored(file):
    """What a file beside a workload says that is printed, all of it on standard output. The status is its last line; or, where the folder
    has a list of statuses, what that says of the workload, and else 0."""
    statuses = file.parent / "statuses"
    if statuses.is_file():
        known = dict(re.findall(r"^([^#\s]\S*) (\d+)$", statuses.read_text(), re.MULTILINE))
        return Printed(file.read_bytes(), int(known.get(file.stem, 0)))
    *lines, status = file.read_bytes().splitlines(keepends=True)
    return Printed(b"".join(lines), int(status.removeprefix(b"status ")))


def limit(limits):
    for kind, most in limits.items():
        resource.setrlimit(kind, (most, most))


def threads_of(number):
    """The states of a process's threads, as the system names them, and what processor time they have used; '' where it doesn't tell."""
    states, used = "", 0
    for file in Path(f"/proc/{number}/task").glob("*/stat"):
        with suppress(OSError):
            words = file.read_text(errors="replace").rpartition(")")[2].split()
            states, used = states + words[0], used + int(words[11]) + int(words[12])
    return states, used


def watch(process, has_ended, seconds, may_wait, told):
    """Ends a process after so many seconds, and tells that it was slow; or, unless it may wait for somebody else, as soon as it stands
    still: each thread sleeps, and none has used the processor meanwhile. A thread that waits for a busy processor doesn't sleep."""
    end, looks, before = time.monotonic() + seconds, 0, None
    while not has_ended.wait(1):
        now = threads_of(process.pid)
        looks = looks + 1 if set(now[0]) == {"S"} and now == before else 0
        before = now
        if time.monotonic() >= end or looks >= LOOKS and not may_wait:
            told.append("slow" if time.monotonic() >= end else "still")
            os.kill(process.pid, signal.SIGKILL)
            return


def run(words, data=b"", seconds=PATIENCE, limits=None, stdin=None, stdout=None, stderr=None, may_wait=True, **more):
    """Runs a program on these bytes to its end; where that isn't there after so many seconds, the program is ended, and TooSlow. Limits are
    those of the system, by their kind. What is read comes from elsewhere where that is given; so what is written goes there, and isn't
    kept then. A program that may not wait for another one is ended where it stands still, and says so."""
    with tempfile.TemporaryFile() as given, tempfile.TemporaryFile() as out, tempfile.TemporaryFile() as errors:
        given.write(data)
        given.seek(0)
        begun = time.monotonic()
        process = subprocess.Popen(
            words, stdin=stdin or given, stdout=stdout or out, stderr=stderr or errors,
            preexec_fn=partial(limit, limits) if limits else None, **more
        )
        has_ended, told = threading.Event(), []
        watcher = threading.Thread(target=watch, args=(process, has_ended, seconds, may_wait, told), daemon=True)
        watcher.start()
        # its number stays its own until it is waited for
        os.waitid(os.P_PID, process.pid, os.WEXITED | os.WNOWAIT)
        wall = time.monotonic() - begun
        has_ended.set()
        watcher.join()
        _, ended, used = os.wait4(process.pid, 0)
        process.returncode = status = os.waitstatus_to_exitcode(ended)
        if "slow" in told and status == -signal.SIGKILL:
            raise TooSlow(f"the machine is too slow, or too busy: {' '.join(map(str, words))[:200]} has no end after {seconds} seconds")
        out.seek(0)
        errors.seek(0)
        said = errors.read() + STANDS_STILL * ("still" in told)
        return Printed(out.read(), status, said, wall, used.ru_utime + used.ru_stime, used.ru_maxrss * 1024)


def run_on_terminal(words, data=b"", **more):
    """The same of a program whose standard error is a terminal, which takes a few thousand bytes before anybody reads."""
    watched, errors = os.openpty()
    try:
        printed = run(words, data, stderr=errors, **more)
    finally:
        os.close(errors)
    said = b""
    with open(watched, "rb", buffering=0) as terminal, suppress(OSError):
        while piece := terminal.read(4096):
            said += piece
    return replace(printed, errors=said)


# The programs that explain a fault on standard error, behind its line, and whether that line stands there too. Where there is no fault they
# tell of keys that nothing reads. checks/faults/ looks at what they say; elsewhere it is left out.
EXPLAINING = {"eevdf": False, "eevdf_orders": True, "eevdf_timeline": True}


def without_explanation(name, printed):
    """What a program printed, but for what it said beside the line of a fault."""
    if name not in EXPLAINING or printed.status not in (0, 1, 2, 3):
        return printed
    has_line = EXPLAINING[name] and printed.status != 0
    line = b"".join(printed.errors.partition(b"\n")[:2])
    return replace(printed, errors=line if has_line else b"")


class Programs:
    """The programs of a checkout: built ones, and by their names the paths of those that are compiled without a proof."""

    def __init__(self, top=TOP, unproved=None):
        self.top = Path(top)
        self.unproved = unproved or {}

    def path(self, name):
        return self.unproved.get(name) or self.top / "crates" / name / "out" / name

    def run(self, name, words, data=b"", **more):
        """Runs a program, which waits for nobody else, and leaves out what it says beside the line of a fault."""
        return without_explanation(name, run([self.path(name), *words], data, may_wait=False, **more))


def top_of_programs():
    """The checkout whose programs are tried, and whether the environment names it as TOP: nothing is proved then."""
    named = os.environ.get("TOP")
    return Path(named or TOP).resolve(), bool(named)


def is_proved(name):
    """Whether the program that is tried is a proved one: where the gate doesn't prove it, it has to be built, and no source be newer."""
    top, _ = top_of_programs()
    if top != TOP:
        return Programs(top).path(name).exists()
    return name in proved_crates() or subprocess.run([TOP / "tools" / "current", name]).returncode == 0


def compile_unproved(name):
    """The path of a program, compiled from its sources without a proof. It is that of the open file, so it stays good as long as this
    process runs, whatever is compiled meanwhile."""
    told = []

    def tell(how):
        told.append(how)
        say(name, f"not the proved program: these sources, compiled with checks{how}")

    try:
        opened = open_program(name, lambda: tell(", in a minute"), PLAIN)
    except NotCompiled as why:
        sys.exit(f"FAILED: {name} doesn't compile:\n{why}\n0 passed, 1 failed")
    except Ended as ended:
        signal.signal(ended.args[0], signal.SIG_DFL)
        os.kill(os.getpid(), ended.args[0])
    if not told:
        tell("")
    return Path(f"/proc/{os.getpid()}/fd/{opened}")


def kept_elsewhere(top, name):
    """The path of a program that the checks of another checkout have compiled without a proof, the last one; None where there is none."""
    kept = [it for it in (top / "crates" / name / "out" / PLAIN.folder).glob("*") if os.access(it, os.X_OK)]
    return max(kept, key=lambda it: it.stat().st_mtime, default=None)


def built(*names, all_proved=False):
    """The programs of this checkout. Of these names those that the gate proves are built first where they aren't; of the others, unless
    they are built and current or all are to be proved, the sources are compiled without a proof. Where the environment names a checkout as
    TOP, nothing is proved, and of another one than this the programs are taken as they are."""
    top, is_named = top_of_programs()
    unproved = {}
    for name in names:
        if all_proved or is_proved(name):
            if not is_named and subprocess.run([TOP / "build", name]).returncode:
                sys.exit(3)
        else:
            unproved[name] = compile_unproved(name) if top == TOP else kept_elsewhere(top, name)
    programs = Programs(top, unproved)
    if missing := [name for name in names if not programs.path(name).exists()]:
        sys.exit(f"FAILED: {programs.top} has no built program {', '.join(missing)}\n0 passed, 1 failed")
    return programs


@dataclass
class Checks:
    """Counts what passed, failed or was skipped, and says so; what passed is only counted where it is many."""

    are_many: bool = False
    passed: int = 0
    failed: int = 0
    skipped: int = 0
    # the first of the process, which counts all in the end
    first: ClassVar = None

    def __post_init__(self):
        Checks.first = Checks.first or self

    def look(self, name, fault, said=""):
        """Counts a check: failed where there is a fault."""
        if fault:
            self.failed += 1
            print(f"FAILED: {name}: {fault}", flush=True)
        else:
            self.passed += 1
            if not self.are_many:
                print(f"passed: {name}{said and ': ' + said}", flush=True)

    def expect(self, name, printed, is_right):
        """Counts a check that fails with what was printed."""
        self.look(name, None if is_right else f"prints {printed}")

    def leave_out(self, name, why):
        self.skipped += 1
        print(f"skipped: {name}: {why}", flush=True)

    @contextmanager
    def unless_slow(self, name):
        """Leaves out what is looked at here where a run of it is too slow."""
        try:
            yield
        except TooSlow as why:
            self.leave_out(name, why)

    def skip(self, name, tool, package):
        """Leaves out what takes a tool that the machine hasn't got."""
        self.leave_out(name, f"there is no {tool} (Debian package {package})")

    def add(self, other):
        """Takes over what was counted elsewhere."""
        self.passed += other.passed
        self.failed += other.failed
        self.skipped += other.skipped

    def end(self):
        """Says the count, and gives the status to end with."""
        if self.skipped:
            print(f"{self.skipped} skipped")
        print(f"{self.passed} passed, {self.failed} failed")
        return 1 if self.failed else 0


def status_of(main):
    """The status to end with of a check that does this. Where a run is too slow and nothing else is left out for it, the rest is."""
    try:
        return main()
    except TooSlow as why:
        checks = Checks.first or Checks()
        checks.leave_out("all that comes after", why)
        return checks.end()

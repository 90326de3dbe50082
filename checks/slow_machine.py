#!/usr/bin/env -S python3 -B
"""checks/slow_machine.py [--cpu N] [--loops N] [NAME..]: looks whether no step of the gate fails where the machine is slow. Each step that
needs no proof is run by itself, with all its threads and processes on one processor (the last one), beside four loops there that never
end; so it takes five to twenty times as long as in the gate. The steps are the lines `begin NAME COMMAND..` of ./test, all or those named,
without `nice`, since the loops would leave them next to nothing. A look that is skipped for slowness is told, and is no fault; a step whose
programs aren't built is skipped. All of it takes hours. The steps that need no built program take 6 minutes, but for the tests, `unbuilt`
and `recipe`, which compile or prove much. TOP names another checkout whose programs are run. The last line is 'N passed, M failed'."""

import argparse
import os
import re
import subprocess
import sys
import tempfile
import time
from contextlib import contextmanager
from pathlib import Path

from runner import TOP, Checks

BEGUN = re.compile(r"^begin (\w+) (.*)$", re.MULTILINE)
# What reads the words of `rt ci` as they come is a proof, or waits for one.
OF_PROOFS = "reading "
# What a step's command finds in ./test: where the library for C is, and what looks at that.
PRELUDE = """
said=$1 archive_status=0
nice() { [ "$1" != -n ] || shift 2; "$@"; }
look_at_c_library() { shift; checks/c_library/run.sh "$@"; }
"""
UNBUILT = re.compile(r"has no built program|No such file or directory: \S*/crates/\w+/out/|there is no \S+: build it by"
                     r"|there is no archive to look at")
IS_SLOW = re.compile(r"^skipped: .*the machine is too slow, or too busy.*$", re.MULTILINE)


def steps():
    """The name of each step that needs no proof, and its command."""
    return {name: command for name, command in BEGUN.findall((TOP / "test").read_text()) if not command.startswith(OF_PROOFS)}


# A loop that ends with this process alone.
LOOP = "import os\nparent = os.getppid()\nwhile os.getppid() == parent: sum(range(1000000))"


@contextmanager
def busy(count):
    """So many loops on the processors of this process."""
    loops = [subprocess.Popen([sys.executable, "-ISc", LOOP]) for _ in range(count)]
    try:
        yield
    finally:
        for loop in loops:
            loop.kill()
            loop.wait()


def look_at_step(checks, name, command, top):
    with tempfile.TemporaryDirectory(prefix="slow-") as said:
        Path(said, "built").symlink_to(top / "crates" / "eevdf_c" / "out")
        begun = time.monotonic()
        words = ["bash", "-c", f"{PRELUDE}{command}", name, said]
        done = subprocess.run(words, cwd=TOP, env={**os.environ, "TOP": str(top)}, stdin=subprocess.DEVNULL, stdout=subprocess.PIPE,
                              stderr=subprocess.STDOUT, text=True, errors="replace")
    took = f"{time.monotonic() - begun:.0f} seconds"
    if UNBUILT.search(done.stdout):
        checks.leave_out(name, f"{top} hasn't all that it needs built")
        return
    for line in IS_SLOW.findall(done.stdout):
        print(f"{name}: {line}", flush=True)
    last = done.stdout.strip().rpartition("\n")[2]
    is_well = done.returncode == 0 and re.fullmatch(r"\d+ passed, 0 failed", last)
    if not is_well:
        print(done.stdout[-6000:], flush=True)
    checks.look(name, None if is_well else f"status {done.returncode} after {took}: {last}", f"{took}: {last}")


def parse_words():
    words = argparse.ArgumentParser(description=__doc__, formatter_class=argparse.RawDescriptionHelpFormatter)
    words.add_argument("--cpu", type=int, default=max(os.sched_getaffinity(0)), help="the processor, by its number")
    words.add_argument("--loops", type=int, default=4, help="how many loops run beside")
    words.add_argument("names", nargs="*", metavar="NAME", help="a step of ./test")
    return words.parse_args()


def main():
    words, checks, all_steps = parse_words(), Checks(), steps()
    if unknown := [name for name in words.names if name not in all_steps]:
        sys.exit(f"slow_machine.py: ./test has no step {unknown[0]} without a proof: {' '.join(all_steps)}")
    top = Path(os.environ.get("TOP", TOP)).resolve()
    os.sched_setaffinity(0, {words.cpu})
    with busy(words.loops):
        for name in words.names or all_steps:
            look_at_step(checks, name, all_steps[name], top)
    return checks.end()


if __name__ == "__main__":
    sys.exit(main())

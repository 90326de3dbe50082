#!/usr/bin/env -S python3 -B
"""checks/unbuilt.py: what a user sees first. In a copy of the tree where nothing is built, two runs of `./eevdf` at the same time have to
answer a workload of examples/ with its stored answer on standard output, and to say in one line on standard error, which README has, that
this isn't the proved program. One of them compiles it. The other waits for that, and takes what is kept, as each further run does: these
may take a PART of its processor time. All workloads of examples/ have to be answered so, and the streams and words of launched.py. A source
that doesn't compile is told of, and a run that is ended leaves nothing behind, no file and no process. The scripts say how they are used.
The last line is 'N passed, M failed'."""

import os
import re
import shutil
import signal
import subprocess
import sys
import tempfile
import time
from concurrent.futures import ThreadPoolExecutor
from contextlib import contextmanager, suppress
from pathlib import Path

from launched import WORKLOAD, look_at_streams, without_launcher
from runner import TOP, Checks, TooSlow, run, run_on_terminal, status_of, stored

# What takes the kept program takes a hundredth of what compiles it, on any machine.
PART = 10
# How many seconds a run may take that compiles the program first, on a busy machine.
PATIENCE = 4 * 3600
# A run is ended so many seconds after it has begun a file, when it compiles, and has so many to be cleared away, on a busy machine.
ENDED_AFTER, CLEARED = 6, 600
# What clears it away: where this is still at it then, the machine is slow.
CLEARING = b"process_trees.py"
# By Ctrl-C or the end of the session it may be ended at any time: these are the seconds after which it is tried.
MOMENTS = (0.2, 0.5, 0.8, 1.1, 1.5, 2, 3, 5)

# A source of a crate below the program.
SOURCE = "crates/eevdf_weight/src/lib.rt"
# A script of so many ticks, whose report and history are longer than MOST_OF_A_TRY, which is what `rt try` prints at most.
TICKS, MOST_OF_A_TRY = 20000, 2**20
DEED = b'"0 tick 1000000000",\n'
LINE = b"tick 1000000000: charged 0 resched\n"
LONG = b'version = 1\nprogram = [[]]\nscript = [\n"0 pick",\n%s]\n[[task]]\n' % (DEED * TICKS)


def words_of(workload):
    """The words of the command, which stand in the workload's first line: '# eevdf solo'."""
    return workload.partition(b"\n")[0].decode().split()[2:]


def launch(copy, workload, **more):
    """What the command of a workload's first line prints."""
    text = workload.read_bytes()
    return run([copy / "eevdf", *words_of(text)], text, **more)


def is_stored(printed, workload):
    wanted = stored(workload.with_suffix(".out"))
    return (printed.out, printed.status) == (wanted.out, wanted.status)


def kept_in(copy):
    """The names of what is kept of the program."""
    folder = copy / "crates" / "eevdf" / "out" / "unproved"
    return sorted(file.name for file in folder.iterdir() if file.name != "lock")


def look_at_help(checks, copy):
    """What a program says of itself is told without compiling it."""
    for program in ("eevdf", "eevdf_orders", "eevdf_phases", "eevdf_timeline"):
        for word in ("--help", "--version"):
            printed = run([copy / program, word])
            is_told = (printed.status, printed.errors) == (0, b"") and printed.out.startswith(program.encode())
            checks.expect(f"./{program} {word}", printed, is_told and not (copy / "crates" / program / "out").exists())


def look_at_first(checks, copy):
    """The first answers."""
    with ThreadPoolExecutor() as pool:
        runs = list(pool.map(lambda _: launch(copy, WORKLOAD, seconds=PATIENCE), range(2)))
    page = (TOP / "README.md").read_text()
    for name, printed in zip(("the first", "a second at the same time"), runs):
        said = printed.errors.decode(errors="replace")
        checks.expect(f"{name} answers", printed, is_stored(printed, WORKLOAD))
        is_said = said.count("\n") == 1 and said.startswith("eevdf: not the proved program") and "`./build eevdf`" in said
        checks.expect(f"{name} says that it isn't the proved program", said, is_said)
        checks.expect(f"{name} says so in the line that README.md has", said, f"\n    {said}" in page)
    waited, compiled = sorted(printed.processor for printed in runs)
    took = f"{compiled:.0f} and {waited:.1f} seconds of processor time"
    checks.look("the program is compiled once", None if waited <= compiled / PART else took, took)
    checks.look("the program is kept", None if len(kept_in(copy)) == 1 else f"{kept_in(copy)}")
    return compiled


def look_at_kept(checks, copy, compiled):
    """The answers of the program that is kept, which took so many seconds to compile."""
    workloads = sorted((TOP / "examples").glob("*.toml"))
    runs = {workload.stem: (launch(copy, workload), workload) for workload in workloads}
    wrong = [f"{name}: {printed}" for name, (printed, workload) in runs.items() if not is_stored(printed, workload)]
    checks.look(f"answers the {len(workloads)} workloads of examples/", "; ".join(wrong))
    longest = max(printed.processor for printed, _ in runs.values())
    took = f"{longest:.1f} seconds of processor time"
    checks.look("isn't compiled again where it is kept", took if longest > compiled / PART else None, took)
    printed, _ = runs[WORKLOAD.stem]
    is_said = printed.errors.count(b"\n") == 1 and without_launcher(printed.errors) == b"" and b"compiled" not in printed.errors
    checks.expect("says that it isn't the proved program, and compiles nothing", printed, is_said)


def look_at_long_report(checks, copy):
    printed = run([copy / "eevdf", "solo", "--history"], LONG)
    lines = printed.out.count(LINE), printed.out.count(DEED)
    is_whole = (printed.status, lines) == (0, (TICKS, TICKS)) and len(printed.out) > MOST_OF_A_TRY
    why = f"status {printed.status}, {len(printed.out)} bytes, {lines} lines, errors {printed.errors[-1000:]!r}"
    checks.look(f"prints {len(printed.out)} bytes", None if is_whole else why)


@contextmanager
def changed(copy, more):
    """A source of the copy has more text at its end meanwhile."""
    source = copy / SOURCE
    text = source.read_bytes()
    source.write_bytes(text + more)
    try:
        yield
    finally:
        source.write_bytes(text)


def look_at_wrong_source(checks, copy):
    with changed(copy, b"fn (\n"):
        printed = launch(copy, WORKLOAD, seconds=PATIENCE)
    is_told = f"{SOURCE}:".encode() in printed.errors and b"Traceback" not in printed.errors
    checks.expect("says where a source doesn't compile", printed, (printed.status, printed.out) == (3, b"") and is_told)


def look_at_terminal(checks, copy):
    """A terminal is told for how long it has been compiled, in a line that is removed before anything else is said."""
    text = WORKLOAD.read_bytes()
    with changed(copy, b"fn (\n"):
        printed = run_on_terminal([copy / "eevdf", "solo"], text, seconds=PATIENCE)
    told, is_removed, behind = printed.errors.partition(b"\r\x1b[K")
    is_told = re.search(rb"(\reevdf: compiling, \d+:\d\d)+\Z", told) and is_removed and b"compiling" not in behind
    checks.expect("a terminal is told for how long it has been compiled", printed, is_told and SOURCE.encode() in behind)


def begun_in(folder, process):
    """What a run has begun in the folder of its temporary files: it is waited for, since a busy machine takes its time."""
    deadline = time.monotonic() + PATIENCE
    while not os.listdir(folder) and process.poll() is None and time.monotonic() < deadline:
        time.sleep(0.1)
    return os.listdir(folder)


def end_run(copy, folder, number):
    """Ends a run that compiles, by a signal: how it ended, what it had begun and what it left."""
    with open(WORKLOAD, "rb") as given:
        words = [copy / "eevdf", "solo"]
        process = subprocess.Popen(words, stdin=given, env={**os.environ, "TMPDIR": str(folder)}, stderr=subprocess.DEVNULL)
    begun = begun_in(folder, process)
    time.sleep(ENDED_AFTER)
    process.send_signal(number)
    status = process.wait()
    deadline = time.monotonic() + CLEARED
    while os.listdir(folder) and time.monotonic() < deadline:
        time.sleep(0.1)
    if os.listdir(folder):
        look_whether_cleared(processes_of(folder))
    return status, begun, os.listdir(folder)


def look_whether_cleared(processes):
    """Nothing is known of what is left as long as one of these processes is at work to clear it away."""
    for number in processes:
        with suppress(OSError):
            if CLEARING in Path(f"/proc/{number}/cmdline").read_bytes():
                raise TooSlow(f"the machine is too slow, or too busy: after {CLEARED} seconds it is still being cleared away")


def processes_of(folder):
    """The processes that have the folder for that of their temporary files, which all that a run begins are told."""
    found = []
    for file in Path("/proc").glob("[0-9]*/environ"):
        with suppress(OSError):
            if f"\0TMPDIR={folder}".encode() in b"\0" + file.read_bytes():
                found.append(int(file.parent.name))
    return found


def end_whole_run(copy, folder, number, seconds):
    """Ends a run that compiles after some seconds, and gives the processes that it leaves: a terminal sends Ctrl-C to all that are in its
    foreground, and a session that ends SIGTERM to one."""
    with open(WORKLOAD, "rb") as given:
        process = subprocess.Popen([copy / "eevdf", "solo"], stdin=given, env={**os.environ, "TMPDIR": str(folder)},
                                   stdout=subprocess.DEVNULL, stderr=subprocess.DEVNULL, start_new_session=True)
    time.sleep(seconds)
    if number == signal.SIGINT:
        os.killpg(process.pid, number)
    else:
        process.send_signal(number)
    process.wait()
    deadline = time.monotonic() + CLEARED
    while (left := processes_of(folder)) and time.monotonic() < deadline:
        time.sleep(0.1)
    try:
        look_whether_cleared(left)
    finally:
        for it in left:
            with suppress(ProcessLookupError):
                os.kill(it, signal.SIGKILL)
    return left


def look_at_interrupted(checks, copy, folder):
    """Nothing is left, no process either, of a run that is ended at any time while it compiles a source that was changed."""
    folder.mkdir()
    for number in (signal.SIGINT, signal.SIGTERM):
        for seconds in MOMENTS:
            name = f"leaves nothing where {number.name} ends it after {seconds} seconds"
            with checks.unless_slow(name):
                with changed(copy, b"// changed\n"):
                    processes = end_whole_run(copy, folder, number, seconds)
                left = processes + os.listdir(folder)
                checks.look(name, f"{left} left" if left else None)


def look_at_ended(checks, copy, folder):
    """What a run leaves that is ended while it compiles a source that was changed."""
    folder.mkdir()
    kept = kept_in(copy)
    for number in (signal.SIGTERM, signal.SIGKILL):
        with checks.unless_slow(f"leaves nothing where {number.name} ends it"):
            with changed(copy, b"// changed\n"):
                status, begun, left = end_run(copy, folder, number)
            is_right = status == -number and begun and not left and kept_in(copy) == kept
            checks.look(f"leaves nothing where {number.name} ends it", None if is_right else f"status {status}, {left} of {begun}")
    printed = launch(copy, WORKLOAD)
    checks.expect("answers as before where the source is as before", printed, is_stored(printed, WORKLOAD))


def look_at_build(checks, copy):
    """`./build` without a word, and with a wrong one where its input is a folder."""
    for words, streams, status in (("", "", 2), ("nothing-like-it", "</", 3)):
        printed = run(["bash", "-c", f'exec "$@" {streams}', "bash", copy / "build", *words.split()])
        is_told = printed.errors.count(b"\n") == 1 and b"crates.txt" in printed.errors
        checks.expect(f"./build {words} {streams}".strip(), printed, (printed.status, printed.out) == (status, b"") and is_told)


def look_at_usage(checks, copy):
    """The scripts say how they are used, and do nothing else then."""
    for script in ("test", "build", "install"):
        for word in ("--help", "-h"):
            printed = run([copy / script, word])
            is_usage = (printed.status, printed.errors) == (0, b"") and printed.out.startswith(f"usage: ./{script} ".encode())
            checks.expect(f"./{script} {word}", printed, is_usage)
    printed = run([copy / "test", "faults"])
    is_usage = (printed.status, printed.out) == (2, b"") and printed.errors.startswith(b"usage: ./test ")
    checks.expect("./test with a word", printed, is_usage)


def main():
    checks = Checks()
    with tempfile.TemporaryDirectory(prefix="unbuilt-") as held:
        copy = Path(held) / "tree"
        shutil.copytree(TOP, copy, ignore=shutil.ignore_patterns(".git", "out", "must-fail"), symlinks=True)
        look_at_help(checks, copy)
        look_at_kept(checks, copy, look_at_first(checks, copy))
        look_at_long_report(checks, copy)
        look_at_streams(checks, "./eevdf, unbuilt", copy / "eevdf")
        look_at_wrong_source(checks, copy)
        look_at_terminal(checks, copy)
        look_at_ended(checks, copy, Path(held) / "ended")
        look_at_interrupted(checks, copy, Path(held) / "interrupted")
        look_at_build(checks, copy)
        look_at_usage(checks, copy)
    return checks.end()


if __name__ == "__main__":
    sys.exit(status_of(main))

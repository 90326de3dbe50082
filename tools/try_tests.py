"""Runs the tests of a crate or a program without a proof, by `rt try`. That compiles the crate and all below it from their sources, with
checks."""

import re
import subprocess
import tempfile
import time

from try_compiler import end_look_at_names

# What is said of a test, and the line after it.
RESULT = re.compile(r"^test (\S+) \.\.\. (ok|FAILED)$(?=\n(.*))", re.MULTILINE)
# What is said of a test or a program that was ended for its time, and what comes of it then in place of 'FAILED'.
IS_LATE, ENDED = "checked: no-answer: the program did not end within the time limit", "ended"
# How many seconds all of it may take, on a busy machine.
PATIENCE = 4 * 3600
# How many seconds there are between two looks whether it is done.
PAUSE = 0.2


def wait_for_end(rt):
    """Waits until `rt try` has ended, without its look at names, and says whether it has ended by itself."""
    deadline = time.monotonic() + PATIENCE
    try:
        while rt.poll() is None and time.monotonic() < deadline:
            end_look_at_names(rt)
            time.sleep(PAUSE)
        return rt.poll() is not None
    finally:
        rt.terminate()
        rt.wait()


def try_it(folder, words):
    """What `rt try` says with these words in a crate's folder, with a line at its end where it was ended for its time."""
    with tempfile.TemporaryFile() as said:
        rt = subprocess.Popen(["rt", "try", *words], cwd=folder, stdin=subprocess.DEVNULL, stdout=said, stderr=subprocess.STDOUT)
        has_ended = wait_for_end(rt)
        said.seek(0)
        return said.read().decode(errors="replace") + ("" if has_ended else f"\n{IS_LATE}\n")


def try_tests(folder, seconds, names=()):
    """What comes of each test of the crate in a folder, or of those that are named: by its name 'ok', 'FAILED' or, where it has run for so
    many seconds, 'ended'; and the line after it. And all that was said."""
    text = try_it(folder, ["--test", "--seconds", str(seconds), "--", *names])
    results = ((name, result, line.strip()) for name, result, line in RESULT.findall(text))
    return {name: (ENDED if line == IS_LATE else result, line) for name, result, line in results}, text


def try_program(folder, seconds, words):
    """The lines that the program in a folder prints when it is run with these words: None where it wasn't run, and what was said then. One
    that has run for so many seconds is ended."""
    lines = try_it(folder, ["--seconds", str(seconds), "--", *words]).splitlines()
    ends = [place for place, line in enumerate(lines) if line.startswith("checked: ")]
    return lines[:ends[0]] if ends else None, lines[-3:]

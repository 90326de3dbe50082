#!/usr/bin/env -S python3 -B
"""checks/unproved.py [CRATE..]: what `./test` doesn't prove, every crate that tools/gate_crates.py leaves, or those named.
- The tests of a crate whose name ends in `_tests` are compiled and run without a proof. A proof of a test would say that the test itself
  doesn't overflow, and takes as long as that of what it tests. They are compiled with checks, which stop at an overflow, an index out of
  bounds or a failed `assert!`. Each test that stands in the sources has to be run and to pass.
- A program is compiled with checks and run as `rt ci` runs it, on the files args, stdin and data/ beside its sources, and has to print what
  the file stdout has, with the status of the file status. Other checks run the same program (runner.py).
- A library has to stand below one of these programs or tests, so that it is compiled too.
- The sources of each have to be laid out as `rt fmt` does it.
The last line is 'N passed, M failed'."""

import re
import shutil
import subprocess
import sys
import tempfile
from pathlib import Path

from runner import TOP, Checks, Printed, compile_unproved, run, status_of

sys.path.append(str(TOP / "tools"))

from crate_copies import SOURCES, copy_crates, folder_of, read_crates, with_all_below  # noqa: E402
from gate_crates import is_of_tests, unproved_crates  # noqa: E402
from try_tests import ENDED, IS_LATE, try_tests  # noqa: E402

# A test that has run for so many seconds is ended: it is run once more by itself, and skipped where it is ended then too.
SECONDS = 1800

TEST = re.compile(r"^ *#\[test\]\n(?: *#\[.*\n)*.*\bfn (\w+)", re.MULTILINE)


def tests_of(crate):
    """The names of the tests that stand in a crate's sources, as they are printed: with the modules that their files are."""
    top = folder_of(crate) / "src"
    names = []
    for file in sorted(top.rglob("*.rt")):
        modules = [] if file == top / "lib.rt" else file.relative_to(top).with_suffix("").parts
        names += ["::".join((*modules, name)) for name in TEST.findall(file.read_text())]
    return names


def look_at_tests(checks, crate, top):
    """Runs the tests of a crate, of which there is a copy."""
    wanted = tests_of(crate)
    results, said = try_tests(top / "crates" / crate, SECONDS)
    not_run = (ENDED, IS_LATE) if said.endswith(f"\n{IS_LATE}\n") else ("", "it wasn't run")
    for test in dict.fromkeys((*wanted, *results)):
        result, line = results.get(test, not_run)
        if result == ENDED:
            result, line = try_tests(top / "crates" / crate, SECONDS, [test])[0].get(test, (result, line))
        if result == ENDED:
            checks.leave_out(f"{crate}: {test}", "the machine is too slow, or too busy, or the test has no end")
        else:
            checks.look(f"{crate}: {test}", None if result == "ok" else line)
    if not wanted:
        checks.look(crate, "it has no test")
    if len(results) < len(wanted):
        print(said[-2000:], flush=True)
    print(f"{crate}: {len(results)} of {len(wanted)} tests were run", flush=True)


def text_beside(crate, name):
    file = folder_of(crate) / name
    return file.read_bytes() if file.is_file() else b""


def is_program(crate):
    return (folder_of(crate) / "src" / "main.rt").is_file()


def look_at_program(checks, crate):
    """Runs a program as `rt ci` does: in a folder with the files of data/, and with few variables."""
    program = compile_unproved(crate)
    with tempfile.TemporaryDirectory(prefix=f"{crate}-") as held:
        folder = Path(held) / "data"
        if (folder_of(crate) / "data").is_dir():
            shutil.copytree(folder_of(crate) / "data", folder)
        else:
            folder.mkdir()
        variables = {"PATH": "/usr/local/bin:/usr/bin:/bin", "HOME": held, "TMPDIR": held, "LANG": "C.UTF-8"}
        words = text_beside(crate, "args").decode(errors="surrogateescape").splitlines()
        printed = run([program, *words], text_beside(crate, "stdin"), may_wait=False, cwd=folder, env=variables)
    wanted = Printed(text_beside(crate, "stdout"), int(text_beside(crate, "status") or 0))
    checks.expect(crate, printed, (printed.out, printed.status) == (wanted.out, wanted.status))
    print(f"{crate}: it was run", flush=True)


def files_in(folder):
    return {file: file.read_bytes() for part in SOURCES for file in (folder / part).rglob("*") if file.is_file()}


def look_at_layout(checks, crate, top):
    """Looks whether `rt fmt` leaves a copy of a crate as it is."""
    folder = top / "crates" / crate
    before = files_in(folder)
    laid_out = subprocess.run(["rt", "fmt"], cwd=folder, stdin=subprocess.DEVNULL, capture_output=True, text=True)
    after = files_in(folder)
    others = [str(file.relative_to(folder)) for file, text in after.items() if before.get(file) != text]
    if laid_out.returncode or others:
        checks.look(f"{crate}: the layout", laid_out.stdout + laid_out.stderr + f"rt fmt lays out otherwise: {', '.join(others)}")
        return
    checks.look(f"{crate}: the layout", None)


def look_at_libraries(checks, crates, named):
    """Looks whether each library that isn't proved is compiled: for a program or for tests."""
    compiled = with_all_below(crates, [it for it in unproved_crates() if is_of_tests(it) or is_program(it)])
    for crate in named:
        if crate not in compiled:
            checks.look(crate, "it is neither proved nor compiled: no program and no tests stand on it")


def main():
    crates = read_crates()
    named = sys.argv[1:] or unproved_crates()
    checks = Checks(are_many=True)
    look_at_libraries(checks, crates, named)
    with tempfile.TemporaryDirectory(prefix="unproved-") as held:
        top = Path(held)
        copy_crates(with_all_below(crates, named), top)
        for crate in named:
            if is_of_tests(crate):
                look_at_tests(checks, crate, top)
            elif is_program(crate):
                with checks.unless_slow(crate):
                    look_at_program(checks, crate)
            look_at_layout(checks, crate, top)
    return checks.end()


if __name__ == "__main__":
    sys.exit(status_of(main))

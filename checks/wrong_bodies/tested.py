#!/usr/bin/env -S python3 -B
"""checks/wrong_bodies/tested.py [--look] [NAME..]: tries the wrong bodies of tested/, all or those named, which the contracts of the public
calls allow, so that a test has to refuse them.

Each is planted in a copy of the crates, and the test that its line `refused by:` names is run there, unproved. It is refused where
the test fails or hasn't ended in time. In place of a test a program may stand there, with its words: it has to print the line that
`prints:` says, and the body is refused where it doesn't, or hasn't ended in time. All tests are run in a copy without a wrong body too,
and so are the programs, and those that are named have to pass there; one that hasn't ended in time there is skipped. With --look nothing
is tried: it looks whether each wrong body has its place in the crates, and its test is there. The last line is 'N passed, M failed'."""

import argparse
import re
import sys
import tempfile
from concurrent.futures import ThreadPoolExecutor
from dataclasses import dataclass
from pathlib import Path

from edits import TOP, BadEdit, Change, apply, changed, read_lines

sys.path.append(str(TOP / "tools"))

from crate_copies import copy_crates, folder_of, read_crates, with_all_below  # noqa: E402
from try_tests import ENDED, IS_LATE, try_program, try_tests  # noqa: E402

# The crates of the tests, and the programs.
TESTS = ("eevdf_tests", "workbench_tests")
PROGRAMS = ("eevdf_uses",)
# A test that has run for so many seconds is ended, which refuses a wrong body: some wait for ever. A right body takes a few, and on a busy
# machine half a minute.
SECONDS = 300
# So is a program, which makes many tries of its own in one run.
SECONDS_OF_A_PROGRAM = 1800

CRATES = read_crates()
COPIED = with_all_below(CRATES, TESTS + PROGRAMS)


@dataclass(frozen=True)
class Body:
    name: str
    test: str
    prints: str
    changes: tuple[Change, ...]

    def __str__(self):
        return self.name

    def is_of_a_program(self):
        return self.test.split()[0] in PROGRAMS


def read_body(file):
    changes, told = read_lines(file)
    if not told.get("refused by") or not changes:
        raise BadEdit(f"{file.stem}: a line `refused by:`, `file:`, `old:` or `new:` is missing")
    body = Body(file.stem, told["refused by"], told.get("prints", ""), changes)
    if body.is_of_a_program() != bool(body.prints):
        raise BadEdit(f"{file.stem}: a line `prints:` says what a program prints, and nothing else does")
    return body


def bodies_named(names):
    """The wrong bodies of these names: all where no name is given."""
    folder = TOP / "checks" / "wrong_bodies" / "tested"
    files = [folder / f"{name}.edit" for name in names] or sorted(folder.glob("*.edit"))
    return list(map(read_body, files))


def crate_of(test):
    """The crate that has a test, if one has it."""
    *modules, name = test.split("::")
    for crate in TESTS:
        file = folder_of(crate).joinpath("src", *modules).with_suffix(".rt")
        if file.is_file() and re.search(rf"#\[test\]\nfn {name}\(", file.read_text()):
            return crate
    return None


def has_its_place(body):
    """Whether the old texts of a wrong body stand in the crates, and its test is there."""
    try:
        changed(body, TOP)
    except (BadEdit, OSError) as why:
        print(f"FAILED: {body}: {why}", flush=True)
        return False
    if not body.is_of_a_program() and not crate_of(body.test):
        print(f"FAILED: {body}: there is no test {body.test}", flush=True)
        return False
    return True


# The tries.

def run_tests(crate, body, words):
    """What comes of each test of a crate that is run with a body in place: its name, 'ok' or 'FAILED', and the line after it."""
    with tempfile.TemporaryDirectory(prefix="tested-") as held:
        top = Path(held)
        copy_crates(COPIED, top)
        if body:
            apply(body, top)
        results, said = try_tests(top / "crates" / crate, SECONDS, words)
    return results, said[-500:]


def run_program(run, prints, body):
    """Whether a program, run by its name and its words with a body in place, prints this line, and what is said of it."""
    program, *words = run.split()
    with tempfile.TemporaryDirectory(prefix="tested-") as held:
        top = Path(held)
        copy_crates(COPIED, top)
        if body:
            apply(body, top)
        printed, said = try_program(top / "crates" / program, SECONDS_OF_A_PROGRAM, words)
    told = said if printed is None or IS_LATE in said else printed[-1:]
    return printed is None or prints in printed, " ".join(told or ["nothing is printed"])


def try_body(body):
    """Whether the test of a wrong body refuses it, and what is said of it."""
    if body.is_of_a_program():
        prints, told = run_program(body.test, body.prints, body)
        return not prints, f"{body.test}: {told}"
    crate = crate_of(body.test)
    results, said = run_tests(crate, body, [body.test]) if crate else ({}, "no crate has it")
    if body.test not in results:
        return False, f"the test wasn't run: {said}"
    result, line = results[body.test]
    if result == "ok":
        return False, f"{body.test} passes"
    return True, f"{body.test}: {line}"


def try_right_bodies(bodies):
    """Whether each test that these bodies name passes with no wrong body in place, but for those that are too slow, which are told."""
    tests = {body.test for body in bodies if not body.is_of_a_program()}
    runs = {(body.test, body.prints) for body in bodies if body.is_of_a_program()}
    tried = [run_tests(crate, None, []) for crate in TESTS if tests]
    come_to = {test: result for results, _ in tried for test, (result, _) in results.items()}
    programs = {run: run_program(run, prints, None) for run, prints in runs}
    slow = [*(test for test in tests if come_to.get(test) == ENDED), *(run for run, (_, told) in programs.items() if IS_LATE in told)]
    failed = sorted({test for test in tests if come_to.get(test) != "ok"} | {run for run, (prints, _) in programs.items() if not prints})
    for name in slow:
        print(f"skipped: {name} with no wrong body: the machine is too slow, or too busy", flush=True)
    failed = [name for name in failed if name not in slow]
    told = " ".join(said for _, said in tried)
    return not failed, ", ".join(failed) + f" failed: {told}" if failed else "every test that is named passes"


def try_all(bodies, jobs):
    """Prints what comes of the right bodies and of each wrong one, and gives whether it is as it should be."""
    with ThreadPoolExecutor(jobs) as pool:
        right = pool.submit(try_right_bodies, bodies)
        tries = [("no wrong body", right), *((body, pool.submit(try_body, body)) for body in bodies)]
        for body, tried in tries:
            passed, told = tried.result()
            print(f"{('refused' if tried is not right else 'passed') if passed else 'FAILED'}: {body}: {told}", flush=True)
            yield passed


def parse_words():
    words = argparse.ArgumentParser(description=__doc__, formatter_class=argparse.RawDescriptionHelpFormatter)
    words.add_argument("--look", action="store_true", help="tries nothing")
    words.add_argument("--jobs", type=int, default=1, help="how many bodies are tried at a time")
    words.add_argument("names", nargs="*", metavar="NAME", help="checks/wrong_bodies/tested/NAME.edit")
    return words.parse_args()


def main():
    words = parse_words()
    try:
        bodies = bodies_named(words.names)
    except (BadEdit, OSError) as why:
        print(f"{why}\n0 passed, 1 failed")
        return 1
    if not bodies:
        print("there are no wrong bodies\n0 passed, 1 failed")
        return 1
    results = list(map(has_its_place, bodies) if words.look else try_all(bodies, words.jobs))
    print(f"{results.count(True)} passed, {results.count(False)} failed")
    return 0 if all(results) else 1


if __name__ == "__main__":
    sys.exit(main())

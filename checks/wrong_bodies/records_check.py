#!/usr/bin/env -S python3 -B
"""checks/wrong_bodies/records_check.py: looks which refusals check.py puts on record, when it tries a wrong body again, and that it finds
lines that don't fit; and by which lemmas a wrong definition is refused. It runs over two small crates and a kit that are made for that: what stands for the prover refuses the functions that
a file names, and writes down which it was asked for. The last line is 'N passed, M failed'."""

import os
import shutil
import subprocess
import sys
import tempfile
from pathlib import Path

from edits import TOP

sys.path.append(str(TOP / "checks"))

from runner import Checks  # noqa: E402

LOW = """/// Twice a number.
pub fn twice(number: u32) -> u32
    ensures { result ≡ number + number }
{
    number + number
}
"""
HIGH = """ghost use Rattle.high.specs.Names.{wanted};

use low::twice;

/// Four times a number.
pub fn four_times(number: u32) -> u32
    ensures { result ≡ wanted (4 * number) }
{
    twice(twice(number))
}

/// A number.
pub fn same(number: u32) -> u32
    ensures { result ≡ number }
{
    number
}
"""
NAMES = """use Rattle.low.specs.Zero.{zero}

abbrev pub wanted : ℕ → ℕ
wanted n = n + zero

abbrev pub other : ℕ
other = 1
"""
EDIT = "refused: {}\nfile: {}\nold: {}\nnew: {}\n"
# A definition, and what is said of lemmas over it, of which the proof of `same` uses one, where it is wrong.
DEFINITION = "fours : ℕ\nfours = {}\n"
LEMMAS = """./proofs/Fours.antt:3:9: error: `four_is`: {}
./proofs/Fours.antt:5:9: error: 1 declaration that depends on `four_is`, which was rejected, was not checked: eight_is
./proofs/Twice.antt:2:9: error: 2 declarations that depend on `eight_is`, which was not admitted, were not checked: twice, all (via twice)
./proofs/same/Answers.antt:2:9: error: 1 declaration that depends on `all`, which was not admitted, was not checked: returns
"""
# What stands for `rt` and for the prover: both are run in other folders, so they are told where the kit is.
RT = """#!/bin/sh
case $1 in doc) echo {kit}/START-HERE.md ;; version) cat {kit}/version ;; esac
"""
PROVER = """#!/usr/bin/env python3
import re, sys
from pathlib import Path
kit = Path("{kit}")
asked = [after for word, after in zip(sys.argv, sys.argv[1:]) if word == "--only"]
with open(kit / "asked", "a") as it:
    it.write("".join(name + "\\n" for name in asked))
refused = (kit / "refused").read_text().split()
definition = Path("specs/Fours.antt")
is_wrong = definition.exists() and "5" in definition.read_text()
if is_wrong:
    print((kit / "lemmas").read_text())
for name in asked:
    no_proof = "no proof; `search` did not prove `returns`" if name in refused else "not proved" if is_wrong else ""
    print(f"fn high::{{name}}: {{no_proof or 'proved'}}")
"""


def write(file, text, mode=0o644):
    file.parent.mkdir(parents=True, exist_ok=True)
    file.write_text(text)
    file.chmod(mode)


class World:
    """A repository of two crates, with the code of the tries, and a kit."""

    def __init__(self, top):
        self.top, self.kit = top / "tree", top / "kit"
        self.high = self.top / "crates" / "high"
        self.record = self.high / "must-fail" / "refused.txt"
        shutil.copytree(TOP / "checks" / "wrong_bodies", self.top / "checks" / "wrong_bodies")
        shutil.copytree(TOP / "tools", self.top / "tools", symlinks=True)
        write(self.top / "crates.txt", "low:\nhigh: low\n")
        write(self.top / "crates" / "low" / "src" / "lib.rt", LOW)
        write(self.high / "src" / "lib.rt", HIGH)
        write(self.high / "must-fail" / "adds.edit", EDIT.format("four_times", "src/lib.rt", "twice(twice(number))", "twice(number)"))
        write(self.high / "must-fail" / "is_one_more.edit", EDIT.format("same", "src/lib.rt", "    number", "    number + 1"))
        write(self.top / "crates" / "low" / "specs" / "Zero.antt", "abbrev pub zero : ℕ\nzero = 0\n")
        write(self.high / "specs" / "Names.antt", NAMES)
        write(self.high / "proofs" / "Lemmas.antt", "lemma = 1\n")
        for function in BOTH:
            write(self.high / "proofs" / function / "Answers.antt", "returns = refl\n")
        write(self.kit / "version", "kit logic 1\n")
        write(self.kit / "bin" / "rattle", PROVER.format(kit=self.kit), 0o755)
        write(self.kit / "path" / "rt", RT.format(kit=self.kit), 0o755)
        self.refuse("four_times")

    def refuse(self, *names):
        write(self.kit / "refused", " ".join(names))

    def change(self, file, old, new):
        path = self.top / file
        path.write_text(path.read_text().replace(old, new))

    def run(self, *words, proved=("low", "high")):
        """The functions that the prover is asked for, and the last line."""
        (self.kit / "asked").unlink(missing_ok=True)
        environment = {**os.environ, "PATH": f"{self.kit}/path:{os.environ['PATH']}"}
        tried = subprocess.run([self.top / "checks" / "wrong_bodies" / "check.py", "--copy", self.top, "--jobs", "1", *words],
                               input="".join(f"rt: {crate} proved\n" for crate in proved), env=environment, capture_output=True, text=True)
        asked = self.kit / "asked"
        return sorted(asked.read_text().split() if asked.exists() else []), (tried.stdout or tried.stderr).splitlines()[-1]


BOTH = ["four_times", "same"]
# What is changed, and the functions whose wrong bodies are tried again then. That of `same` is accepted, and tried by each run.
CHANGES = (
    ("nothing", [], ["same"]),
    ("a comment", [("crates/high/src/lib.rt", "/// A number.", "/// The same number.")], ["same"]),
    ("the body of another function", [("crates/high/src/lib.rt", "{\n    number\n}", "{\n    number + 0\n}")], ["same"]),
    ("a body of the crate below", [("crates/low/src/lib.rt", "    number + number\n", "    2 * number\n")], ["same"]),
    ("another function's contract", [("crates/high/src/lib.rt", "result ≡ number }", "number ≡ result }")], ["same"]),
    ("another definition", [("crates/high/specs/Names.antt", "other = 1", "other = 2")], ["same"]),
    ("a lemma", [("crates/high/proofs/Lemmas.antt", "lemma = 1", "lemma = 2")], ["same"]),
    ("what is written of another proof", [("crates/high/proofs/same/Answers.antt", "refl", "sym refl")], ["same"]),
    ("the function's contract", [("crates/high/src/lib.rt", "4 * number", "number * 4")], BOTH),
    ("a definition that the contract names", [("crates/high/specs/Names.antt", "wanted n = n", "wanted n = 0 + n")], BOTH),
    ("a definition below that this names", [("crates/low/specs/Zero.antt", "zero = 0", "zero = 1")], BOTH),
    ("a contract below that the wrong body names", [("crates/low/src/lib.rt", "result ≡ number + number", "result ≡ 2 * number")], BOTH),
    ("what is written of its proof", [("crates/high/proofs/four_times/Answers.antt", "refl", "sym refl")], BOTH),
    ("the function's body", [("crates/high/src/lib.rt", "{\n    twice(", "{\n    let _ = number;\n    twice(")], BOTH),
    ("the wrong body", [("crates/high/must-fail/adds.edit", "new: twice(number)", "new: number")], BOTH),
    ("the sum of a statement on record", [("crates/high/must-fail/refused.txt", "adds ", "adds 0")], BOTH),
)


def look(checks, world, name, wanted, last, *words, **more):
    found = world.run(*words, **more)
    checks.look(name, None if found == (wanted, last) else f"{found} in place of {(wanted, last)}")


def look_at_changes(checks, world):
    one = "1 passed, 1 failed"
    look(checks, world, "at first each is tried", BOTH, one)
    for name, changes, wanted in CHANGES:
        for change in changes:
            world.change(*change)
        look(checks, world, f"{name} is changed: {' and '.join(wanted)} tried", wanted, one)
        look(checks, world, f"{name} was changed: what is refused isn't tried", ["same"], one)
    write(world.kit / "version", "2\n")
    look(checks, world, "the kit has another logic: both are tried", BOTH, one)


def look_at_words(checks, world):
    look(checks, world, "--all tries all", BOTH, "1 passed, 1 failed", "--all")
    look(checks, world, "--stale names the crate, and tries none", [], "high", "--stale")
    look(checks, world, "a refusal doesn't count where the crate isn't proved", BOTH, "0 passed, 2 failed", "--all", proved=("low",))
    world.record.unlink()
    look(checks, world, "nor without a record", BOTH, "0 passed, 2 failed", proved=("low",))
    look(checks, world, "nor is it put on record", BOTH, "1 passed, 1 failed")
    look(checks, world, "--right takes none from the record", BOTH, "1 passed, 1 failed", "--right")
    world.refuse()
    look(checks, world, "--all finds what is accepted now", BOTH, "0 passed, 2 failed", "--all")
    look(checks, world, "what is accepted is tried by each run", BOTH, "0 passed, 2 failed")


def look_at_lines(checks, world):
    world.refuse(*BOTH)
    world.change("crates/high/src/lib.rt", "{\n    number + 0\n}", "{\n    number\n}")
    look(checks, world, "a body that is refused later is put on record then", BOTH, "2 passed, 0 failed")
    look(checks, world, "both are on record", [], "2 passed, 0 failed")
    lines = world.record.read_text()
    world.record.write_text(lines[:-3])
    look(checks, world, "a line with a shorter sum doesn't fit", ["same"], "2 passed, 0 failed")
    world.record.write_text(lines.replace("is_one_more", "is_one_less"))
    look(checks, world, "a line of no wrong body has failed", ["same"], "2 passed, 1 failed")
    look(checks, world, "and is taken away", [], "2 passed, 0 failed")
    checks.look("the record is as before", None if world.record.read_text() == lines else world.record.read_text())


def look_at_definitions(checks, world):
    write(world.high / "specs" / "Fours.antt", DEFINITION.format(4))
    write(world.high / "must-fail" / "is_five.edit", EDIT.format("same by ensures", "specs/Fours.antt", "fours = 4", "fours = 5"))
    tries = (
        ("a lemma names what isn't there: that doesn't refuse a definition", "`five` is not in scope", ["same"], "0 passed, 1 failed"),
        ("a lemma doesn't hold: that refuses a definition", "expected type `5 ≡ 4`, but `4 ≡ 4`", ["same"], "1 passed, 0 failed"),
        ("the refusal of a definition is on record", "", [], "1 passed, 0 failed"),
    )
    for name, said, wanted, last in tries:
        write(world.kit / "lemmas", LEMMAS.format(said))
        look(checks, world, name, wanted, last, "high/is_five")


def main():
    checks = Checks()
    with tempfile.TemporaryDirectory(prefix="records-") as held:
        world = World(Path(held))
        look_at_changes(checks, world)
        look_at_words(checks, world)
        look_at_lines(checks, world)
    with tempfile.TemporaryDirectory(prefix="records-") as held:
        look_at_definitions(checks, World(Path(held)))
    return checks.end()


if __name__ == "__main__":
    sys.exit(main())

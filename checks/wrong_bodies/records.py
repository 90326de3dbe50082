"""Records of refusals: crates/CRATE/must-fail/refused.txt has a line for each wrong body that was refused, with its name and three sums: of
the edit, of the statement that refused it (statements.py), and of the kit's logic. A wrong body is tried only where it has no line, or one
whose sums aren't those of now. So a change of a body spoils no record but those of its own function."""

import functools
import hashlib
import re
import threading
from pathlib import Path
from subprocess import run

from edits import file_of
from libraries import CRATES
from statements import Statements

from crate_copies import all_below, folder_of

FILE = "refused.txt"
HEAD = "# the wrong bodies that the prover has refused: of each its name, and the sums of the edit, of its statement and of the kit's logic\n"
LINE = re.compile(r"^(\w+) (\w+) (\w+) (\w+)$", re.MULTILINE)
# Of 256 bits, in hexadecimal digits: enough for texts that nobody makes alike.
DIGITS = 16
# What `rt version` says of the logic, where it says it.
LOGIC = re.compile(r"logic (\w+)")


def sum_of(what):
    return hashlib.sha256(repr(what).encode()).hexdigest()[:DIGITS]


@functools.cache
def logic():
    """The sum of the kit's logic."""
    version = run(["rt", "version"], capture_output=True, text=True, check=True).stdout
    named = LOGIC.search(version)
    return named[1] if named else sum_of(version)


def sums_of(crate, edits):
    """The sums of some wrong bodies of a crate, as its files are now and those of the crates below it."""
    statements = Statements([folder_of(it) for it in (*all_below(CRATES, crate), crate)])
    return {edit: (sum_of(edit), sum_of(statements.of(edit)), logic()) for edit in edits}


class Records:
    """The lines of a crate's file, by the names of its wrong bodies."""

    def __init__(self, crate):
        self.crate = crate
        self.file = file_of(crate, "").with_name(FILE)
        self.lock = threading.Lock()
        text = self.file.read_text() if self.file.is_file() else ""
        self.lines = {name: tuple(sums) for name, *sums in LINE.findall(text)}

    def has(self, edit, sums):
        return self.lines.get(edit.name) == sums

    def strange(self, edits):
        """The names in the file that no wrong body of the crate has."""
        return sorted(set(self.lines) - {edit.name for edit in edits})

    def put(self, edit, sums):
        """Writes the line of a wrong body that was refused, and takes away that of one that wasn't, where there are no sums."""
        with self.lock:
            self.lines.pop(edit.name, None)
            if sums:
                self.lines[edit.name] = sums
            self.write()

    def keep_only(self, edits):
        """Takes away the lines that are of no wrong body."""
        if strange := self.strange(edits):
            with self.lock:
                self.lines = {name: sums for name, sums in self.lines.items() if name not in strange}
                self.write()

    def write(self):
        new = Path(f"{self.file}.new")
        new.write_text(HEAD + "".join(f"{name} {' '.join(sums)}\n" for name, sums in sorted(self.lines.items())))
        new.replace(self.file)

"""The rows of bench/counts.txt, and the functions of bench/profiles.txt.

A row of counts.txt is KIND NAME COUNT BOUND PROGRAM WORD.., and a row that hasn't been counted yet has - for its count. KIND says what is
counted: `job` the instructions of a whole run; `call` those of one turn of calls, for which a word A..B stands for two runs, one with A
turns and one with B, and the count is what the second took more, by the turn; `bytes` the greatest heap of a whole run. BOUND is by how
many percent the count may be above the stored one. A last word <DOCUMENT is standard input: a document of documents.py, or what
`eevdf_orders --seed 1` makes of it where its name ends with `.ordered`.

A line `# counted with` says by which kit, valgrind and C library. With others a count may be further above the stored one.

profiles.txt has for each row of instructions the functions that took at least a fiftieth of it by themselves."""

import os
import re
import subprocess
from dataclasses import dataclass, replace
from pathlib import Path

COUNTS = Path(__file__).resolve().with_name("counts.txt")
PROFILES = COUNTS.with_name("profiles.txt")

# What an ordered document's name ends with.
ORDERED = ".ordered"
TURNS = re.compile(r"(\d+)\.\.(\d+)")
# A call of a few instructions may take so many more, whatever part of it they are.
SPARE = 2
KINDS = ("job", "call", "bytes")
# The widest bound of a row, and what counts are above the stored ones at most where other tools count them, in percent.
WIDEST = OTHER_TOOLS = 10
COUNTED_WITH = "# counted with "
# A function that took less than this part of a row isn't kept.
LEAST_PART = 50


@dataclass(frozen=True)
class Row:
    kind: str
    name: str
    count: int | None
    bound: int
    program: str
    words: tuple[str, ...]

    @staticmethod
    def read(line):
        kind, name, count, bound, program, *words = line.split()
        row = Row(kind, name, None if count == "-" else int(count), int(bound.rstrip("%")), program, tuple(words))
        if kind not in KINDS or row.bound > WIDEST:
            raise ValueError(f"bench/counts.txt: {row} is no {', '.join(KINDS)}, or has a bound above {WIDEST} %")
        return row

    def __str__(self):
        return f"{self.kind} {self.name}"

    def line(self):
        count = "-" if self.count is None else self.count
        return f"{self.kind:5} {self.name:28} {count:>11} {self.bound:>3}%  {' '.join((self.program, *self.words))}"

    def has_risen(self, count):
        most = self.count + self.count * self.bound // 100
        return count > (max(most, self.count + SPARE) if self.kind == "call" else most)

    def has_fallen(self, count):
        return count * 100 < self.count * (100 - self.bound) and not (self.kind == "call" and count + SPARE >= self.count)

    def turns(self):
        """How many turns its two runs have."""
        few, many = next(filter(None, map(TURNS.fullmatch, self.words))).groups()
        return int(few), int(many)

    def programs(self):
        """The built programs that it takes."""
        makes_order = ("eevdf_orders",) if self.words[-1].endswith(ORDERED) else ()
        return (self.program, *makes_order)

    def words_with(self, turns):
        """Its words with so many turns."""
        return tuple(str(turns) if TURNS.fullmatch(word) else word for word in self.words)


def is_row(line):
    return bool(line.strip()) and not line.startswith("#")


def read_rows():
    return [Row.read(line) for line in COUNTS.read_text().splitlines() if is_row(line)]


def tools():
    """What compiles the programs, and what counts them."""
    kit, valgrind = (subprocess.run([tool, version], capture_output=True, text=True).stdout.split()[0]
                     for tool, version in (("rt", "version"), ("valgrind", "--version")))
    return ", ".join((kit, valgrind, os.confstr("CS_GNU_LIBC_VERSION")))


def stored_tools():
    """What they were when the counts were stored."""
    return next((line.removeprefix(COUNTED_WITH) for line in COUNTS.read_text().splitlines() if line.startswith(COUNTED_WITH)), "")


def store_rows(counts):
    """Stores the counts of rows, which are given by the row."""
    lines = COUNTS.read_text().splitlines()
    for at, line in enumerate(lines):
        if line.startswith(COUNTED_WITH):
            lines[at] = COUNTED_WITH + tools()
        elif is_row(line):
            row = Row.read(line)
            lines[at] = replace(row, count=counts.get(row, row.count)).line()
    COUNTS.write_text("\n".join(lines) + "\n")


def read_profiles():
    """By a row's kind and name, the functions with their instructions."""
    profiles, name = {}, ""
    for line in PROFILES.read_text().splitlines() if PROFILES.exists() else ():
        if not line.startswith(" "):
            name = line
            profiles[name] = {}
        else:
            count, function = line.split(maxsplit=1)
            profiles[name][function] = int(count)
    return profiles


def has_part(took, count):
    """Whether a function takes so much of a row that it is kept."""
    return took * LEAST_PART > count


def store_profiles(counted):
    """Stores the functions of rows, which are given with the count by the row's kind and name."""
    profiles = read_profiles()
    for name, (count, functions) in counted.items():
        profiles[name] = {function: took for function, took in functions.most_common() if has_part(took, count)}
    lines = []
    for name in filter(profiles.get, map(str, read_rows())):
        lines += [name, *(f"{count:>12}  {function}" for function, count in profiles[name].items())]
    PROFILES.write_text("\n".join(lines) + "\n")

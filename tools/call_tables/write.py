#!/usr/bin/env -S python3 -B
"""tools/call_tables/write.py [--check]: writes the signatures into the tables of docs/embedding.md and docs/fleets.md, from the sources.
Which tables these are, and of what, says the line above each. --check writes nothing: it looks whether each is as the sources have it; the
last line is then 'N passed, M failed'."""

import re
import sys
from pathlib import Path

from sources import calls_of, functions_of, members_of

TOP = Path(__file__).resolve().parents[2]
sys.path.append(str(TOP / "checks"))

from runner import Checks  # noqa: E402

PAGES = (TOP / "docs" / "embedding.md", TOP / "docs" / "fleets.md")
# A table, below the lines that name the types and modules of which its first column has calls.
TABLE = re.compile(r"(<!-- tools/call_tables/write\.py: ([^>]*?) -->\n\n)((?:\|[^\n]*\n)+)")
# What a cell says of a call, a type or a member: its name may be all.
ENTRY = re.compile(r"`(enum |struct |)((?:\w+::)*)(\w+)[^`]*`")


class Wrong(Exception):
    """What is wrong with a table."""


def is_type(path):
    return path.rpartition("::")[2][:1].isupper()


class Table:
    """The first column of a table, of types and modules as crate::module::Type."""

    def __init__(self, paths):
        self.paths = paths
        self.met = set()

    def named(self, owner):
        """Those that a name may belong to: all, or those whose path ends so."""
        return [path for path in self.paths if not owner or f"::{path}".endswith(f"::{owner.removesuffix('::')}")]

    def behind(self, kind, owner, name):
        """What stands behind a name in the sources."""
        if kind:
            return self.declared(kind, name)
        for path in self.named(owner):
            found = calls_of(path) | dict(members_of(path)[1]) if is_type(path) else functions_of(path)
            if name in found:
                self.met.add((path, name))
                return found[name]
        raise Wrong(f"{owner}{name} is in no source of {', '.join(self.paths)}")

    def declared(self, kind, name):
        """The members of a whole type."""
        for path in self.named(name):
            found, members = members_of(path)
            if found == kind.strip() and members:
                self.met.update((path, member) for member, _ in members)
                return f" {{ {', '.join(member + rest for member, rest in members)} }}"
        raise Wrong(f"{kind}{name} with public members is in no source of {', '.join(self.paths)}")

    def cell(self, text):
        return ENTRY.sub(lambda it: f"`{it[1]}{it[2]}{it[3]}{self.behind(*it.groups())}`", text)

    def row(self, line):
        cells = line.split(" | ")
        return " | ".join([self.cell(cells[0]), *cells[1:]])

    def missing(self):
        """The calls and members of the types that no row has."""
        whole = {(path, name) for path in filter(is_type, self.paths) for name in (*calls_of(path), *dict(members_of(path)[1]))}
        return sorted(f"{path}::{name}" for path, name in whole - self.met)


def written(paths, text):
    """A table with what the sources say."""
    table = Table(re.split(r",\s+", paths))
    head, line, *rows = text.splitlines()
    found = "\n".join([head, line, *map(table.row, rows)]) + "\n"
    if missing := table.missing():
        raise Wrong(f"it lacks {', '.join(missing)}")
    return found


def main():
    words = sys.argv[1:]
    if words not in ([], ["--check"]):
        sys.exit("usage: tools/call_tables/write.py [--check]")
    checks = Checks(are_many=True)

    def with_signatures(found):
        head, paths, table = found.groups()
        try:
            now = written(paths, table)
            fault = now != table and "the sources have other signatures: tools/call_tables/write.py writes them"
        except Wrong as wrong:
            now, fault = table, str(wrong)
        if words or now == table:
            checks.look(f"the table of {' '.join(paths.split())}", fault)
        return head + now

    for page in PAGES:
        before = page.read_text()
        after = TABLE.sub(with_signatures, before)
        if not words and after != before:
            page.write_text(after)
    return checks.end() if words or checks.failed else 0


if __name__ == "__main__":
    sys.exit(main())

"""The program whose pictures are looked at, and what is read of its output."""

import json
from xml.etree import ElementTree

from plain.document import MARK
from runner import TOP, Checks, built, stored
from svg import Wrong

# The words that do what a command of `eevdf` does.
SOURCES = {"solo": (), "replay": ("--replay",), "run": ("--run",)}


class Pictures(Checks):
    """Counts what is as it should be of what the program writes."""

    def __init__(self):
        super().__init__(are_many=True)
        self.programs = built("eevdf_timeline", "eevdf", "eevdf_phases")

    def attempt(self, name, check, *arguments):
        with self.unless_slow(name):
            try:
                check(*arguments)
            except (Wrong, ElementTree.ParseError, KeyError, ValueError) as wrong:
                self.look(name, f"{type(wrong).__name__}: {wrong}")
            else:
                self.look(name, None)

    def run(self, words, data, **more):
        return self.programs.run("eevdf_timeline", words, data, **more)

    def written(self, words, data, **more):
        """What the program writes, where all is well."""
        return text_of(self.run(words, data, **more))

    def events(self, words, data):
        return json.loads(self.written(("--perfetto", *words), data))["traceEvents"]


def text_of(printed):
    if printed.status or printed.errors:
        raise Wrong(f"status {printed.status}: {printed.errors.decode(errors='replace')[:500]}")
    return printed.out


def command_of(data):
    """The command of `eevdf` that the first line names, or None where it is another program."""
    program, *words = data.removeprefix(MARK).partition(b"\n")[0].decode().split()[1:]
    return words[0] if program == "eevdf" and words and words[0] in SOURCES else None


def is_well(path):
    return stored(path.with_suffix(".out")).status == 0


def stored_workloads(pattern):
    """The workloads of such paths that name a command of `eevdf`: each path, its bytes and the command."""
    for path in sorted(TOP.glob(pattern)):
        data = path.read_bytes()
        if command := command_of(data):
            yield path, data, command

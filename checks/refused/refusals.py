"""Runs a program of which requests are refused."""

import os
from dataclasses import dataclass
from pathlib import Path

from runner import Printed


@dataclass(frozen=True)
class Write:
    """A write that succeeded: where it went, how long it is, and how many requests for memory came before it."""

    fd: int
    length: int
    memory: int


@dataclass(frozen=True)
class Counts:
    """How many requests of each kind a run made, refused ones too, and how many requests for memory were refused."""

    memory: int
    threads: int
    reads: int
    writes: int
    refused: int


@dataclass(frozen=True)
class Run:
    printed: Printed
    counts: Counts | None
    writes: tuple[Write, ...]

    def met(self, kind, number):
        """Whether it made so many requests of a kind. One that comes to no end tells no counts."""
        return self.counts is None or getattr(self.counts, kind) >= number


class Refusals:
    """The built programs, and a folder with the library by which their requests are refused."""

    def __init__(self, programs, work):
        self.programs = programs
        self.work = Path(work)

    def run(self, name, words, workload, **refused):
        """Runs a program on a workload. What is refused is named as in refuse.c, in small letters."""
        label = "-".join(f"{key}{value}" for key, value in sorted(refused.items()))
        counts = self.work / "-".join([name, *words, workload.stem, label, "counts"]).replace("/", "")
        variables = {key.upper(): str(value) for key, value in refused.items()}
        variables |= {"LD_PRELOAD": str(self.work / "refuse.so"), "COUNTS": str(counts)}
        printed = self.programs.run(name, words, workload.read_bytes(), env=os.environ | variables)
        told = counts.read_text().splitlines() if counts.exists() else []
        counts.unlink(missing_ok=True)
        return Run(printed, *counted(told))


def counted(lines):
    """The counts at the end, if the run came to one, and the writes."""
    writes = tuple(Write(*map(int, line.split()[1:])) for line in lines if line.startswith("at "))
    ends = [Counts(*map(int, line.split()[1:])) for line in lines if line.startswith("end ")]
    return (ends[-1] if ends else None), writes

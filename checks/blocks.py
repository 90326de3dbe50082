"""Counts the blocks of memory that a program asks for and gives back, by an allocator in the place of the C library's (blocks.c). Where it
can't be made or loaded, an OSError says why."""

import os
import shutil
from dataclasses import dataclass
from pathlib import Path

from runner import run

SOURCE = Path(__file__).with_name("blocks.c")
FLAGS = ("-std=c11", "-O2", "-Wall", "-Wextra", "-Werror", "-shared", "-fPIC", "-nostdlib")


@dataclass(frozen=True)
class Blocks:
    """How many blocks a program asked for, how many of them it kept, and what it printed."""

    asked: int
    kept: int
    out: bytes


def compiler():
    """The words by which a C compiler is called: the machine's, or else the kit's own, which has its linker beside it."""
    found = next(filter(None, map(shutil.which, ("cc", "gcc", "clang"))), None)
    if found:
        return [found]
    rt = shutil.which("rt")
    if not rt:
        raise OSError("there is no C compiler, and no kit that has one")
    return [Path(rt).resolve().parents[1] / "toolchain" / "bin" / "clang", "-fuse-ld=lld"]


class Allocator:
    """The allocator that counts, made in this folder, and the programs that are run with it."""

    def __init__(self, folder, programs):
        self.programs = programs
        self.library = Path(folder) / "blocks.so"
        self.counts = Path(folder) / "counts"
        made = run([*compiler(), *FLAGS, "-o", self.library, SOURCE])
        if made.status:
            raise OSError(f"{SOURCE}: {made}")

    def blocks(self, name, words, data=b""):
        """The blocks of a run of a program on these bytes, or None where it doesn't end with status 0."""
        self.counts.unlink(missing_ok=True)
        variables = {"LD_PRELOAD": str(self.library), "BLOCKS": str(self.counts)}
        printed = self.programs.run(name, words, data, env=os.environ | variables)
        if printed.status:
            return None
        if not self.counts.exists():
            raise OSError(f"{name} was run without {self.library}")
        asked, given = map(int, self.counts.read_text().split())
        return Blocks(asked, asked - given, printed.out)

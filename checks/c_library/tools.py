"""What the checks need: the library, a folder to work in, compilers, runs of programs, and a count of what was looked at."""

import shutil
import sys
from dataclasses import dataclass, field
from pathlib import Path
from subprocess import CompletedProcess

TOP = Path(__file__).resolve().parents[2]
sys.path.append(str(TOP / "checks"))

import runner  # noqa: E402

WARNINGS = ("-Wall", "-Wextra", "-Werror", "-pedantic")
C11 = ("-std=c11", "-O2", *WARNINGS, f"-I{TOP / 'include'}")
SANITIZED = ("-g", "-fsanitize=address,undefined", "-fno-sanitize-recover=all")

def run(words, input="", seconds=runner.PATIENCE, **more):
    """A run of a program or a tool, with what it prints as text."""
    printed = runner.run(list(map(str, words)), input.encode(), seconds, **more)
    return CompletedProcess(words, printed.status, *(text.decode(errors="replace") for text in (printed.out, printed.errors)))


def ending(text):
    """The end of what a command says, for a fault."""
    return text.strip()[-1500:]


def fault_of(made):
    """What is wrong with a run, or None. A program that a signal ends may say nothing, so there is always the status."""
    return ending(made.stdout + made.stderr) or f"status {made.returncode}" if made.returncode else None


@dataclass
class Tools:
    archive: Path
    work: Path
    # of the archive for kernels: what it is made from, the one with Linux's thunks, and the one that is put in the place of that for
    # programs, whose functions for memory are those of libeevdf_malloc.a
    module: Path | None = None
    thunks: Path | None = None
    for_programs: Path | None = None
    checks: runner.Checks = field(default_factory=runner.Checks)
    callers: Path = TOP / "checks" / "c_library" / "callers"

    def __post_init__(self):
        self.archive = Path(self.archive).resolve()
        self.for_programs = self.for_programs or self.archive
        self.work = Path(self.work)
        self.cc = shutil.which("gcc") or shutil.which("clang")

    @property
    def no_memory(self):
        """Beside the archive for kernels, that of the two functions for memory that give none."""
        return self.archive.with_name("libeevdf_kernel_no_memory.a")

    def compile(self, name, sources, *flags, libraries=None):
        """Builds a program of C11 over the library. Gives its path and what is wrong."""
        program = self.work / name
        over = [self.archive] if libraries is None else libraries
        return program, fault_of(run([self.cc, *C11, *flags, "-o", program, *sources, *over]))

    def malloc_library(self):
        """The functions for memory over malloc and free, as an object."""
        made = self.work / "eevdf_malloc.o"
        if not made.exists():
            fault = fault_of(run([self.cc, *C11, "-c", "-o", made, TOP / "bindings" / "c" / "eevdf_malloc.c"]))
            if fault:
                raise RuntimeError(fault)
        return made

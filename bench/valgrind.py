"""What valgrind counts of a run of a program: the instructions of each function, and the greatest heap."""

import re
import subprocess
import tempfile
from collections import Counter
from dataclasses import dataclass
from pathlib import Path
from shutil import which

# What a run has for an environment, so that what is counted is the same with another processor. valgrind shows a program the one that is
# there, and the C library chooses how it copies memory by its features and by its caches: here by those that every processor has that the
# programs run on (x86-64-v2), and by fixed sizes. Its names are looked up at the start.
ENVIRONMENT = {
    "LD_BIND_NOW": "1",
    "GLIBC_TUNABLES": ":".join((
        "glibc.cpu.hwcaps=-AVX,-AVX2,-AVX512F,-AVX512BW,-AVX512VL,-AVX_Fast_Unaligned_Load,-ERMS,-FSRM,-BMI2,"
        "-RTM,-Prefer_ERMS,-Prefer_FSRM,Fast_Unaligned_Copy",
        "glibc.cpu.x86_data_cache_size=32768",
        "glibc.cpu.x86_shared_cache_size=1048576",
        "glibc.cpu.x86_non_temporal_threshold=786432",
        "glibc.cpu.x86_rep_movsb_threshold=2048",
        "glibc.cpu.x86_rep_stosb_threshold=2048",
    )),
}

# What a function's name has besides: for which types it was compiled, a version of the C library, and how deep it calls itself.
PART_OF_NAME = re.compile(r"::<#[0-9a-f]+>|@+GLIBC_[\d.]+|'\d+$")

# A run that takes so many seconds is ended, and isn't counted: the longest takes half a minute alone.
PATIENCE = 3600


class Uncounted(Exception):
    """Why a run has no count."""


class Unended(Uncounted):
    """A run was ended for its time."""


@dataclass(frozen=True)
class Run:
    """A program, its words and what it reads. It runs in its own folder, so that its path is the same in every checkout."""

    program: Path
    words: tuple[str, ...] = ()
    data: bytes = b""

    def output(self, *before):
        """Runs it by these words, and answers what it printed."""
        name = " ".join((self.program.name, *self.words))
        try:
            done = subprocess.run([*before, f"./{self.program.name}", *self.words], cwd=self.program.parent, env=ENVIRONMENT,
                                  input=self.data, capture_output=True, timeout=PATIENCE)
        except subprocess.TimeoutExpired:
            raise Unended(f"the machine is too slow, or too busy: {name} has no end after {PATIENCE} seconds") from None
        if done.returncode:
            said = (done.stderr or done.stdout).decode(errors="replace").strip()
            raise Uncounted(f"{name} ends with {done.returncode}: {said[-1000:]}")
        return done.stdout


def instructions(run):
    """How many instructions each function took by itself, without those that it called."""
    with tempfile.NamedTemporaryFile() as profile:
        run.output(which("valgrind"), "--tool=callgrind", f"--callgrind-out-file={profile.name}", "--compress-strings=no",
                   "--compress-pos=no")
        return read_profile(Path(profile.name).read_text(errors="replace").splitlines())


def read_profile(lines):
    counts, function, is_called, total = Counter(), "", False, 0
    for line in lines:
        if line.startswith("fn="):
            function = PART_OF_NAME.sub("", line.removeprefix("fn="))
        elif line.startswith("calls="):
            is_called = True
        elif line[:1].isdigit():
            # the line after a call is what the called function took
            if not is_called:
                counts[function] += int(line.split()[1])
            is_called = False
        elif line.startswith("totals:"):
            total = int(line.split()[1])
    if not total or counts.total() != total:
        raise Uncounted(f"the functions of the profile come to {counts.total()} instructions, and the run to {total}")
    return counts


def greatest_heap(run):
    """The greatest number of bytes that the program had asked for and not given back."""
    with tempfile.NamedTemporaryFile() as profile:
        run.output(which("valgrind"), "--tool=massif", f"--massif-out-file={profile.name}", "--peak-inaccuracy=0.0", "--depth=1",
                   "--max-snapshots=10")
        return max(map(int, re.findall(r"^mem_heap_B=(\d+)", Path(profile.name).read_text(), re.MULTILINE)))

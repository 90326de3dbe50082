"""The crates of the repository, copies of them, and what `rt ci` says in such a copy. A run of rt in a copy doesn't wait for those in
the repository itself. And how a tool says something on standard error."""

import fcntl
import os
import re
import shutil
import subprocess
from contextlib import suppress
from pathlib import Path

TOP = Path(__file__).resolve().parents[1]
# What rt reads of a crate.
SOURCES = ("src", "specs", "proofs")
# What the gate runs a program with, and what it must print.
RUN_WITH = ("args", "stdin", "stdout", "status", "data")
# What `rt ci` says of a crate that it is done with.
DONE = re.compile(r"rt: (\w+) (?:proved$|is kept:)")


def say(program, *lines):
    """Writes lines to standard error, of which the first names the program; nothing where that is closed or full."""
    with suppress(OSError):
        os.write(2, "".join(f"{line}\n" for line in (f"{program}: {lines[0]}", *lines[1:])).encode(errors="surrogateescape"))


def folder_of(crate):
    return TOP / "crates" / crate


def read_lines():
    """The lines of crates.txt: each crate with all that it names."""
    rows = [row.partition("#")[0].partition(":") for row in (TOP / "crates.txt").read_text().splitlines()]
    return {head.split()[0]: names.split() for head, colon, names in rows if colon}


def read_crates():
    """The crates of the repository, each with those of them that it stands on, as its line in crates.txt names them."""
    named = read_lines()
    return {crate: [name for name in names if name in named] for crate, names in named.items()}


def all_below(crates, crate):
    """The crates that a crate stands on, each after those below it."""
    found = {}
    for name in crates[crate]:
        found |= dict.fromkeys((*all_below(crates, name), name))
    return list(found)


def with_all_below(crates, named):
    """The crates that are named and those that they stand on, each after those below it."""
    return list(dict.fromkeys(name for crate in named for name in (*all_below(crates, crate), crate)))


def copy_parts(crate, parts, folder):
    """Copies parts of a crate into a folder."""
    for part in parts:
        source = folder_of(crate) / part
        if source.is_dir():
            shutil.copytree(source, folder / part)
        elif source.is_file():
            shutil.copy2(source, folder / part)


def copy_crates(crates, top):
    """Copies what `rt ci` reads of these crates below another top."""
    for crate in crates:
        copy_parts(crate, (*SOURCES, *RUN_WITH), top / "crates" / crate)
    lines = (TOP / "crates.txt").read_text().splitlines(keepends=True)
    (top / "crates.txt").write_text("".join(line for line in lines if re.split(r"[\s:]", line)[0] in crates))
    shutil.copy2(TOP / "HANDLES", top)
    # rt runs the programs as nobody
    top.chmod(0o755)


def start_ci(top):
    """Starts `rt ci` in a copy. What it says comes on one pipe."""
    return subprocess.Popen(["rt", "ci"], cwd=top, stdin=subprocess.DEVNULL, stdout=subprocess.PIPE, stderr=subprocess.STDOUT,
                            text=True, errors="replace")


def free_memory():
    """The memory in bytes that a new process can have."""
    text = Path("/proc/meminfo").read_text()
    return 1024 * int(re.search(r"^MemAvailable:\s+(\d+)", text, re.MULTILINE)[1])


def wait_for_other_runs(name, held):
    """Takes the lock on the open crates.txt, without which nothing of out/ is replaced; it is given back when that is closed."""
    try:
        fcntl.flock(held, fcntl.LOCK_EX | fcntl.LOCK_NB)
    except BlockingIOError:
        say(name, "waiting for another run in this folder")
        fcntl.flock(held, fcntl.LOCK_EX)

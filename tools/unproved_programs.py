"""Programs that are compiled without a proof. Each is kept beside its sources, in crates/PROGRAM/out/unproved/ and under a name that is a
digest of these, so it is taken as long as they stay as they are. Those that checks run are compiled otherwise, and kept in out/plain/."""

import fcntl
import hashlib
import os
import shutil
import subprocess
from collections.abc import Callable
from contextlib import contextmanager
from dataclasses import dataclass

from crate_copies import TOP, folder_of, read_crates, read_lines, say, with_all_below
from plain_compiler import COMPILED, LINKED, compile_plain_program
from try_compiler import compile_program

# Of 256 bits, in hexadecimal digits: enough for sources that nobody makes alike.
DIGITS = 32


@dataclass(frozen=True)
class Form:
    """How a program is compiled: the folder in which it is kept, by which function and which further words."""

    folder: str
    compile: Callable
    words: tuple[str, ...] = ()


# What users run, which stops at a bad access too; and what checks run.
SANITIZED = Form("unproved", compile_program)
PLAIN = Form("plain", compile_plain_program, (*COMPILED, *LINKED))


def sources_of(crate):
    """The files of a crate that `rt try` reads, in order: neither specs/ nor proofs/."""
    return sorted(file for file in (folder_of(crate) / "src").rglob("*") if file.is_file())


def digest_of(program, form):
    """A digest of all that the program is compiled from: the kit, and of the program and each crate below it the line of crates.txt and
    the files of src/; and of the words by which it is compiled."""
    kit = subprocess.run(["rt", "version"], stdin=subprocess.DEVNULL, capture_output=True).stdout
    lines = read_lines()
    made_from = hashlib.sha256(kit + "\n".join(form.words).encode())
    for crate in with_all_below(read_crates(), [program]):
        made_from.update(f"\n{crate}: {' '.join(lines[crate])}\n".encode())
        for file in sources_of(crate):
            text = file.read_bytes()
            made_from.update(f"{file.relative_to(TOP)} {len(text)}\n".encode() + text)
    return made_from.hexdigest()[:DIGITS]


class Kept:
    """Where a program is kept that is compiled so."""

    def __init__(self, program, form):
        self.program = program
        self.form = form
        self.folder = folder_of(program) / "out" / form.folder

    def digest(self):
        return digest_of(self.program, self.form)

    def open(self, digest):
        """The number of the open file, or None where it isn't kept."""
        try:
            return os.open(self.folder / digest, os.O_RDONLY)
        except OSError:
            return None

    @contextmanager
    def alone(self):
        """Waits until no other process compiles this program. Where nothing can be kept, there is nothing to wait for."""
        try:
            self.folder.mkdir(parents=True, exist_ok=True)
            lock = os.open(self.folder / "lock", os.O_RDWR | os.O_CREAT, 0o644)
        except OSError:
            yield
            return
        try:
            fcntl.flock(lock, fcntl.LOCK_EX)
            yield
        finally:
            os.close(lock)

    def keep(self, digest, compiled):
        """Keeps an open program, in two steps, so that nobody takes half of it, and removes those of other sources."""
        self.folder.mkdir(parents=True, exist_ok=True)
        new = self.folder / "new"
        try:
            with open(compiled, "rb", closefd=False) as made, open(new, "wb") as copy:
                shutil.copyfileobj(made, copy)
            new.chmod(0o755)
            os.replace(new, self.folder / digest)
        finally:
            for file in self.folder.iterdir():
                if file.name not in ("lock", digest):
                    file.unlink()


def compile_and_keep(kept, digest):
    """Compiles the program, and keeps it where that can be done. Sources that were changed meanwhile have another digest by now."""
    compiled = kept.form.compile(kept.program)
    try:
        if kept.digest() == digest:
            kept.keep(digest, compiled)
    except OSError as why:
        say(kept.program, f"it isn't kept: {why.strerror}")
    return compiled


def open_program(program, before, form=SANITIZED):
    """The number of the open file of the program, compiled from the sources as they stand; `before` is called before it is compiled."""
    kept = Kept(program, form)
    digest = kept.digest()
    compiled = kept.open(digest)
    if compiled is not None:
        return compiled
    before()
    with kept.alone():
        # another process may have compiled it
        compiled = kept.open(digest)
        return compile_and_keep(kept, digest) if compiled is None else compiled

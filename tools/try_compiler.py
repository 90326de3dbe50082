"""Compiles a program without a proof, by `rt try`. That compiles it with checks, runs it and removes it; so it is given a text that takes
the program half a second to read, and is opened meanwhile. Beside the compiler `rt try` looks for names that a check would refuse, a hint for
who writes sources: that look is ended, since both read much memory, and the compiler takes longer beside it."""

import os
import re
import shutil
import signal
import subprocess
import sys
import tempfile
import time
from contextlib import contextmanager, suppress
from pathlib import Path

import process_trees
from crate_copies import folder_of

# The program reads all of it before it refuses it.
LONG_TEXT = b"\n" * 100000
# The first bytes of a file that can be run, and where they have its kind: a program at a fixed address, or at any.
ELF, KIND_AT, KINDS = b"\x7fELF", 16, (2, 3)
# How many seconds there are between two looks whether it is there.
PAUSE = 0.02
# `rt try` says in its last line how the program has run, or that none has.
HAS_RUN = re.compile(r"^run=(?!none ).*\n\Z", re.MULTILINE)


class NotCompiled(Exception):
    """What `rt try` says where it has compiled no program."""


class Ended(BaseException):
    """This process is to end, by the signal of this number."""


class Keeper:
    """A process that ends `rt` and removes its folder where this process ends before it could do so itself."""

    def __init__(self, rt, folder):
        words = [sys.executable, "-ISB", process_trees.__file__, str(rt.pid), folder]
        quiet = {"stdout": subprocess.DEVNULL, "stderr": subprocess.DEVNULL}
        self.process = subprocess.Popen(words, stdin=subprocess.PIPE, start_new_session=True, **quiet)

    def dismiss(self):
        self.process.kill()
        self.process.wait()


@contextmanager
def ending_in_order():
    """Signals that end this process are kept meanwhile, and raised as Ended by what this gives, so that what was begun is ended first. One
    that is ignored stays so."""
    kept = []

    def look():
        if kept:
            raise Ended(kept[0])

    caught = [it for it in (signal.SIGINT, signal.SIGTERM, signal.SIGHUP) if signal.getsignal(it) != signal.SIG_IGN]
    before = {it: signal.signal(it, lambda number, _: kept.append(number)) for it in caught}
    try:
        yield look
    finally:
        for it, handler in before.items():
            signal.signal(it, handler)
    look()


def words_of(program):
    """The words with which the program reads a workload: those that the gate runs it with."""
    file = folder_of(program) / "args"
    return file.read_text().split() if file.is_file() else []


def opened_program(path):
    """The number of the open file, or None where it can't be run: `rt try` has other files beside the program."""
    with suppress(OSError):
        if path.is_file() and os.access(path, os.X_OK):
            opened = os.open(path, os.O_RDONLY)
            head = os.pread(opened, KIND_AT + 1, 0)
            if head.startswith(ELF) and head[KIND_AT:] and head[KIND_AT] in KINDS:
                return opened
            os.close(opened)
    return None


def files_below(folder):
    """What is below a folder, or nothing where a part of it goes meanwhile."""
    try:
        return sorted(Path(folder).rglob("*"))
    except FileNotFoundError:
        return []


def children_of(process):
    """The numbers of the processes that this one has begun, or none where the system doesn't list them."""
    try:
        return [int(it) for it in Path(f"/proc/{process.pid}/task/{process.pid}/children").read_text().split()]
    except OSError:
        return []


def is_look_at_names(number):
    """Whether the process of this number is a check by the prover, which is all that `rt try` has it do."""
    try:
        command = Path(f"/proc/{number}/cmdline").read_bytes().split(b"\0")
    except OSError:
        return False
    return os.path.basename(command[0]) == b"rattle" and command[1:2] == [b"check"]


def end_look_at_names(rt):
    """Ends it where it has begun. Its number stays its own until `rt` ends."""
    for number in children_of(rt):
        if is_look_at_names(number):
            with suppress(ProcessLookupError):
                os.kill(number, signal.SIGTERM)


def wait_for_program(rt, folder, look):
    """The open program, wherever below the folder `rt try` has it while it runs, or None where `rt` ends without one. It is whole once `rt`
    has run it."""
    while True:
        look()
        has_ended = rt.poll() is not None
        end_look_at_names(rt)
        for path in files_below(folder):
            opened = opened_program(path)
            if opened is not None:
                return opened
        if has_ended:
            return None
        time.sleep(PAUSE)


def wait_for_end(rt, look):
    while rt.poll() is None:
        look()
        time.sleep(PAUSE)


@contextmanager
def trying(program, folder, given, said):
    """`rt try`, with all of its files in a folder, and ended in the end; what it says goes to a file."""
    # the interpreter can't run these programs: its steps are few, and the run that is compiled with checks is awaited
    rt = subprocess.Popen(["rt", "try", "--steps", "1", "--", *words_of(program)], cwd=folder_of(program), stdin=given,
                          stdout=subprocess.DEVNULL, stderr=said, env={**os.environ, "TMPDIR": folder}, start_new_session=True)
    keeper = Keeper(rt, folder)
    try:
        yield rt
    finally:
        # the number of one that has ended is its own until it is waited for
        if rt.poll() is None:
            process_trees.end_tree(rt.pid)
        rt.wait()
        keeper.dismiss()


@contextmanager
def temporary_folder(program):
    """A folder that is removed in the end, whatever others do in it."""
    folder = tempfile.mkdtemp(prefix=f"{program}-")
    try:
        yield folder
    finally:
        shutil.rmtree(folder, ignore_errors=True)


def text_of(said):
    said.seek(0)
    return said.read().decode(errors="replace")


def compile_program(program):
    """The number of the open file of the program, which stands in no folder any more."""
    with ending_in_order() as look, tempfile.TemporaryFile() as given, tempfile.TemporaryFile() as said:
        given.write(LONG_TEXT)
        given.seek(0)
        with temporary_folder(program) as folder, trying(program, folder, given, said) as rt:
            compiled = wait_for_program(rt, folder, look)
            wait_for_end(rt, look)
        text = text_of(said)
    if compiled is None or not HAS_RUN.search(text):
        raise NotCompiled(text)
    return compiled

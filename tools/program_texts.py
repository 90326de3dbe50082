"""What a program says of itself, by its sources alone: what `--help` and `--version` print is told at once where it would be compiled first."""

import errno
import os
import re
from contextlib import suppress

from crate_copies import TOP, folder_of

HELP = re.compile(r'^pub\(crate\) const HELP: &\[u8\] = b"(.*?)";$', re.MULTILINE | re.DOTALL)
VERSION = re.compile(r'^pub const VERSION: &str = "(.*)";$', re.MULTILINE)
# How a text of the sources is read: a line goes on behind its end, a sign stands for itself, or for the end of a line.
ESCAPE = re.compile(r"\\(\n\s*|.)", re.DOTALL)
STANDS_FOR = {"n": "\n", "\n": ""}

NO_WRITE = b"fault: writing\n"
FAILED = 3


def help_of(program):
    """What `--help` prints, or None of a program without such a text."""
    file = folder_of(program) / "src" / "help.rt"
    found = HELP.search(file.read_text()) if file.is_file() else None
    return found and ESCAPE.sub(lambda it: STANDS_FOR.get(it[1][0], it[1]), found[1])


def version_of(program):
    """What `--version` prints."""
    found = VERSION.search((TOP / "crates/eevdf_bench/src/program_ends.rt").read_text())
    return found and f"{program} {found[1]}\n"


def asked_text(program, words):
    """The text that the words ask for, or None; words that are no text are refused by the program."""
    told = help_of(program)
    if told is None or not is_text("".join(words)):
        return None
    if {"--help", "-h"} & set(words):
        return told
    return version_of(program) if "--version" in words else None


def is_text(words):
    try:
        words.encode()
    except UnicodeEncodeError:
        return False
    return True


def print_text(text, is_closed):
    """Prints a text on standard output, as the programs do, and gives the status. Of a pipe that nobody reads nothing is said."""
    left = text.encode()
    try:
        if is_closed:
            raise OSError(errno.EBADF, "closed")
        while left:
            left = left[os.write(1, left):]
    except BrokenPipeError:
        return FAILED
    except OSError:
        with suppress(OSError):
            os.write(2, NO_WRITE)
        return FAILED
    return 0

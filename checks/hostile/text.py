"""What a hostile text is, and how one is written."""

from dataclasses import dataclass
from typing import Callable

from runner import Printed

# The bytes that a workload may have.
MOST_BYTES = 16777216


@dataclass(frozen=True)
class Text:
    """A text with the answer that docs/formats.md gives it. Its bytes are made when they are needed."""

    name: str
    make: Callable[[], bytes]
    answer: Printed
    words: tuple = ("solo",)
    program: str = "eevdf"

    def has_threads(self):
        return self.words[0:1] == ("run",)


def fault(line, status=1):
    return Printed(f"fault: {line}\n".encode(), status)


def report(*lines):
    return Printed("".join(line + "\n" for line in lines).encode(), 0)


NOT_TOML = fault("not a TOML document")
NO_VERSION = fault("missing version")
NO_MEMORY = fault("memory", 3)


def given(text):
    return lambda: text


def filled(unit, before=b"", after=b"", size=MOST_BYTES):
    """As many times the unit as there is room for, between two pieces."""
    return lambda: before + unit * ((size - len(before) - len(after)) // len(unit)) + after


def padded(text, byte=b"\n", size=MOST_BYTES):
    """A text, and one byte again and again behind it up to the size."""
    return lambda: text + byte * (size - len(text))


def numbered(line, count, before=b"", after=b""):
    """A line for each number below the count, between two pieces."""
    return lambda: before + b"".join([line % number for number in range(count)]) + after

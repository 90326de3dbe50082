"""Documents with a mark in them, and what a program has to say of it."""

from dataclasses import dataclass

# What stands between these two is marked. They are no part of the document.
BEGIN, END = "«", "»"

# So many characters of a line are shown, and so many of them before the mark.
MOST, BEFORE = 100, 60


@dataclass(frozen=True)
class Case:
    """What a program is given, and all that it has to print."""

    name: str
    text: bytes
    line: str
    said: str
    words: tuple = ("solo",)
    program: str = "eevdf"
    status: int = 1


def said_of(text, message):
    """The explanation of a document: the line and the column of what is marked, the line, and the mark below it."""
    if BEGIN not in text:
        return f"{message}\n"
    before, rest = text.split(BEGIN)
    marked, behind = rest.split(END)
    line, column = before.count("\n") + 1, len(before) - before.rfind("\n")
    # a mark ends with its line, and an empty one has a width of one
    width = max(1, len(marked.partition("\n")[0]))
    whole = (before + marked + behind).split("\n")[line - 1]
    first = max(0, column - BEFORE)
    shown = "".join(c if c.isprintable() else " " for c in whole[first:first + MOST])
    room = column - 1 - first
    gutter = " " * len(str(line))
    mark = " " * room + "^" * max(1, min(width, MOST - room))
    words = f" {message}" if message else ""
    return f"line {line}, column {column}:{words}\n{line} | {shown}\n{gutter} | {mark}\n"


def document(name, line, message, text, words=("solo",), **more):
    """A document in which the place is marked, with the line of its fault and what is said of it."""
    plain = text.replace(BEGIN, "").replace(END, "").encode()
    return Case(name, plain, f"fault: {line}\n", said_of(text, message), words, **more)

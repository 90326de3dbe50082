"""The wrong bodies of the crates. Each is an edit, a file crates/CRATE/must-fail/NAME.edit in the kit's form: the lines `file:`,
`old:` and `new:` say what is put in place of what, and a line `refused:` names the function that the prover must not accept then, and
behind `by`, where that stands there, the clause that it is against."""

import functools
import re
from dataclasses import dataclass
from pathlib import Path

TOP = Path(__file__).resolve().parents[2]

# The line that a function begins with.
FUNCTION = re.compile(r'^( *)(?:pub(?:\([a-z]+\))? )?(?:const )?(?:unsafe )?(?:extern "C" )?fn (\w+)')
# The attribute of a function that others call which it calls.
CYCLE = re.compile(r"\s*#\[cycle\((\w+)\)\]")
# The crates whose wrong bodies each name the clause that they are against.
BY_CLAUSES = ("eevdf_weight", "eevdf_queue")
# What may be written by hand of a function's proof, in a folder of its name.
PROOF_FILES = ("Answers.antt", "Invariants.antt", "Proof.antt")


@dataclass(frozen=True)
class Change:
    """A text of a file of the crate, and what is put in its place."""

    file: str
    old: str
    new: str


@dataclass(frozen=True)
class Edit:
    crate: str
    name: str
    refused: str
    clause: str
    changes: tuple[Change, ...]

    def __str__(self):
        return f"{self.crate}/{self.name}"

    def name_refused(self):
        """The name of the function that is to be refused, without its path."""
        return self.refused.rpartition("::")[2]


class BadEdit(Exception):
    """An edit that isn't in the form, or that its crate has no place for."""


def file_of(crate, name):
    return TOP / "crates" / crate / "must-fail" / f"{name}.edit"


def read_lines(path):
    """The changes that the lines of an edit tell, and by their keys what its other lines say."""
    told, old, changes = {}, None, []
    for line in path.read_text().splitlines():
        key, _, text = line.partition(":")
        text = text.removeprefix(" ")
        if key == "old":
            old = text
        elif key == "new" and told.get("file") and old:
            changes.append(Change(told["file"], old, text))
        else:
            told[key] = text
    return tuple(changes), told


def read_edit(crate, name):
    changes, told = read_lines(file_of(crate, name))
    if not told.get("refused") or not changes:
        raise BadEdit(f"{crate}/{name}: a line `refused:`, `file:`, `old:` or `new:` is missing")
    refused, _, clause = told["refused"].partition(" by ")
    if crate in BY_CLAUSES and not clause:
        raise BadEdit(f"{crate}/{name}: the line `refused:` names no clause")
    return Edit(crate, name, refused, clause, changes)


def edits_of(crate):
    return [read_edit(crate, file.stem) for file in sorted(file_of(crate, "").parent.glob("*.edit"))]


@dataclass(frozen=True)
class Function:
    """A function of a file, with its margin and the numbers of its first line and of those with the braces round its body."""

    name: str
    margin: str
    first: int
    begin: int
    end: int


def end_of_signature(lines, first, margin):
    """The line after which a function's body begins, or with which it ends, where it has no body."""
    depth = 0
    for number in range(first, len(lines)):
        line = lines[number]
        depth += line.count("{") - line.count("}")
        begins = line.startswith(margin + "{") or line.endswith((" {", " {}")) and (number == first or line.startswith(margin + ")"))
        # within the braces of a clause a line may end so too
        if begins or line.endswith(";") and depth == 0:
            return number
    raise ValueError(f"the function in line {first + 1} has no end")


def functions_of(text):
    """The functions with bodies in a text that is laid out as `rt fmt` does."""
    lines = text.split("\n")
    found = []
    for first, line in enumerate(lines):
        begun = FUNCTION.match(line)
        if not begun or found and first <= found[-1].end:
            continue
        margin, name = begun.groups()
        begin = end_of_signature(lines, first, margin)
        if not lines[begin].endswith(";"):
            end = begin if lines[begin].endswith("}") else lines.index(margin + "}", begin)
            found.append(Function(name, margin, first, begin, end))
    return found


def cycle_of(lines, function):
    """The number of the line above a function that names the cycle of calls in which it stands, with that name, if one does."""
    number = function.first - 1
    while number >= 0 and lines[number].lstrip().startswith(("#[", "//")):
        if named := CYCLE.match(lines[number]):
            return number, named[1]
        number -= 1
    return None


def cycles_of(folder):
    """The names of the functions of each cycle of calls that has a name in the crate of a folder."""
    cycles = {}
    for file in (folder / "src").rglob("*.rt"):
        text = file.read_text()
        lines = text.split("\n")
        # what is planted isn't laid out, so no more is read of it than is asked for
        if not any(map(CYCLE.match, lines)):
            continue
        for function in functions_of(text):
            if found := cycle_of(lines, function):
                cycles.setdefault((file, found[1]), set()).add(function.name)
    return list(cycles.values())


def function_at(text, place):
    """The name of the function in whose body this place of a file's text stands, if it is one's. The signature is left out: it has
    the contract, which is a matter to callers too."""
    line = text.count("\n", 0, place)
    return next((it.name for it in functions_of(text) if it.begin <= line <= it.end), None)


def function_changed(text, change):
    """The name of the function whose body or proof a change of a file's text is of, if it is one's. A change that leaves the end of a
    signature as it is, and puts another body after it, gives the body that stood there to a further function: it is of that function's
    body too."""
    file = Path(change.file)
    if file.name in PROOF_FILES:
        return file.parent.name
    place = text.index(change.old)
    end = place + len(change.old)
    if not change.new.startswith(change.old + " {") or text[end] != "\n":
        return function_at(text, place)
    line = text.count("\n", 0, end)
    return next((it.name for it in functions_of(text) if it.first <= line == it.begin - 1), None)


def changed(edit, folder):
    """The texts that the edit leaves of the files of the crate's folder, and the functions in whose bodies it changes them, with None
    where it changes anything else."""
    texts, functions = {}, set()
    for change in edit.changes:
        text = texts.get(change.file) or (folder / change.file).read_text()
        if text.count(change.old) != 1:
            raise BadEdit(f"{edit}: the old text stands in {change.file} {text.count(change.old)} times: {change.old}")
        functions.add(function_changed(text, change))
        texts[change.file] = text.replace(change.old, change.new)
    return texts, functions


@functools.cache
def functions_changed(edit, folder):
    """The names of the functions whose bodies the edit changes in the crate's folder as it stands before any edit, with None where
    it changes anything else."""
    return frozenset(changed(edit, folder)[1])


def names_of(edit, folder):
    """The names of the function that is to be refused and of those that the edit changes."""
    return functions_changed(edit, folder) - {None} | {edit.name_refused()}


def are_apart(edit, other, folder):
    """Whether two edits are of different functions."""
    beside, beside_other = (names_of(it, folder) - {it.name_refused()} for it in (edit, other))
    return (
        edit.refused != other.refused
        and edit.name_refused() not in beside_other
        and other.name_refused() not in beside
        and not beside & beside_other
    )


def is_of_bodies(edit, folder):
    """Whether each change is of a function's body, so that it is no matter to others."""
    return None not in functions_changed(edit, folder)


def apply(edit, folder):
    """Puts the changed texts in place in the crate's folder."""
    for file, text in changed(edit, folder)[0].items():
        (folder / file).write_text(text)

"""How wrong bodies are put into a copy of their crate, so that one check tries many. Each stands in the function that it is of. Where
another one of the same function is tried by the same check, it stands in a copy of that function, which has the contract and what is
written by hand of the proof, and a name of its own. All other functions have stand-ins for bodies."""

import re
import shutil
from dataclasses import dataclass

from edits import Function, changed, cycles_of, functions_of, names_of
from stand_ins import put_stand_ins

# How the names of copies end.
ENDS = ("second", "third", "fourth", "fifth", "sixth")
# The line that the functions of a type or a trait stand under.
HEAD = re.compile(r"^(?:unsafe )?(?:impl|(?:pub(?:\([a-z]+\))? )?trait)\b")


@dataclass(frozen=True)
class Place:
    """A function of a file in which an edit changes the body and nothing else, with the lines of the file as they are and as the edit
    leaves them."""

    file: str
    function: Function
    lines: tuple[str, ...]
    changed_lines: tuple[str, ...]

    def first(self):
        """The number of the first line of the function with its attributes."""
        first = self.function.first
        while self.lines[first - 1].startswith((self.function.margin + "#[", self.function.margin + "///")):
            first -= 1
        return first

    def is_of_trait(self):
        """Whether the function's name and contract belong to a trait."""
        if not self.function.margin:
            return False
        begin = next(number for number in range(self.function.first, -1, -1) if HEAD.match(self.lines[number]))
        head = " ".join(self.lines[begin : self.function.first]).partition("{")[0]
        return "trait" in head or " for " in head

    def copied(self, name, is_right):
        """The lines of the function as the edit leaves it, or as they are, under another name."""
        text = list((self.lines if is_right else self.changed_lines)[self.first() : self.function.end + 1])
        at = self.function.first - self.first()
        text[at] = text[at].replace(f"fn {self.function.name}", f"fn {name}", 1)
        return ["", *text]


def place_of(edit, folder):
    """The place of an edit in the crate's folder, if it changes the body of one function alone."""
    texts = changed(edit, folder)[0]
    if len(texts) != 1 or names_of(edit, folder) != {edit.name_refused()}:
        return None
    [(file, text)] = texts.items()
    was = (folder / file).read_text()
    lines, changed_lines = was.split("\n"), text.split("\n")
    numbers = [number for number, line in enumerate(lines) if line != changed_lines[number]]
    found = [it for it in functions_of(was) if it.begin <= numbers[0] and numbers[-1] <= it.end]
    return Place(file, found[0], tuple(lines), tuple(changed_lines)) if found else None


def proof_of(refused, folder):
    """The folder of what is written by hand of a function's proof."""
    return folder.joinpath("proofs", *refused.split("::"))


def can_be_copied(edit, folder):
    """Whether the wrong body can stand in a copy of its function: not where a trait has the function's contract, C its name, a proof by
    hand its theorem, or where it calls itself."""
    place = place_of(edit, folder)
    if place is None or place.is_of_trait() or "extern" in place.lines[place.function.first]:
        return False
    proof = proof_of(edit.refused, folder)
    is_in_cycle = any("#[cycle" in line for line in place.lines[place.first() : place.function.first])
    return not is_in_cycle and not proof.with_name("+" + proof.name).is_dir() and not (proof / "Proof.antt").is_file()


def copy_proof(refused, copy, folder):
    """Copies what is written by hand of a function's proof to a copy of the function."""
    proof, other = proof_of(refused, folder), proof_of(copy, folder)
    if not proof.is_dir():
        return
    shutil.copytree(proof, other)
    own = re.compile(rf"\b{re.escape(refused.replace('::', '.'))}\.")
    for file in other.glob("*.antt"):
        file.write_text(own.sub(copy.replace("::", ".") + ".", file.read_text()))


def planted_names(edits):
    """For each edit the function that it is planted in: the first of several of one function in that function itself."""
    seen, names = {}, {}
    for edit in edits:
        number = seen[edit.refused] = seen.get(edit.refused, -1) + 1
        names[edit] = f"{edit.refused}_{ENDS[number - 1]}" if number else edit.refused
    return names


def lines_changed(file, text):
    """The lines of a text, by their numbers, that the file has otherwise."""
    lines = file.read_text().split("\n")
    return {number: line for number, line in enumerate(text.split("\n")) if line != lines[number]}


def plant(edits, folder, is_right=False):
    """Plants the edits in a copy of their crate, with stand-ins for the bodies of the functions that aren't theirs, and gives for each the
    function that is to be refused. The right bodies stand there as the edits would."""
    names = planted_names(edits)
    kept = {name.rpartition("::")[2] for name in names.values()}.union(*(names_of(edit, folder) for edit in edits))
    # a cycle of calls is one as long as each of its functions has its body
    kept = kept.union(*(cycle for cycle in cycles_of(folder) if cycle & kept))
    planted, copies, texts = {}, {}, {}
    for edit, name in names.items():
        if name != edit.refused:
            place = place_of(edit, folder)
            copied = place.copied(name.rpartition("::")[2], is_right)
            copies.setdefault(place.file, {}).setdefault(place.function.first, []).extend(copied)
        elif not is_right:
            for file, text in changed(edit, folder)[0].items():
                if file.endswith(".rt"):
                    planted.setdefault(file, {}).update(lines_changed(folder / file, text))
                else:
                    texts[file] = text
    for edit, name in names.items():
        if name != edit.refused:
            copy_proof(edit.refused, name, folder)
    for file, text in texts.items():
        (folder / file).write_text(text)
    put_stand_ins(folder, kept, planted, copies)
    return names

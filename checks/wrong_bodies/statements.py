"""What a wrong body is refused by: the statement that its function has to meet. That is the function's contract, and all that this names,
definitions of specs/ and types with what they keep, of its crate and of those below it, as far as one names the next. Beside it stand the
function's own body and what is written by hand of its proof, and the contracts of the functions that the edit itself names. Bodies of
others, lemmas and comments are no part of it.

A file names what it imports, and what stands in it; a word that is neither is a variable. Names are looked up by their last word alone. So
of two definitions of one name both count: a refusal may be tried again for nothing, and none is taken over that rests on something
else."""

import functools
import re
from collections import Counter
from dataclasses import dataclass

from edits import PROOF_FILES, functions_of, names_of

# The lines that no check reads: those that are empty, and those that are a comment.
UNREAD = {".rt": re.compile(r"\s*(?://|$)"), ".antt": re.compile(r"\s*(?:-- |--$|$)")}
# What begins a text that may have further lines, in which a quote doesn't end it.
RAW = "r#"

# A word, with the word and the mark before it where it is a part of what that names; or an operator.
WORD = re.compile(r"(?:(?<![\w'-])([\w'][\w'-]*)(?:\.|::))?([\w'][\w'-]*)|([^\w\s(){}\[\],;.:\"']+)")
# What a path of a source may begin with, beside what is imported.
ROOTS = {"crate", "super", "self"}
# The lines by which a file imports, each up to its end.
IMPORTS = re.compile(r"^ *(?:pub(?:\([a-z]+\))? )?(?:ghost )?use\b[^;{\n]*(?:\{[^}]*\})?.*", re.MULTILINE)
# The line that a definition of specs/ begins with, and the lines in it that name a field or a case.
DEFINITION = re.compile(r"^ *(?:abbrev|unfoldable) .*|^(?:pub|record|data|infix[lr]?) .*")
IMPORT = re.compile(r"^(?:pub )?(?:ghost )?(?:use|mod)\b")
DECLARED = re.compile(r"^ *(?:(?:abbrev|unfoldable|pub|record|data|infix[lr]?(?: \d+)?) )*([^\s:({]+)")
# What stands for an argument in the name of an operator.
HOLE = "◌"
# The line that an item of a source begins with that isn't a function, with its kind and its name.
ITEM = re.compile(r"^ *(?:pub(?:\([a-z]+\))? )?(?:unsafe )?(struct|enum|type|const|static|trait|impl)\b(?! fn)(?:<[^>]*>)? *(.*)")
NAME = re.compile(r"\w+")
RENAMED = re.compile(r"(\w+) as (\w+)")


def read_lines_of(text, kind):
    """The text without the lines that no check reads. Where a line has an odd number of quotes, a text in quotes may have several lines,
    and nothing is left out."""
    lines = text.split("\n")
    if kind not in UNREAD or RAW in text or any(line.count('"') % 2 for line in lines):
        return text
    return "\n".join(line for line in lines if not UNREAD[kind].match(line))


class Scope:
    """What the words of a file name: what it imports, and what stands in it."""

    def __init__(self, text):
        imports = " ".join(IMPORTS.findall(text))
        self.imported = set(re.findall(r"[\w'-]+", imports)) | ROOTS
        self.takes_all = "*" in imports
        self.own = set()

    def words_of(self, text):
        """The words of a text that name something, and its operators."""
        found = set()
        for before, word, operator in WORD.findall(text):
            if operator:
                found.add(operator)
                continue
            if before in self.imported or not before and (word in self.imported or word in self.own) or self.takes_all:
                found.add(word)
            if before and (before in self.imported or before in self.own):
                found.add(before)
        return found


@dataclass(frozen=True, eq=False)
class Item:
    """A definition, a type, or a function's contract, with the names that it is looked up by, and the file in whose scope it stands."""

    names: frozenset[str]
    text: str
    scope: Scope

    @functools.cached_property
    def words(self):
        return self.scope.words_of(self.text)


def item(names, lines, scope):
    scope.own.update(names)
    return Item(frozenset(names), "\n".join(lines), scope)


# Definitions.

def names_defined(lines):
    """The names that a definition is looked up by. An operator has the words between its arguments. Fields and cases are none: who names
    one names its type, or something over that."""
    return [part for part in DECLARED.match(lines[0])[1].split(HOLE) if part]


def definitions_of(text):
    """The definitions of a file of specs/, each from the line that declares it to the next one that declares another."""
    found, scope = [], Scope(text)
    for line in read_lines_of(text, ".antt").split("\n"):
        if DEFINITION.match(line) and not IMPORT.match(line):
            found.append([line])
        elif found and not IMPORT.match(line):
            found[-1].append(line)
    return [item(names_defined(lines), lines, scope) for lines in found]


# Types and functions.

@dataclass(frozen=True)
class Function:
    """A function of a source: the type that it is of, its contract, and its body with what stands before it."""

    name: str
    owner: str
    contract: Item
    text: str


def block_at(lines, first):
    """The lines of an item from this one on, and of a type's, a trait's or an impl's those to its closing brace."""
    margin = len(lines[first]) - len(lines[first].lstrip())
    for end in range(first, len(lines)):
        line = lines[end]
        is_own = len(line) - len(line.lstrip()) == margin
        if line.endswith(";") and (is_own or end == first) or is_own and line.lstrip().startswith(("}", "]")) or line.endswith(("{}", " }")) and end == first:
            return lines[first : end + 1]
    return lines[first:]


def head_of(lines, first):
    """What stands in the head of a trait or of an impl."""
    head = ""
    for line in lines[first:]:
        head += " " + line.partition("{")[0].strip()
        if "{" in line or line.endswith(";"):
            break
    return head.strip()


def item_at(lines, first, kind, rest, scope):
    """The item that begins in this line. Of an impl only that is one that says what a type is to contracts."""
    if kind == "impl":
        is_model = re.search(r"\bModel(?:<.*>)? for (\w+)", head_of(lines, first))
        return item([is_model[1]], block_at(lines, first), scope) if is_model else None
    name = NAME.match(rest)
    return item([name[0]] if name else [], block_at(lines, first), scope)


def owners_of(lines):
    """By the number of a line the type or the trait in whose block it stands, with the words of that block's head."""
    owner, owners = ("", ""), []
    for number, line in enumerate(lines):
        if re.match(r"(?:pub(?:\([a-z]+\))? )?(?:unsafe )?(?:impl|trait)\b", line):
            head = head_of(lines, number)
            of_type = re.search(r" for (\w+)", head) or re.search(r"\b(?:trait|impl(?:<[^{]*?>)?) +(\w+)", head)
            owner = (of_type[1] if of_type else "", head)
        owners.append(owner)
        if line.startswith("}"):
            owner = ("", "")
    return owners


def parts_of(text):
    """The items of a source but functions, and the functions."""
    lines = text.split("\n")
    owners, scope = owners_of(lines), Scope(text)
    items = []
    for number, line in enumerate(lines):
        begun = ITEM.match(line)
        if begun and not (line.startswith(" ") and begun[1] not in ("const", "static")):
            if found := item_at(lines, number, *begun.groups(), scope):
                items.append(found)
    functions = []
    for it in functions_of(text):
        owner, head = owners[it.first]
        contract = Item(frozenset([it.name]), "\n".join((head, *lines[it.first : it.begin + 1])), scope)
        functions.append(Function(it.name, owner, contract, "\n".join(lines[it.first : it.end + 1])))
    return items, functions


# Crates.

class Crate:
    """The items, the functions and the proofs by hand of the crate in a folder."""

    def __init__(self, folder):
        self.items, self.functions, self.renamed, self.proofs = [], [], [], {}
        for file in sorted((folder / "specs").rglob("*.antt")):
            text = file.read_text()
            self.items += definitions_of(text)
            self.renamed += RENAMED.findall(text)
        for file in sorted((folder / "src").rglob("*.rt")):
            text = read_lines_of(file.read_text(), ".rt")
            items, functions = parts_of(text)
            self.items += items
            self.functions += functions
            self.renamed += RENAMED.findall(text)
        for file in sorted((folder / "proofs").rglob("*.antt")):
            if file.name in PROOF_FILES:
                self.proofs.setdefault(file.parent.name.removeprefix("+"), []).append(read_lines_of(file.read_text(), ".antt"))


def read_crate(folder):
    """The crate in a folder. It is read once as long as no file of it changes."""
    files = sorted(file for part in ("src", "specs", "proofs") for file in (folder / part).rglob("*") if file.is_file())
    return crate_of(folder, tuple((file, file.stat().st_mtime_ns, file.stat().st_size) for file in files))


@functools.lru_cache(maxsize=200)
def crate_of(folder, _files):
    return Crate(folder)


def words_changed(edit):
    """The words that an edit takes away, and those that it puts in their place."""
    old, new = (Counter(re.findall(r"[\w'-]+", " ".join(texts))) for texts in zip(*((it.old, it.new) for it in edit.changes)))
    return set((old - new) + (new - old))


class Statements:
    """What the wrong bodies of a crate are refused by, as the files in the folders of those below it, and last in its own, are now."""

    def __init__(self, folders):
        crates = [read_crate(folder) for folder in folders]
        self.folder, self.own = folders[-1], crates[-1]
        self.items, self.functions, self.renamed = {}, {}, {}
        for crate in crates:
            for it in crate.items:
                for name in it.names:
                    self.items.setdefault(name, []).append(it)
            for it in crate.functions:
                self.functions.setdefault(it.name, []).append(it.contract)
            for old, new in crate.renamed:
                self.renamed.setdefault(new, set()).add(old)

    def named_by(self, words):
        """The items that these words name, and those that they name in turn."""
        found, seen, left = set(), set(), list(words)
        while left:
            word = left.pop()
            if word in seen:
                continue
            seen.add(word)
            left += self.renamed.get(word, ())
            for it in self.items.get(word, ()):
                if it not in found:
                    found.add(it)
                    left += it.words
        return found

    def functions_named(self, path):
        """The functions of the crate itself that stand under this path, or under its name where no type of that path has one."""
        *_, owner, name = ("", *path.split("::"))
        named = [it for it in self.own.functions if it.name == name]
        return [it for it in named if it.owner == owner] or named

    def of(self, edit):
        """The texts of all that the refusal of an edit stands on, but for the edit and the kit."""
        refused = self.functions_named(edit.refused)
        others = [it for name in names_of(edit, self.folder) - {edit.name_refused()} for it in self.own.functions if it.name == name]
        changed = words_changed(edit)
        contracts = [it.contract for it in (*refused, *others)] + [it for word in changed for it in self.functions.get(word, ())]
        words = changed.union(*(it.words for it in contracts))
        texts = {it.text for it in (*contracts, *self.named_by(words))} | {it.text for it in (*refused, *others)}
        proofs = [text for name in names_of(edit, self.folder) for text in self.own.proofs.get(name, ())]
        return sorted(texts.union(proofs))

"""Reads the exports of a crate from its sources: their parameters, their clauses, and the call that each makes."""

import re
from dataclasses import dataclass, field

EXPORT = re.compile(
    r'#\[unsafe\(no_mangle\)\]\npub unsafe extern "C" fn (\w+)\((.*?)\)( -> i64)?\n(.*?)\n\{\n(.*?)\n\}\n',
    re.S,
)
CLAUSE = re.compile(
    r"^    (ghost|requires\*|ensures\*|ensures) ?(\w*):? \{ (.*?) \}$", re.S | re.M
)
LENT = re.compile(r"&(mut )?\*(?:\((\w+) as \*\w+ (\w+)\)|(\w+))")


@dataclass
class Pointer:
    """A pointer of C's that becomes a reference: what it points to, before the call and after it."""

    name: str
    pointee: str
    is_mut: bool
    is_cast: bool
    before: str = ""
    after: str = ""


@dataclass
class Number:
    """A number that is passed on as it is."""

    name: str
    type: str


@dataclass
class Export:
    name: str
    module: str
    call: str
    ghost: str
    is_answered: bool
    facts: list
    params: list
    arguments: list
    imports: list = field(default_factory=list)
    aliases: list = field(default_factory=list)


def parts(text):
    """The parts of a list of parameters or arguments, without the parentheses' own commas."""
    found, depth, at = [], 0, 0
    for i, c in enumerate(text):
        depth += (c in "(<") - (c in ")>")
        if c == "," and not depth:
            found.append(text[at:i])
            at = i + 1
    return [it for it in (p.strip() for p in [*found, text[at:]]) if it]


def flat(text):
    text = " ".join(text.split())
    # a tuple of several lines as one of one line is laid out
    return re.sub(r",? \)", ")", text.replace("( ", "("))


def at_pointer(text):
    """The pointer and the value of `sem 𝓛 (WORD POINTER VALUE)`."""
    return re.fullmatch(r"sem 𝓛 \(\w+ (\w+) (.*)\)", flat(text)).groups()


def read_export(found, source, module):
    """An export by what is found of it, or None where its body isn't one call of `calls`."""
    name, params, is_answered, clauses, body = found.groups()
    made = re.fullmatch(r"calls::([\w:]+)\((.*)\)", flat(body))
    if not made:
        return None
    call, args = made.groups()
    declared = dict(p.split(": ", 1) for p in parts(flat(params)))
    arguments, pointers = [], {}
    for arg in parts(args):
        if lent := LENT.fullmatch(arg):
            is_mut, cast, to, plain = lent.groups()
            it = cast or plain
            pointee = to or declared[it].split()[-1]
            pointers[it] = Pointer(it, pointee, bool(is_mut), bool(cast))
            arguments.append(pointers[it])
        else:
            arguments.append(Number(arg, declared[arg]))
    ghost, facts = "", []
    for kind, word, text in CLAUSE.findall(clauses):
        if kind == "ghost":
            ghost = word
        elif kind == "ensures":
            facts.append((word, re.sub(r"\bresult\b", "r", flat(text))))
        else:
            at, value = at_pointer(text)
            value = re.sub(r"\bresult\b", "r", value)
            setattr(pointers[at], "before" if kind == "requires*" else "after", value)
    by_name = {it.name: it for it in arguments}
    export = Export(name, module, call, ghost, bool(is_answered), facts, [by_name[n] for n in declared], arguments)
    find_imports(source, export)
    return export


def words_of(export):
    """What the clauses say, word by word."""
    pointers = [p for p in export.params if isinstance(p, Pointer)]
    said = [*(text for _, text in export.facts), *(p.before for p in pointers), *(p.after for p in pointers)]
    text = " ".join(said)
    # an operator such as <ℤ has a letter in it, and stands between spaces
    return {*re.findall(r"\w+|[^\w\s().]+", text), *text.split()}


def find_imports(source, export):
    """The imports of the source that the clauses need: names, and modules under other names."""
    words = words_of(export)
    for path, alias in re.findall(r"^ghost use (\S+) as (\w+);", source, re.M):
        if alias in words:
            export.aliases.append((path, alias))
    for path, names in re.findall(r"^ghost use ([\w.]+)\.\{(.*?)\};", source, re.M):
        used = [n for n in names.split(", ") if n.split(".")[-1].strip("◌") in words]
        if used:
            export.imports.append((path, used))


def read_exports(folder):
    """The exports of a folder of sources that make one call, in their order, and the names of the others."""
    found, others = [], []
    for file in sorted(folder.glob("*.rt")):
        source = file.read_text()
        for it in EXPORT.finditer(source):
            if export := read_export(it, source, file.stem):
                found.append(export)
            else:
                others.append(it[1])
    return found, others

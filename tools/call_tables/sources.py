"""What the sources of a crate declare: the public calls of a type or a module, and the members of a type, each as it stands there but for
its contract and its body."""

import re
from functools import cache
from pathlib import Path

CRATES = Path(__file__).resolve().parents[2] / "crates"

# The calls of a type, up to the end of the block.
IMPL = re.compile(r"^impl(?:<[^{]*?>)? (\w+)(?:<[^{]*>)? \{\n(.*?)^\}", re.MULTILINE | re.DOTALL)
# The calls of a trait, likewise.
TRAIT = re.compile(r"^pub trait (\w+)[^{]* \{\n(.*?)^\}", re.MULTILINE | re.DOTALL)
# A call up to its contract, its body or its end.
CALL = r"^{margin}fn (\w+)(.*?)(?=\s*(?:\{{|;\n|requires\b|ensures\b))"
DECLARED = r"^pub (enum|struct) {name}\b[^{{;]*\{{\n(.*?)^\}}"
REMARK = re.compile(r"^\s*(?://|#\[|ghost\b).*\n", re.MULTILINE)


def on_one_line(text):
    """Code as it stands on one line: without the breaks and the last commas of a longer one."""
    text = re.sub(r"\s+", " ", text.strip())
    text = re.sub(r",? ([)}])", r" \1", re.sub(r"([({]) ", r"\1 ", text))
    return re.sub(r"\( | \)", lambda it: it[0].strip(), text).replace("(mut self", "(self")


@cache
def files_of(path):
    """The texts of a crate's files, as crate::module, or of those that no public module of it has."""
    crate, *modules = path.split("::")
    top = CRATES / crate / "src"
    if modules:
        stem = top.joinpath(*modules)
        return [file.read_text() for file in sorted((stem.with_suffix(".rt"), *stem.rglob("*.rt")))]
    public = {top / name for name in re.findall(r"^pub mod (\w+);", (top / "lib.rt").read_text(), re.MULTILINE)}
    apart = [file for file in top.rglob("*.rt") if not public & {file.with_suffix(""), *file.parents}]
    return [file.read_text() for file in sorted(apart)]


def calls_in(text, margin):
    """The calls behind a margin, each with what stands behind its name."""
    return {name: on_one_line(rest) for name, rest in re.findall(CALL.format(margin=margin), text, re.MULTILINE | re.DOTALL)}


@cache
def functions_of(path):
    """The public functions of a crate or of a module of it, each with what stands behind its name."""
    return {name: rest for text in files_of(path) for name, rest in calls_in(text, "pub ").items()}


@cache
def calls_of(path):
    """The public calls of a type or a trait, crate::module::Type, each with what stands behind its name."""
    module, _, wanted = path.rpartition("::")
    blocks = [(block, margin) for text in files_of(module) for form, margin in ((IMPL, "    pub "), (TRAIT, "    "))
              for name, block in form.findall(text) if name == wanted]
    return {name: rest for block, margin in blocks for name, rest in calls_in(block, margin).items()}


@cache
def members_of(path):
    """`enum` or `struct` and the public members of such a type, each as its name and what stands behind it; none where they are private."""
    module, _, wanted = path.rpartition("::")
    for text in files_of(module):
        if found := re.search(DECLARED.format(name=wanted), text, re.MULTILINE | re.DOTALL):
            kind, body = found.groups()
            body = REMARK.sub("", body)
            if kind == "struct":
                return kind, re.findall(r"^    pub (\w+)(: [^\n]*),$", body, re.MULTILINE)
            variants = re.findall(r"^    (\w+)((?:\(.*?\)| \{.*?\})?),$", body, re.MULTILINE | re.DOTALL)
            return kind, [(name, f" {on_one_line(rest)}" if rest.startswith(" ") else on_one_line(rest)) for name, rest in variants]
    return None, []

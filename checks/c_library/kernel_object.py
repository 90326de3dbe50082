"""The object for kernels: that it is made from what the archive for programs is made from, what it asks for, and that it leaves alone what
a kernel doesn't give: the bytes below the stack pointer, indirect jumps, and with thunks plain returns; that its code is in one section and
that each call begins as one that may come through a pointer. What it is made by, and how many traps it has, are what docs/embedding-c.md
says."""

import re
import sys
from dataclasses import dataclass

import object_file
from object_file import Asks, declared, difference, is_readable, said_by
from tools import TOP, runner

sys.path.append(str(TOP / "tools" / "c_archives"))

import kernel_archive  # noqa: E402
from kept_module import KeptModule  # noqa: E402

# Distances alone, so that it can lie anywhere, as Linux's loader of modules and any linker knows them.
OTHER_RELOCATIONS = re.compile(r"^(?!R_X86_64_(?:PC32|PLT32)$)")
OF_KERNELS = Asks({"memset", *object_file.MEMORY}, set(), OTHER_RELOCATIONS)
OF_LINUX = Asks({*OF_KERNELS.names, "__x86_return_thunk"}, set(), OTHER_RELOCATIONS)

# An instruction with its operands.
INSTRUCTION = re.compile(r"^ +[0-9a-f]+:\t(.*)$", re.MULTILINE)
RETURN = re.compile(r"^(?:\w+ )?ret")


@dataclass(frozen=True)
class Written:
    """How a processor's instructions are written: those that aren't to be found, that by which each call begins, and the trap."""

    below_stack: re.Pattern
    indirect: re.Pattern
    entry: str
    trap: str


OF_X86_64 = Written(re.compile(r"^(?!lea).*-0x[0-9a-f]+\((?:%rsp|.*,%rsp)"), re.compile(r"^(?:\w+ )?(?:jmp|call)\w* +\*"), "endbr64", "ud2")
# A function, and its first instruction.
BEGINNING = re.compile(r"^[0-9a-f]+ <(\w+)>:\n +[0-9a-f]+:\t(.*)$", re.MULTILINE)
# A section that is loaded, and the symbol of a file that an object was made from.
LOADED = re.compile(r"^ +\[ *\d+\] (\S+) .* W?AX?M?S? +\d+ +\d+ +\d+$", re.MULTILINE)
FILE = re.compile(r"\bFILE +LOCAL\b")
# The sections that the linker scripts of kernels name.
NAMED = re.compile(r"^\.(?:text|data|bss|rodata(?:\..*)?)$")


def instructions(archive):
    return INSTRUCTION.findall(said_by("objdump", "-d", "--no-show-raw-insn", archive))


def found(all_instructions, unwanted):
    """What isn't to be found, the first of it, or nothing."""
    return "; ".join([text for text in all_instructions if unwanted.search(text)][:5])


def page():
    return (TOP / "docs" / "embedding-c.md").read_text()


def documented_traps(trap):
    said = re.search(rf"(\d+) instructions `{trap}`", page())
    return said and int(said[1])


def undocumented_words(head, variant, aside):
    """What an archive is made by that the page's table with this head doesn't name, or names and it isn't made by, but for what the table
    says besides."""
    table = page().partition(f"| {head} | What for |")[2].partition("\n\n")[0]
    first = [row.split("|")[1] for row in table.splitlines() if row.startswith("| ")]
    named = {word for cell in first for quoted in re.findall(r"`([^`]+)`", cell) for word in quoted.split()}
    return difference(named - aside, {*variant.attributes, *variant.flags, variant.processor} - aside)


def look_at(archive, asks, look, written=OF_X86_64):
    object_file.look_at(archive, asks, look)
    code = instructions(archive)
    look("nothing is read or written below the stack pointer", found(code, written.below_stack), f"{len(code)} instructions")
    if asks is OF_LINUX:
        look("no plain returns", found(code, RETURN))
    look_at_sections(archive, look)
    look(f"each call begins with {written.entry}", ", ".join(sorted(declared() - entries(archive, written.entry))))
    look_at_jumps(code, look, written)


def entries(archive, entry):
    """The functions that may be called through a pointer where the processor looks at that."""
    said = said_by("objdump", "-d", "--no-show-raw-insn", archive)
    return {name for name, first in BEGINNING.findall(said) if first.split() == entry.split()}


def look_at_sections(archive, look):
    """A linker script of a kernel's names each section, and Linux's build says a word of an object that was linked of several."""
    loaded = LOADED.findall(said_by("readelf", "-SW", archive))
    others = [name for name in loaded if not NAMED.match(name)]
    look("no section that a kernel's linker script doesn't name", ", ".join(others) or (None if ".text" in loaded else "no .text"))
    files = len(FILE.findall(said_by("readelf", "-sW", archive)))
    look("it isn't linked of several objects", None if files <= 1 else f"{files} symbols of files")


def look_at_jumps(code, look, written=OF_X86_64):
    """What holds of the archive for programs too."""
    look("no indirect jumps or calls", found(code, written.indirect))
    traps, said = sum(text.split()[0] == written.trap for text in code), documented_traps(written.trap)
    look("as many traps as the page says", None if traps == said else f"{traps}, and not {said}", str(traps))


def object_of(archive):
    """The bytes of an archive's first object, which is the one that is proved."""
    first = said_by("ar", "t", archive).split()[0]
    return runner.run(["ar", "p", str(archive), first]).out


def for_programs(tools):
    """The archive for programs, which lies beside the module."""
    return tools.module.parent / "libeevdf_c.a"


def look_at_module(tools, variant=kernel_archive.PROGRAMS):
    """Compiled for programs the kept module is the object of their archive, byte for byte."""
    again, other = tools.work / "again.a", for_programs(tools)
    kernel_archive.make(kernel_archive.kit_tools(), KeptModule.read(tools.module), again, variant)
    same = object_of(again) == object_of(other)
    tools.checks.look("the module gives the archive for programs byte for byte", None if same else f"{other} has another object")


def check(tools):
    if not is_readable(tools):
        return
    for name, archive, asks in (("", tools.archive, OF_KERNELS), (", with thunks", tools.thunks, OF_LINUX)):
        look_at(archive, asks, lambda what, *said, name=name: tools.checks.look(f"{what}{name}", *said))
    look_at_jumps(instructions(for_programs(tools)), lambda what, *said: tools.checks.look(f"{what}, for programs", *said))
    aside = {"--thunks", "target-cpu", kernel_archive.PROCESSOR}
    undocumented = undocumented_words("Attribute or flag", kernel_archive.LINUX, aside)
    tools.checks.look("the page names the attributes and flags that it is made by", undocumented)
    look_at_module(tools)

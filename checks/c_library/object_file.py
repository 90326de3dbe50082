"""What the library's object asks for: the names that it wants, the registers that a kernel has to keep, and that it has no thread-local
storage, no unwind tables and no absolute relocations."""

import re
import shutil
from dataclasses import dataclass

from tools import TOP, fault_of, run

# Registers of x86-64 besides the general ones.
REGISTER = re.compile(r"%([xyz]mm\d+|mm\d|k[0-7]|st|fs|gs)\b")
RELOCATION = re.compile(r"\bR_(?:X86_64|AARCH64)_\w+")
ABSOLUTE = re.compile(r"\bR_X86_64_(64|32S?|16|8)\b|\bR_AARCH64_ABS\d+\b")


@dataclass(frozen=True)
class Asks:
    """What an object asks for, as the header says it: names, registers besides the general ones, and the relocations that aren't to be
    found; and how such registers are written."""

    names: set
    registers: set
    relocations: re.Pattern
    pattern: re.Pattern = REGISTER


# What the names of binutils begin with that read the objects of the processor that is looked at.
binutils = {"prefix": ""}

# The functions for memory, which the caller defines.
MEMORY = {"eevdf_alloc", "eevdf_dealloc"}
OF_PROGRAMS = Asks({"memset", "__udivti3", *MEMORY}, {"xmm0", "xmm1"}, ABSOLUTE)


def said_by(tool, *words):
    """What a tool of binutils prints. One that fails would print nothing, in which nothing wrong is found."""
    made = run([binutils["prefix"] + tool, *words])
    if made.returncode:
        raise RuntimeError(f"{tool} fails: {fault_of(made)}")
    return made.stdout


def names(archive, flag):
    """The names that the members want or define."""
    said = said_by("nm", flag, "-P", archive)
    return {line.split()[0] for line in said.splitlines() if re.match(r"^\S+ [A-Za-z]( |$)", line)}


def undefined(archive):
    return names(archive, "-u") - names(archive, "--defined-only")


def declared():
    """The calls that the header declares."""
    return set(re.findall(r"^(?:int64_t|void) (eevdf_\w+)\(", (TOP / "include" / "eevdf.h").read_text(), re.MULTILINE)) - MEMORY


def undocumented(wanted):
    text = (TOP / "include" / "eevdf.h").read_text()
    return sorted(name for name in wanted if not re.search(rf"\b{name}\b", text))


def relocations(archive):
    """The relocations of what is loaded, each with its section."""
    section = ""
    for line in said_by("readelf", "-rW", archive).splitlines():
        if line.startswith("Relocation section"):
            section = line.split("'")[1]
        elif (kind := RELOCATION.search(line)) and not re.search(r"\.(debug|comment|note)", section):
            yield kind[0], f"{section}: {line.strip()}"


def has_thread_storage(archive):
    sections = said_by("readelf", "-SW", archive)
    symbols = said_by("readelf", "-sW", archive)
    return ".tdata" in sections or ".tbss" in sections or re.search(r"\bTLS\b", symbols)


def difference(found, wanted):
    if found != wanted:
        return f"has {sorted(found - wanted)} besides, and lacks {sorted(wanted - found)}"
    return None


def registers(archive, pattern):
    """The registers of vectors, of floating point and of segments that the code uses."""
    return set(pattern.findall(said_by("objdump", "-d", "--no-show-raw-insn", archive)))


def is_readable(tools):
    """Whether there are the tools that read an object, with a word where there aren't."""
    found = all(map(shutil.which, ("nm", "readelf", "objdump")))
    if not found:
        tools.checks.skip("the object", "nm, readelf or objdump", "binutils")
    return found


def check(tools):
    if is_readable(tools):
        try:
            look_at(tools.archive, OF_PROGRAMS, tools.checks.look)
        except RuntimeError as failed:
            tools.checks.look("the object can be read", str(failed))


def look_at(archive, asks, look):
    look("the object wants the documented names", difference(undefined(archive), asks.names), ", ".join(sorted(asks.names)))
    look("the header says these names", ", ".join(undocumented(asks.names)))
    missing = sorted(declared() - names(archive, "--defined-only"))
    look("the object defines what the header declares", f"not {missing}" if missing else None, f"{len(declared())} calls")
    kept = ", ".join(sorted(asks.registers)) or "none but the general ones"
    look("the registers are those that the header says", difference(registers(archive, asks.pattern), asks.registers), kept)
    look("no thread-local storage", "there is some" if has_thread_storage(archive) else None)
    sections = said_by("readelf", "-SW", archive)
    look("no unwind tables", ", ".join(re.findall(r"\.(?:eh_frame|gcc_except_table|ARM\.ex\w+)\S*", sections)))
    look("no constructors", ", ".join(re.findall(r"\.(?:init_array|fini_array|ctors|dtors)\S*", sections)))
    others = [line for kind, line in relocations(archive) if asks.relocations.search(kind)]
    look("no relocations that the header rules out", "; ".join(others[:5]))

"""A program whose control flow is protected keeps its marks over the archives for programs: the linker keeps those that each object has.
What is linked here is a source of its own and all of these archives, and nothing of the system, whose own objects may have none."""

import re
from dataclasses import dataclass

from kernel_object import OF_X86_64 as WRITTEN
from kernel_object import entries
from object_file import declared, is_readable, said_by
from tools import C11, fault_of, run

ARCHIVES = ("libeevdf.a", "libeevdf_malloc.a", "libeevdf_no_memory.a")
SOURCE = "#include <eevdf.h>\n\nint64_t (*const call)(void) = eevdf_version;\n"
FEATURES = re.compile(r"^ +Properties: \w+ feature: (.*)$", re.MULTILINE)


@dataclass(frozen=True)
class Protection:
    """The instruction by which each call begins, the compiler's flag, what the linker is told so that an object without marks is an error,
    and the marks of what is linked."""

    entry: str
    flag: str
    strict: tuple
    marks: str


OF_X86_64 = Protection(WRITTEN.entry, "-fcf-protection=full", ("-Wl,-z,cet-report=error",), "IBT, SHSTK")
OF_ARM = Protection("bti c", "-mbranch-protection=bti", ("-Wl,-z,force-bti", "-Wl,--fatal-warnings"), "BTI")


def check(tools, protection=OF_X86_64, prefix="prefix"):
    """After `./install`."""
    if not is_readable(tools):
        return
    source = tools.work / "protected.c"
    source.write_text(SOURCE)
    archives = [tools.work / prefix / "lib" / name for name in ARCHIVES]
    others = declared() - entries(archives[0], protection.entry)
    tools.checks.look(f"each call of the archive for programs begins with {protection.entry}", ", ".join(sorted(others)))
    linked = [tools.cc, *C11, "-fPIC", protection.flag, "-shared", "-nostdlib", source, "-Wl,--whole-archive", *archives]
    for name, strict in (("", ()), (", where the linker looks at each object", protection.strict)):
        made = tools.work / "protected.so"
        fault = fault_of(run([*linked, *strict, "-o", made]))
        marks = None if fault else ", ".join(FEATURES.findall(said_by("readelf", "-n", made)))
        other = None if marks == protection.marks else f"has {marks or 'no marks'}, and not {protection.marks}"
        tools.checks.look(f"the marks {protection.marks} are kept{name}", fault or other)

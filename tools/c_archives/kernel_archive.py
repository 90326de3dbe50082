#!/usr/bin/env -S python3 -B
"""kernel_archive.py [--thunks] MODULE ARCHIVE [NO_MEMORY]: makes the archive for kernels from the kept LLVM module of the library for C, by
the kit's own clang and the words that it was given for the archive for programs, with the attributes and flags besides that
docs/embedding-c.md lists for the module's processor. To the module it joins the names by which a kernel has its functions for memory, as
bindings/c has them; and for a kernel that has no memory it makes an archive NO_MEMORY of two functions that give none. Ends with 3 where
there is no module, no kit, or a module that isn't understood."""

import argparse
import re
import subprocess
import sys
import tempfile
from dataclasses import dataclass, replace
from pathlib import Path

from kept_module import KeptModule


@dataclass(frozen=True)
class Variant:
    """What one of the archives is made by: attributes of each function that the module defines, the processor that these name and the one
    that they name in the module, flags that come to those of the module, the C files whose functions are joined to it, and marks of the
    module, by which its object says how its control flow is protected."""

    attributes: tuple
    processor: str
    module_processor: str
    flags: tuple = ()
    sources: tuple = ()
    marks: tuple = ()


PROCESSOR = "x86-64-v2"
PROGRAMS = Variant((), PROCESSOR, PROCESSOR, marks=("cf-protection-branch", "cf-protection-return"))
# What is the same for each processor.
ONE_SECTION = (
    "-fno-function-sections", "-fno-data-sections",  # all code in .text, as a kernel's linker script takes it
    "-fno-addrsig",  # no section that such a script doesn't name
)
DIVISION = ("-mllvm", "-expand-div-rem-bits=64")  # the division of 128 bits in the code, so no __udivti3
SOURCES = ("eevdf_names.c",)
NO_MEMORY = "eevdf_no_memory.c"
KERNEL = Variant(
    ("noredzone",),  # nothing below the stack pointer
    "x86-64",  # for each processor of 64 bits
    PROCESSOR,
    (
        "-mno-sse", "-mno-sse2", "-mno-avx", "-mno-mmx",  # no registers but the general ones
        *ONE_SECTION,
        "-mllvm", "-x86-indirect-branch-tracking",  # endbr64 where a call may come through a pointer
        *DIVISION,
    ),
    SOURCES,
)
LINUX = replace(KERNEL, attributes=(*KERNEL.attributes, "fn_ret_thunk_extern"))  # returns by __x86_return_thunk

ARM_PROCESSOR = "generic"
BTI = '"branch-target-enforcement"'  # bti where a call may come through a pointer
ARM_PROGRAMS = Variant((BTI,), ARM_PROCESSOR, ARM_PROCESSOR, marks=(BTI.strip('"'),))
ARM_KERNEL = Variant(
    (
        '"target-features"="-fp-armv8,-neon,+reserve-x18"',  # no registers but the general ones, and of these not Linux's own
        BTI,
    ),
    ARM_PROCESSOR,
    ARM_PROCESSOR,
    ("-mgeneral-regs-only", *ONE_SECTION, *DIVISION),
    SOURCES,
)
# The archives by what a module is compiled for.
ALL_PROGRAMS = {"x86_64-unknown-linux-gnu": PROGRAMS, "aarch64-unknown-linux-gnu": ARM_PROGRAMS}
KERNELS = {"x86_64-unknown-linux-gnu": KERNEL, "aarch64-unknown-linux-gnu": ARM_KERNEL}

# What the attributes are called where clang is given C, and how it compiles C for a place without an operating system. By the one that is
# left out it would add sections that Linux's linker script may not name; nobody calls these functions through a pointer.
IN_C = {
    "noredzone": "-mno-red-zone",
    "fn_ret_thunk_extern": "-mfunction-return=thunk-extern",
    '"target-features"="-fp-armv8,-neon,+reserve-x18"': "-ffixed-x18",
}
BARE = ("-std=c11", "-O3", "-fPIC", "-Wall", "-Wextra", "-Werror", "-ffreestanding", "-nostdinc", "-fno-asynchronous-unwind-tables",
        "-fno-stack-protector")

TOP = Path(__file__).resolve().parents[2]
OBJECT = "eevdf_kernel.o"
DEFINITION = re.compile(r"^define .*?(?: #(\d+))? \{$", re.MULTILINE)
NUMBERED = re.compile(r"^!(\d+) = ", re.MULTILINE)
MODULE_FLAGS = re.compile(r"^!llvm\.module\.flags = !\{(.+)\}\n", re.MULTILINE)


class NotMade(Exception):
    """Why there is no archive."""


def with_attributes(text, variant):
    """A module in words of LLVM, with the attributes of a variant on each function that it defines."""
    groups = {found[1] for found in DEFINITION.finditer(text)}
    named = f'"target-cpu"="{variant.module_processor}"'
    for group in groups:
        head = re.search(rf"^attributes #{group} = {{ (?=.*{named})", text, re.MULTILINE)
        if not head:
            raise NotMade(f"the module has a function of other attributes than for {variant.module_processor}")
        text = text[: head.end()] + "".join(f"{name} " for name in variant.attributes) + text[head.end() :]
    return text.replace(named, f'"target-cpu"="{variant.processor}"')


def with_marks(text, variant):
    """The same module with the marks of a variant, beside the flags that it has. Of two modules that are joined the lower number holds."""
    first = 1 + max(map(int, NUMBERED.findall(text)), default=-1)
    marks = {f"!{number}": mark for number, mark in enumerate(variant.marks, first)}
    flags = ", ".join((*MODULE_FLAGS.findall(text), *marks))
    lines = [f'{number} = !{{i32 8, !"{mark}", i32 1}}' for number, mark in marks.items()]
    return "\n".join((MODULE_FLAGS.sub("", text), f"!llvm.module.flags = !{{{flags}}}", *lines, ""))


def run(*words):
    made = subprocess.run(list(map(str, words)), stdin=subprocess.DEVNULL, capture_output=True, text=True, errors="replace")
    if made.returncode:
        raise NotMade(f"{Path(words[0]).name}: {made.stdout}{made.stderr}")


def compile_words(kept):
    """The words by which the module was compiled, but for what is made, its name and that of the object. For some processors the kit has
    clang print the module that comes of it, and then make the object of what is printed."""
    words = list(kept.words)
    made = ("-S", "-emit-llvm", "-Xclang", "-emit-llvm-uselists") if "-S" in words else ("-c",)
    for gone in (*made, "-x", "ir", "-o", *(word for word in words if re.search(r"^--sysroot=|\.(?:bc|o|ll)$", word))):
        if gone not in words:
            raise NotMade(f"the module was compiled without {gone}: {' '.join(kept.words)}")
        words.remove(gone)
    return words


def compile_source(tools, kept, variant, source, made, *more):
    """The object of a C file of bindings/c, or its module, by flags that come to those of the library's."""
    target = [word for word in kept.words if word.startswith(("--target=", "-march="))]
    flags = [*target, *BARE, *variant.flags, *(IN_C[name] for name in variant.attributes if name in IN_C)]
    run(tools / "clang", *flags, f"-I{TOP / 'include'}", "-c", *more, "-o", made, TOP / "bindings" / "c" / source)


def compile_module(tools, kept, variant, made):
    """The object of the module, which is written in words of LLVM, in which attributes can be added, and nothing else is done to it but
    that those of the C files are joined to it. One module makes one symbol of a file, by which Linux's objtool knows an object that
    isn't linked of several."""
    words, text, joined = compile_words(kept), made.with_suffix(".ll"), []
    run(tools / "clang", *words, "-x", "ir", "-S", "-emit-llvm", "-Xclang", "-disable-llvm-passes", "-o", text, kept.module)
    text.write_text(with_marks(with_attributes(text.read_text(), variant), variant))
    for source in variant.sources:
        module = made.with_name(source).with_suffix(".bc")
        compile_source(tools, kept, variant, source, module, "-emit-llvm")
        joined += ["-Xclang", "-mlink-bitcode-file", "-Xclang", module]
    run(tools / "clang", *words, *variant.flags, *joined, "-c", "-x", "ir", "-o", made, text)


def kernel_variant(kept, has_thunks):
    """How the archive for kernels is made of a module."""
    variant = KERNELS.get(kept.target)
    if not variant:
        raise NotMade(f"there is no archive for kernels on {kept.target}")
    if has_thunks and variant is not KERNEL:
        raise NotMade(f"{kept.target} has no thunks")
    return LINUX if has_thunks else variant


def pack(tools, archive, made):
    archive.unlink(missing_ok=True)
    run(tools / "llvm-ar", "rcsD", archive, made)


def make(tools, kept, archive, variant):
    """Makes an archive of one object."""
    with tempfile.TemporaryDirectory() as held:
        made = Path(held) / OBJECT
        compile_module(tools, kept, variant, made)
        pack(tools, archive, made)


def make_no_memory(tools, kept, archive, variant):
    """Makes the archive of the two functions for memory that give none."""
    with tempfile.TemporaryDirectory() as held:
        made = (Path(held) / NO_MEMORY).with_suffix(".o")
        compile_source(tools, kept, variant, NO_MEMORY, made)
        pack(tools, archive, made)


def kit_tools():
    """The folder of the kit's clang."""
    try:
        page = subprocess.run(["rt", "doc"], capture_output=True, text=True, check=True).stdout.strip()
    except (OSError, subprocess.CalledProcessError):
        raise NotMade("there is no command rt: README.md names the kit that has it") from None
    return Path(page).parent / "toolchain" / "bin"


def main():
    words = argparse.ArgumentParser()
    words.add_argument("--thunks", action="store_true")
    words.add_argument("module", type=Path)
    words.add_argument("archive", type=Path)
    words.add_argument("no_memory", type=Path, nargs="?")
    asked = words.parse_args()
    try:
        tools, kept = kit_tools(), KeptModule.read(asked.module)
        variant = kernel_variant(kept, asked.thunks)
        make(tools, kept, asked.archive, variant)
        if asked.no_memory:
            make_no_memory(tools, kept, asked.no_memory, variant)
    except (NotMade, FileNotFoundError) as failed:
        print(f"{Path(__file__).name}: {failed}", file=sys.stderr)
        sys.exit(3)


if __name__ == "__main__":
    main()

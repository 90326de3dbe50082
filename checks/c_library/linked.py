"""Where the archive for kernels can be linked: in a program at a fixed address, at any, and at any without a loader; and in a kernel, by a
script that names the sections of a kernel, where a section that isn't named is an error. And what Linux's objtool says of its object."""

import os
import shutil
from pathlib import Path

from tools import TOP, fault_of, run, runner

WAYS = {"at a fixed address": ("-no-pie",), "at any address": ("-pie",), "at any address, without a loader": ("-static-pie",)}
# What a kernel gives: the function that compilers ask for, and on x86-64 Linux's way to return.
MEMSET = """
#include <stddef.h>

void *memset(void *at, int byte, size_t size);
void *memset(void *at, int byte, size_t size)
{
	for (unsigned char *to = at; size; size--)
		*to++ = (unsigned char)byte;
	return at;
}
"""
THUNK = '__asm__(".globl __x86_return_thunk\\n__x86_return_thunk: ret\\n");\n'
# A table of calls, as a class of a scheduler has.
TABLE = """
#include <eevdf.h>

extern int64_t (*const table[])(eevdf_queue *queue);
int64_t (*const table[])(eevdf_queue *queue) = { eevdf_pick, eevdf_yield, eevdf_stop };
"""
OBJTOOL = "usr/lib/linux-kbuild-*/tools/objtool/objtool"
BARE = ("-std=c11", "-O1", "-ffreestanding", "-fno-unwind-tables", "-fno-asynchronous-unwind-tables", "-fno-stack-protector", "-fno-pic")
UNPROTECTED, PROTECTED = "-fcf-protection=none", "-fcf-protection=branch"


def check_programs(tools):
    for name, flags in WAYS.items():
        program, fault = tools.compile(f"linked {name}", [tools.callers / "errors.c"], *flags, "-Wl,-z,text")
        tools.checks.look(f"callers/errors.c, linked {name}", fault or fault_of(run([program])))


def link_words(linker, script, made, given, *archives):
    """The words by which all of some archives is linked into a kernel."""
    return [linker, "--orphan-handling=error", "-z", "noexecstack", "-e", "0", "-T", script, "-o", made, given,
            "--whole-archive", *archives, "--no-whole-archive"]


def check_kernels(tools):
    source, given = tools.work / "given.c", tools.work / "given.o"
    source.write_text(MEMSET + THUNK)
    fault = fault_of(run([tools.cc, *BARE, UNPROTECTED, "-c", "-o", given, source]))
    for linker in ("ld", "ld.lld"):
        if not shutil.which(linker):
            tools.checks.skip(f"linked into a kernel by {linker}", linker, "binutils" if linker == "ld" else "lld")
            continue
        for name, archive in (("", tools.archive), (", with thunks", tools.thunks)):
            words = link_words(linker, tools.callers / "kernel.ld", tools.work / "linked.elf", given, archive, tools.no_memory)
            tools.checks.look(f"linked into a kernel by {linker}{name}", fault or fault_of(run(words)))


def check_objtool(tools):
    """Of the object, alone and with a table of calls, objtool says nothing, where Linux's build asks it for what the page says."""
    name = "Linux's objtool says nothing"
    found = sorted(Path(os.environ.get("LINUX", "/")).glob(OBJTOOL))
    if not found or not shutil.which("ld"):
        tools.checks.leave_out(name, "there is no ld, or no objtool (Debian package linux-kbuild) below / or the folder LINUX")
        return
    source, table, both = (tools.work / file for file in ("table.c", "table.o", "table_and_calls.o"))
    source.write_text(TABLE)
    fault = fault_of(run([tools.cc, *BARE, PROTECTED, f"-I{TOP / 'include'}", "-c", "-o", table, source]))
    for label, archive, more in (("", tools.archive, ()), (", with thunks", tools.thunks, ("--retpoline", "--rethunk", "--sls"))):
        alone = tools.work / "calls.o"
        alone.write_bytes(runner.run(["ar", "p", str(archive)]).out)
        fault = fault or fault_of(run(["ld", "-r", "-o", both, table, alone]))
        said = [run([found[-1], "--orc", *more, alone]), run([found[-1], "--orc", "--ibt", "--link", *more, both])]
        words = "".join(made.stdout + made.stderr or fault_of(made) or "" for made in said)
        tools.checks.look(f"{name}{label}", fault or words)


def check(tools):
    check_programs(tools)
    check_kernels(tools)
    check_objtool(tools)

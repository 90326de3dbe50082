"""The two functions for memory: a program has its own in an object or in an archive, wherever that stands; over the flags of pkg-config and
the target of CMake one without has them over malloc; and else the linker names them. And the names that they had before version 0.3."""

import os
import shutil

from tools import TOP, fault_of, run

NAMES = {
    "the header's names": (),
    "the names from before 0.3": ("-Deevdf_alloc=rattle_alloc", "-Deevdf_dealloc=rattle_dealloc"),
}
# The archive's object is asked for by a name, as the flags of ./install do.
ASKED = ("-Wl,-u,eevdf_version",)
# A program that names no function for memory, and ends with the code of its admit.
MAIN = """
#include <eevdf.h>

int main(void)
{
	static eevdf_queue queue;
	int64_t answer;

	eevdf_open(&queue);
	answer = eevdf_admit(&queue, 0, 0, EEVDF_SLICE_MIN, 0);
	eevdf_close(&queue);
	return (int)-answer;
}
"""
OWN = """
#include <eevdf.h>
#include <stdio.h>

static union {
	void *aligned;
	unsigned char bytes[EEVDF_TASK_SIZE];
} block;

eevdf_memory eevdf_alloc(size_t size, size_t align)
{
	(void)size;
	(void)align;
	puts("own");
	return (eevdf_memory){ 1, &block };
}

void eevdf_dealloc(void *given)
{
	(void)given;
}
"""
OVER_MALLOC, OF_ITS_OWN, NONE = (0, ""), (0, "own\n"), (12, "")
MISSING = "eevdf_alloc and eevdf_dealloc are missing"
# What stands before MAIN and behind it, and which functions it has then.
OF_PROGRAMS = {
    "none": ((), ("eevdf",), OVER_MALLOC),
    "none, flags first": (("eevdf",), (), OVER_MALLOC),
    "an object": ((), ("object", "eevdf"), OF_ITS_OWN),
    "an object, flags first": (("eevdf",), ("object",), OF_ITS_OWN),
    "an archive before": ((), ("archive", "eevdf"), OF_ITS_OWN),
    "bare, an object": ((), ("object", "eevdf_bare"), OF_ITS_OWN),
    "bare, an object, flags first": (("eevdf_bare",), ("object",), OF_ITS_OWN),
    "bare, an archive before": ((), ("archive", "eevdf_bare"), OF_ITS_OWN),
    "bare, an archive after": ((), ("eevdf_bare", "archive"), OF_ITS_OWN),
    "bare, an archive after, flags first": (("eevdf_bare",), ("archive",), OF_ITS_OWN),
    "bare, an archive before malloc's": ((), ("eevdf_bare", "archive", "malloc"), OF_ITS_OWN),
    "bare, none": ((), ("eevdf_bare",), MISSING),
    "no flags, an archive after": ((), ("library", "archive"), OF_ITS_OWN),
    "no flags, none": ((), ("library",), MISSING),
    "shared, none": ((), ("eevdf_shared",), OVER_MALLOC),
    "shared, an object": ((), ("object", "eevdf_shared"), OF_ITS_OWN),
    "shared, an archive before": ((), ("archive", "eevdf_shared"), OF_ITS_OWN),
}
OF_KERNELS = {
    "an object": ((), ("object", "eevdf_kernel"), OF_ITS_OWN),
    "an object, flags first": (("eevdf_kernel",), ("object",), OF_ITS_OWN),
    "an archive before": ((), ("archive", "eevdf_kernel"), OF_ITS_OWN),
    "an archive after": ((), ("eevdf_kernel", "archive"), OF_ITS_OWN),
    "an archive after, flags first": (("eevdf_kernel",), ("archive",), OF_ITS_OWN),
    "none": ((), ("eevdf_kernel",), MISSING),
    "no flags, an archive after": ((), ("library", "archive"), OF_ITS_OWN),
    "no flags, an archive before that of none": ((), ("library", "archive", "no_memory"), OF_ITS_OWN),
    "no flags, none": ((), ("library",), MISSING),
    "no flags, the archive of none": ((), ("library", "no_memory"), NONE),
}
CMAKE = """
cmake_minimum_required(VERSION 3.13)
project(memory C)
find_package(eevdf REQUIRED)
find_package(eevdf REQUIRED)
add_library(mine STATIC own.c)
target_include_directories(mine PRIVATE {include})
function(program name)
  add_executable(${{name}} main.c)
  target_link_libraries(${{name}} ${{ARGN}})
endfunction()
program(none eevdf::eevdf)
program(before mine eevdf::eevdf)
program(after eevdf::eevdf mine)
program(bare_before mine eevdf::bare)
program(bare_after eevdf::bare mine)
"""
OF_CMAKE = {"none": OVER_MALLOC, "before": OF_ITS_OWN, "after": OF_ITS_OWN, "bare_before": OF_ITS_OWN, "bare_after": OF_ITS_OWN}


def check_names(tools, names, flags):
    """A program with functions of its own. In front of the program the archive for programs has libeevdf_malloc.a beside it, and for the
    names from before 0.3 that for kernels has the one of no memory."""
    lib = tools.work / "prefix" / "lib"
    behind = [tools.archive, tools.no_memory] if tools.module and flags else [tools.archive]
    in_front = behind if tools.module else [lib / "libeevdf.a", lib / "libeevdf_malloc.a"]
    source = tools.callers / "memory.c"
    for place, before, after in (("behind", (), behind), ("in front", (*ASKED, *in_front), ())):
        program, fault = tools.compile(f"memory, {names}, {place}", [source], *flags, *before, libraries=after)
        tools.checks.look(f"callers/memory.c by {names}, the archive {place}", fault or fault_of(run([program])))


def flags_of(prefix, package):
    asked = run(["pkg-config", "--libs", package], env={**os.environ, "PKG_CONFIG_PATH": str(prefix / "lib" / "pkgconfig")})
    if asked.returncode:
        raise RuntimeError(fault_of(asked))
    return asked.stdout.split()


def words(tools):
    """What stands on a linker's line, by what the tables call it."""
    sources = {"main.c": MAIN, "own.c": OWN}
    for name, text in sources.items():
        (tools.work / name).write_text(text)
    made = tools.work / "own.o"
    fault = fault_of(run([tools.cc, "-std=c11", f"-I{TOP / 'include'}", "-c", "-o", made, tools.work / "own.c"]))
    fault = fault or fault_of(run(["ar", "rcs", tools.work / "libown.a", made]))
    if fault:
        raise RuntimeError(fault)
    found = {"object": [made], "archive": [tools.work / "libown.a"], "library": [tools.archive]}
    if tools.module:
        return found | {"no_memory": [tools.no_memory], "eevdf_kernel": flags_of(tools.work / "kernel", "eevdf_kernel")}
    prefix, shared = tools.work / "prefix", tools.work / "shared"
    packages = {name: flags_of(prefix, name) for name in ("eevdf", "eevdf_bare")}
    packages["eevdf_shared"] = [*flags_of(shared, "eevdf_shared"), f"-Wl,-rpath,{shared / 'lib'}"]
    return found | packages | {"malloc": [prefix / "lib" / "libeevdf_malloc.a"]}


def other_end(made, wanted):
    has = (made.returncode, made.stdout)
    return None if has == wanted else f"ends with {has}, and not {wanted}"


def order_fault(tools, linker, before, after, wanted):
    """What is wrong with a program that is linked in an order."""
    program, fault = tools.compile("ordered", [], *linker, *before, tools.work / "main.c", *after, libraries=())
    if wanted == MISSING:
        are_named = fault and all(name in fault for name in ("eevdf_alloc", "eevdf_dealloc"))
        return None if are_named else fault or "it is linked"
    return fault or other_end(run([program]), wanted)


def check_orders(tools):
    """After `./install`, by each linker."""
    if not shutil.which("pkg-config"):
        tools.checks.skip("where the functions for memory may stand", "pkg-config", "pkg-config")
        return
    named = words(tools)
    for linker in ("bfd", "lld"):
        if not shutil.which(f"ld.{linker}"):
            package = "lld" if linker == "lld" else "binutils"
            tools.checks.skip(f"where the functions for memory may stand, by {linker}", f"ld.{linker}", package)
            continue
        for order, (*places, wanted) in (OF_KERNELS if tools.module else OF_PROGRAMS).items():
            before, after = ([word for name in place for word in named[name]] for place in places)
            fault = order_fault(tools, [f"-fuse-ld={linker}"], before, after, wanted)
            tools.checks.look(f"functions for memory by {linker}: {order}", fault)


def check_cmake(tools):
    if not shutil.which("cmake") or not shutil.which("make"):
        tools.checks.skip("functions for memory by CMake", "cmake or make", "cmake and make")
        return
    folder = tools.work / "cmake_memory"
    folder.mkdir()
    for name, text in {"main.c": MAIN, "own.c": OWN, "CMakeLists.txt": CMAKE.format(include=TOP / "include")}.items():
        (folder / name).write_text(text)
    asked = run(["cmake", "-S", folder, "-B", folder / "out", f"-DCMAKE_PREFIX_PATH={tools.work / 'prefix'}"],
                env={**os.environ, "CC": tools.cc})
    fault = fault_of(asked) or fault_of(run(["cmake", "--build", folder / "out"]))
    for name, wanted in OF_CMAKE.items():
        tools.checks.look(f"functions for memory by CMake: {name}", fault or other_end(run([folder / "out" / name]), wanted))


def check(tools):
    """After `./install`."""
    for names, flags in NAMES.items():
        check_names(tools, names, flags)
    check_orders(tools)
    if not tools.module:
        check_cmake(tools)

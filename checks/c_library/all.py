"""Looks at the library for C, part by part: at the archive for programs, at the one for kernels, or at both for another processor."""

import argparse
import os
import sys
from dataclasses import replace
from pathlib import Path

import aarch64
import callers
import examples
import header
import installed
import interrupted
import kernel
import kernel_object
import linked
import linux
import loops
import memory_in_rust
import memory_names
import object_file
import protected
import rust
import sched_ext
import sequences
import simulated
from tools import TOP, Tools, fault_of, run, runner

C_ARCHIVES = TOP / "tools" / "c_archives"
sys.path.append(str(C_ARCHIVES))

from kernel_archive import ARM_KERNEL, KERNEL, LINUX, NotMade, kit_tools, make, make_no_memory  # noqa: E402
from kept_module import KeptModule  # noqa: E402


def with_names(archive, work):
    """What the checks need over an archive for programs, also over one that `rt lib` has made."""
    tools = Tools(archive, work)
    named = work / "libeevdf.a"
    fault = fault_of(run([C_ARCHIVES / "with_names", archive, named], env={**os.environ, "CC": tools.cc}))
    if fault:
        raise NotMade(fault)
    return Tools(named, work)


def made_of(module, work):
    """What the checks need over the archive for kernels, which is made from a module."""
    tools = Tools(work / "libeevdf_kernel.a", work, module, work / "libeevdf_thunks.a", work / "for_programs.a")
    kept = KeptModule.read(module)
    make(kit_tools(), kept, tools.archive, KERNEL)
    make_no_memory(kit_tools(), kept, tools.no_memory, KERNEL)
    make(kit_tools(), kept, tools.thunks, LINUX)
    make(kit_tools(), kept, tools.for_programs, replace(KERNEL, sources=()))
    return tools


def check_aarch64(folder, work, seed):
    """Looks at what is made for ARM, and gives the count."""
    tools = aarch64.ArmTools(work / "libeevdf_kernel.a", work, folder / "module")
    kept = KeptModule.read(tools.module)
    make(kit_tools(), kept, tools.archive, ARM_KERNEL)
    make_no_memory(kit_tools(), kept, tools.no_memory, ARM_KERNEL)
    aarch64.check(tools, folder / "libeevdf_c.a", seed)
    return tools.checks.end()


def look(tools, part, *seed):
    """Looks at a part, as far as no run of it is too slow."""
    with tools.checks.unless_slow(f"what comes after in {part.__name__}.py"):
        part.check(tools, *seed)


def main():
    words = argparse.ArgumentParser()
    what = words.add_mutually_exclusive_group(required=True)
    what.add_argument("--archive", type=Path)
    what.add_argument("--module", type=Path)
    what.add_argument("--aarch64", type=Path)
    words.add_argument("--work", type=Path, required=True)
    words.add_argument("--seed", default="1")
    asked = words.parse_args()
    try:
        if asked.aarch64:
            sys.exit(check_aarch64(asked.aarch64, asked.work, asked.seed))
        tools = made_of(asked.module, asked.work) if asked.module else with_names(asked.archive, asked.work)
    except (NotMade, FileNotFoundError) as failed:
        print(f"checks/c_library: there is no archive to look at: {failed}", file=sys.stderr)
        sys.exit(3)
    for part in (header, kernel_object if asked.module else object_file, callers, examples, installed, memory_names, memory_in_rust, rust,
                 kernel):
        look(tools, part)
    look(tools, sequences, asked.seed)
    look(tools, loops, asked.seed)
    if asked.module:
        look(tools, linked)
        look(tools, interrupted, asked.seed)
        for part in (linux, simulated, sched_ext):
            look(tools, part)
    else:
        look(tools, protected)
    sys.exit(tools.checks.end())


if __name__ == "__main__":
    sys.exit(runner.status_of(main))

#!/usr/bin/env -S python3 -B
"""planted_kernel.py MODULE: shows that the checks of the archive for kernels look. Makes it without one of its attributes or flags, and
says which checks fail then. Ends with 1 where none does. It takes a minute, for ARM less; the gate doesn't run it."""

import sys
import tempfile
from dataclasses import replace
from pathlib import Path

import aarch64
import interrupted
import kernel_object
import object_file
from tools import TOP, Tools

sys.path.append(str(TOP / "tools" / "c_archives"))

from kernel_archive import ARM_KERNEL, KERNEL, kit_tools, make  # noqa: E402
from kept_module import KeptModule  # noqa: E402


def without(variant, *flags):
    return replace(variant, flags=tuple(flag for flag in variant.flags if flag not in flags))


def without_option(variant, option):
    """Without an option of LLVM's, which stands behind the word -mllvm."""
    at = variant.flags.index(option)
    return replace(variant, flags=variant.flags[: at - 1] + variant.flags[at + 1 :])


FEATURES, TARGETS = ARM_KERNEL.attributes
OF_X86_64 = {
    "without noredzone": replace(KERNEL, attributes=()),
    "without -mno-sse and -mno-sse2": without(KERNEL, "-mno-sse", "-mno-sse2"),
    "without -expand-div-rem-bits": without_option(KERNEL, "-expand-div-rem-bits=64"),
    "without -x86-indirect-branch-tracking": without_option(KERNEL, "-x86-indirect-branch-tracking"),
    "with -ffunction-sections": without(KERNEL, "-fno-function-sections"),
    "with -mcmodel=kernel": replace(KERNEL, flags=("-fno-pic", "-mcmodel=kernel", *KERNEL.flags)),
}
OF_ARM = {
    "without -fp-armv8 and -neon": replace(ARM_KERNEL, attributes=(TARGETS,)),
    "without +reserve-x18": replace(ARM_KERNEL, attributes=(FEATURES.replace(",+reserve-x18", ""), TARGETS)),
    "without branch-target-enforcement": replace(ARM_KERNEL, attributes=(FEATURES,)),
    "without -expand-div-rem-bits": without_option(ARM_KERNEL, "-expand-div-rem-bits=64"),
    "with -ffunction-sections": without(ARM_KERNEL, "-fno-function-sections"),
    "with -mcmodel=large": replace(ARM_KERNEL, flags=(*ARM_KERNEL.flags, "-fno-pic", "-mcmodel=large")),
}


def finders(kept, variant, is_arm):
    """The checks that fail on an archive of a variant."""
    with tempfile.TemporaryDirectory() as held:
        tools, failed = Tools(Path(held) / "libeevdf_kernel.a", Path(held)), []
        make(kit_tools(), kept, tools.archive, variant)
        tools.checks.look = lambda name, fault, *_: fault and failed.append(name)
        if is_arm:
            kernel_object.look_at(tools.archive, aarch64.OF_KERNELS, tools.checks.look, aarch64.WRITTEN)
        else:
            kernel_object.look_at(tools.archive, kernel_object.OF_KERNELS, tools.checks.look)
            interrupted.check(tools, "planted")
        return failed


def main():
    missed, kept = 0, KeptModule.read(Path(sys.argv[1]))
    is_arm = kept.target.startswith("aarch64")
    object_file.binutils["prefix"] = aarch64.BINUTILS if is_arm else ""
    variants = OF_ARM if is_arm else OF_X86_64
    for what, variant in variants.items():
        failed = finders(kept, variant, is_arm)
        print(f"{what}: {'; '.join(failed) or 'NOT FOUND'}", flush=True)
        missed += not failed
    print(f"{len(variants) - missed} passed, {missed} failed")
    sys.exit(1 if missed else 0)


if __name__ == "__main__":
    main()

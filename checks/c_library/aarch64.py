"""The library for ARM of 64 bits, for programs and for kernels: what its objects ask for, and that its calls are answered as ever, in
programs at a fixed address and at any, which qemu runs. Its calls are drawn as those on this machine, and fewer of them."""

import os
import re
import shutil
from dataclasses import dataclass

import callers
import kernel_object
import linked
import object_file
import protected
import sequences
from drawn_calls import KINDS
from examples import FIRST, other_output
from object_file import Asks
from tools import TOP, Tools, fault_of, run

COMPILER, QEMU, BINUTILS = "aarch64-linux-gnu-gcc", "qemu-aarch64", "aarch64-linux-gnu-"
TOOLS = {COMPILER: "gcc-aarch64-linux-gnu", f"{BINUTILS}objdump": "binutils-aarch64-linux-gnu", QEMU: "qemu-user"}
WAYS = {"at a fixed address": ("-static",), "at any address": ("-static-pie",)}
CALLS = 20000

# Registers of vectors and of floating point, and the general one that Linux may keep for itself; an address before a name isn't one.
REGISTER = re.compile(r"(?<![\w#])([vqdshb](?:[12]?\d|3[01])|[xw]18)\b(?! <|:)")
# Distances alone, as Linux's loader of modules and any linker knows them.
OTHER_RELOCATIONS = re.compile(r"^(?!R_AARCH64_(?:ADR_PREL_PG_HI21|ADD_ABS_LO12_NC|CALL26|JUMP26)$)")
OF_PROGRAMS = Asks(object_file.OF_PROGRAMS.names, {"q0", "q1", "q2", "q3", "d0", "d1", "v0"}, object_file.ABSOLUTE, REGISTER)
OF_KERNELS = Asks(kernel_object.OF_KERNELS.names, set(), OTHER_RELOCATIONS, REGISTER)
WRITTEN = kernel_object.Written(re.compile(r"\[sp, #-\d+\](?!!)"), re.compile(r"^(?:br|blr)\b"), "bti c", "brk")


@dataclass
class ArmTools(Tools):
    """What the checks need, for ARM: programs are linked without a loader, and run by qemu."""

    way: tuple = WAYS["at a fixed address"]

    def __post_init__(self):
        super().__post_init__()
        self.cc = COMPILER

    def compile(self, name, sources, *flags, libraries=None):
        program, fault = super().compile(name, sources, *flags, *self.way, libraries=libraries)
        launcher = program.with_name(f"{name}.run")
        launcher.write_text(f'#!/bin/sh\nexec {QEMU} "{program}" "$@"\n')
        launcher.chmod(0o755)
        return launcher, fault


def check_objects(tools, archive):
    """What the objects ask for, and that both are of one module."""
    look = tools.checks.look
    object_file.look_at(archive, OF_PROGRAMS, lambda what, *said: look(f"{what}, for programs on aarch64", *said))
    kernel_object.look_at(tools.archive, OF_KERNELS, lambda what, *said: look(f"{what}, for kernels on aarch64", *said), WRITTEN)
    head, aside = "Attribute or flag on ARM", {kernel_object.kernel_archive.ARM_PROCESSOR}
    undocumented = kernel_object.undocumented_words(head, kernel_object.kernel_archive.ARM_KERNEL, aside)
    look("the page names the attributes and flags that it is made by on aarch64", undocumented)
    kernel_object.look_at_module(tools, kernel_object.kernel_archive.ARM_PROGRAMS)


def check_kernel(tools):
    """The one for kernels is linked into a kernel by the script that names the sections of one."""
    source, given = tools.work / "given.c", tools.work / "given.o"
    source.write_text(linked.MEMSET)
    fault = fault_of(run([COMPILER, *linked.BARE, "-c", "-o", given, source]))
    archives = (tools.archive, tools.no_memory)
    words = linked.link_words(f"{BINUTILS}ld", tools.callers / "kernel.ld", tools.work / "linked.elf", given, *archives)
    tools.checks.look("linked into a kernel on aarch64", fault or fault_of(run(words)))


def check_installed(tools, archive):
    """What `./install` puts below a folder: a program is built over the one archive, and the other is that which is looked at."""
    prefix = tools.work / "installed"
    env = {name: value for name, value in os.environ.items() if name not in ("CC", "AR")}
    env |= {"ARCHIVE": str(archive), "MODULE": str(tools.module)}
    made = [run([TOP / "install", "--target", "aarch64", *words, prefix], env=env) for words in ((), ("--kernel",))]
    libraries = [f"-L{prefix}/lib", "-Wl,-u,eevdf_version", "-l:libeevdf.a", "-leevdf_malloc"]
    program, fault = tools.compile("installed program", [FIRST], libraries=libraries)
    fault = next(filter(None, map(fault_of, made)), fault)
    wanted = FIRST.with_suffix(".out").read_text()
    tools.checks.look("a program over what ./install --target aarch64 has put", fault or other_output(run([program]), wanted))
    other = fault_of(made[1]) or ((prefix / "lib" / "libeevdf_kernel.a").read_bytes() != tools.archive.read_bytes() and "another archive")
    tools.checks.look("./install --target aarch64 --kernel", other)


def jobs_of(tools, archive, seed):
    """The drawn calls of each kind over both archives, linked in each way, with the name of each."""
    for label, library in (("for programs", archive), ("for kernels", tools.archive)):
        for way, flags in WAYS.items():
            tools.way = flags
            program, fault = tools.compile(f"play {label} {way}", [tools.callers / "play.c"], libraries=[library])
            if fault:
                tools.checks.look(f"callers/play.c {label} on aarch64, {way}", fault)
                continue
            for kind in KINDS:
                yield f"drawn calls of {kind.name} {label} on aarch64, {way}", (program, kind, seed, CALLS)


def check(tools, archive, seed):
    """The tools are for the archive for kernels; the other is that for programs."""
    for tool, package in TOOLS.items():
        if not shutil.which(tool):
            tools.checks.skip("the library for aarch64", tool, package)
            return
    object_file.binutils["prefix"] = BINUTILS
    check_objects(tools, archive)
    check_kernel(tools)
    check_installed(tools, archive)
    protected.check(tools, protected.OF_ARM, "installed")
    for name in ("errors", "dozes", "memory", "moved", "blocks", "fair", "stack"):
        callers.check_one(tools, name, "on aarch64")
    for (name, _), compared in sequences.all_compared(list(jobs_of(tools, archive, seed))):
        tools.checks.look(f"{name}, seed {seed}", compared.fault, f"{compared.count} calls are answered as by the model")

"""The library for kernels in Linux: two threads of the kernel come to the checksum that a program comes to, wherever they are preempted.
It is in a module of the Linux that the environment names as LINUX, a folder that examples/linux/fetch.sh has filled, or else of the one
that is installed; and it is linked into a small Linux, which is built of the source that Debian's package has put below /usr/src, and
kept."""

import os
import shutil
from dataclasses import dataclass

from tools import TOP, fault_of, run, runner

FOLDER = TOP / "examples" / "linux"
IS_MISSING = 3
IS_LATE = 124
# A small Linux takes minutes to build, and on a busy machine many.
BUILD_SECONDS = 4 * 3600
PACKAGES = {"qemu-system-x86_64": "qemu-system-x86", "gcc-12": "gcc", "xz": "xz-utils"}
LINUX_TOOLS = ("gcc", "make", "flex", "bison", "bc", "xz", "qemu-system-x86_64")


@dataclass(frozen=True)
class Way:
    """A script of the folder with its words, the tools that it needs, how long it may take, and what is said where it finds no Linux."""

    name: str
    words: tuple
    tools: tuple
    seconds: int
    missing: str


def ways():
    yield Way("examples/linux, as a module", ("run.sh", os.environ.get("LINUX", "/")), ("qemu-system-x86_64", "make", "gcc-12"),
              runner.PATIENCE,
              "there is no Linux with its headers; by hand: examples/linux/fetch.sh FOLDER, and LINUX=FOLDER")
    yield Way("examples/linux, in vmlinux", ("vmlinux.sh",), LINUX_TOOLS, BUILD_SECONDS,
              "there is no source of Linux in /usr/src, or no gelf.h (Debian packages linux-source-6.1, libelf-dev)")


def check_way(tools, way):
    for tool in way.tools:
        if not shutil.which(tool):
            tools.checks.skip(way.name, tool, PACKAGES.get(tool, tool))
            return
    script, *words = way.words
    made = run([FOLDER / script, *words], seconds=way.seconds, env={**os.environ, "MODULE": str(tools.module)})
    if made.returncode == IS_MISSING:
        tools.checks.leave_out(way.name, way.missing)
    elif made.returncode == IS_LATE:
        tools.checks.leave_out(way.name, "the machine is too slow, or too busy: qemu hasn't come to its end in 1200 seconds")
    else:
        tools.checks.look(way.name, fault_of(made), "; ".join(made.stdout.splitlines()))


def check(tools):
    for way in ways():
        check_way(tools, way)

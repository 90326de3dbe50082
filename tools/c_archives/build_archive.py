"""Builds the library for C in a copy of the repository, over the crates below it that `rt ci` has proved there: for x86-64, and for ARM of
64 bits in a folder `aarch64` beside it."""

import os
import subprocess
import sys
import tempfile
import threading
from dataclasses import dataclass
from pathlib import Path

from kept_module import keeping_toolchain
from kernel_archive import NotMade
from protected_object import protect

TOP = Path(__file__).resolve().parents[2]
sys.path += [str(TOP / "tools"), str(TOP / "checks" / "wrong_bodies")]

from libraries import Libraries, kit  # noqa: E402

CRATE = "eevdf_c"
WITH_NAMES = Path(__file__).with_name("with_names")
# What the library is compiled for, with the folder that it is put into.
TARGETS = {"x86_64-unknown-linux-gnu": ".", "aarch64-unknown-linux-gnu": "aarch64"}
MADE = (f"lib{CRATE}.a", "module/words", "module/module.bc")


@dataclass(frozen=True)
class Place:
    """A copy of the repository, and a folder for what is only held during the build: what one check keeps for the next, by which it isn't
    made again, since all but the code that comes of it is the same for each target."""

    copy: Path
    held: Path

    @property
    def checked(self):
        return self.held / "checked"

    def compile(self, target, out, more):
        """Checks the library and compiles it for a target, with the toolchain that keeps what its clang is given. Gives the status."""
        folder, toolchain = self.copy / "crates" / CRATE, self.held / target
        toolchain.mkdir()
        keeping_toolchain(kit() / "toolchain", toolchain, out / "module")
        words = [kit() / "bin" / "rattle", "build", "--crate-name", CRATE, "--crate-type", "staticlib"]
        words += Libraries(self.copy, [], threading.Condition()).reads(CRATE, folder)
        words += ["--logic-built", kit() / "logic_built", "--antt-project", kit() / "rattle" / "logic" / "antt-project.json"]
        words += ["--incremental", self.checked, "--target", target]
        words += ["--toolchain", toolchain, "--backend", "llvm", "-o", out / MADE[0]]
        return subprocess.run(words, cwd=folder, **more).returncode

    def protect(self, archive, more):
        """Has an archive keep the marks of a program whose control flow is protected. Gives the status."""
        try:
            protect(kit() / "toolchain" / "bin", archive, archive.parent / "module")
        except NotMade as failed:
            print(failed, file=more["stdout"])
            return 3
        return 0

    def add_names(self, target, archive, more):
        """Has an archive ask for memory by the header's names. The kit's clang compiles for what the name says by which it is called."""
        tools = kit() / "toolchain" / "bin"
        clang = self.held / f"{target}-clang"
        clang.symlink_to(tools / "clang")
        named = {**os.environ, "CC": str(clang), "AR": str(tools / "llvm-ar")}
        return subprocess.run([WITH_NAMES, archive, archive], env=named, **more).returncode


def build_archive(copy, out, said=None):
    """Checks the library and builds libeevdf_c.a for each target in its folder below `out`, and `module` there with what it is compiled
    from. `rt ci` proves the library too, and writes no archive of it; `rt lib` would prove the crates below once more, since `rt ci` keeps
    their statements alone. Gives the status; what the build says goes to a file, or to standard output."""
    more = {"stdin": subprocess.DEVNULL, "stdout": said, "stderr": subprocess.STDOUT if said else None}
    with tempfile.TemporaryDirectory() as held:
        place = Place(copy, Path(held))
        place.checked.mkdir()
        for target, folder in TARGETS.items():
            archive = out / folder / MADE[0]
            status = place.compile(target, archive.parent, more) or place.protect(archive, more) or place.add_names(target, archive, more)
            if status:
                return status
    return 0

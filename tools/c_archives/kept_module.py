"""What `rattle build` hands to clang: the module of the library, and the words that it is compiled by. The kernels' archive is made from
the same two, so it is of the code that was proved in that build."""

import shlex
from dataclasses import dataclass
from pathlib import Path

# Copies the module, and writes the words a line each, before it goes on as the kit's own clang.
KEEPER = """#!/bin/sh
for word; do
  case $word in *.bc) cat "$word" >{folder}/module.bc; printf '%s\\n' "$@" >{folder}/words ;; esac
done
exec {clang} "$@"
"""


def keeping_toolchain(toolchain, at, folder):
    """Makes a toolchain below `at` that is the other one, and keeps in the folder what its clang is given."""
    folder.mkdir(parents=True, exist_ok=True)
    for part in toolchain.glob("*"):
        if part.name != "bin":
            (at / part.name).symlink_to(part)
    (at / "bin").mkdir()
    for tool in (toolchain / "bin").iterdir():
        if tool.name != "clang":
            (at / "bin" / tool.name).symlink_to(tool)
    keeper = at / "bin" / "clang"
    clang = toolchain / "bin" / "clang"
    keeper.write_text(KEEPER.format(folder=shlex.quote(str(folder)), clang=shlex.quote(str(clang))))
    keeper.chmod(0o755)


@dataclass(frozen=True)
class KeptModule:
    module: Path
    words: list[str]

    @classmethod
    def read(cls, folder):
        return cls(folder / "module.bc", (folder / "words").read_text().splitlines())

    @property
    def target(self):
        """What it is compiled for, as LLVM names it."""
        return next(word.removeprefix("--target=") for word in self.words if word.startswith("--target="))

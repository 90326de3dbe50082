"""The libraries that a crate's wrong bodies are tried over: those of statements, which `rt ci` makes in a copy of the repository, each
as soon as its crate is proved. `rt check` would make libraries with all proofs first, which take four times as long to load."""

import functools
import subprocess
import sys
from pathlib import Path

from edits import TOP

sys.path.append(str(TOP / "tools"))

from crate_copies import DONE, all_below, read_crates, read_lines  # noqa: E402

CRATES = read_crates()


@functools.cache
def kit():
    """The folder of the kit, which has the page that `rt doc` names."""
    return Path(subprocess.run(["rt", "doc"], capture_output=True, text=True, check=True).stdout.strip()).parent


class Libraries:
    """The libraries in a copy of the repository, of the crates that `rt ci` has said to be proved there."""

    def __init__(self, top, said, change):
        self.top = top
        self.said = said
        self.change = change
        self.proved = set()
        self.has_ended = False

    def follow(self):
        """Reads what `rt ci` says until it ends."""
        for line in self.said:
            if done := DONE.match(line):
                with self.change:
                    self.proved.add(done[1])
                    self.change.notify_all()
        with self.change:
            self.has_ended = True
            self.change.notify_all()

    def of(self, crate):
        return self.top / "crates" / crate / "out" / "rlib" / f"{crate}.rlib"

    def check(self, crate, folder, functions):
        """What a check says of these functions of the crate, which stands in a folder, and of those that they call."""
        words = [kit() / "bin" / "rattle", "check", "--crate-name", crate, *self.reads(crate, folder)]
        words += ["--logic-built", kit() / "logic_built", "--antt-project", kit() / "rattle" / "logic" / "antt-project.json"]
        words += [word for function in sorted(functions) for word in ("--only", function)]
        run = subprocess.run(words, cwd=folder, stdin=subprocess.DEVNULL, capture_output=True, text=True, errors="replace")
        return run.stdout + run.stderr

    def reads(self, crate, folder):
        """The words that name the crate's root and the libraries below it."""
        named = {name: self.of(name) if name in CRATES else kit() / "rlibs" / f"{name}.rlib" for name in ("std", *read_lines()[crate])}
        folders = [kit() / "rlibs", *(self.of(name).parent for name in all_below(CRATES, crate))]
        words = ["src/lib.rt" if (folder / "src" / "lib.rt").is_file() else "src/main.rt"]
        words += [word for name, path in named.items() for word in ("--extern", f"{name}={path}")]
        return words + [word for path in folders for word in ("-L", f"dependency={path}")]

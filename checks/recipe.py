#!/usr/bin/env -S python3 -B
"""checks/recipe.py: does the recipe of docs/embedding.md for a crate of one's own to the letter, in a copy: its commands, its main file,
`./build mine`, and the run of what is built, which has to print the nine lines that the page speaks of. The last line is 'N passed, M
failed'."""

import re
import shutil
import sys
import tempfile
from pathlib import Path

from runner import TOP, Checks, run, status_of

sys.path.append(str(TOP / "tools"))

from crate_copies import copy_crates  # noqa: E402

# What the recipe's crate stands on, what it is built by, and the program that it takes over.
BELOW = ("eevdf_weight", "eevdf_queue")
SCRIPTS = ("build", "tools/current", "tools/crate_copies.py")
PROGRAM = "crates/eevdf_uses/src/one_queue.rt"
# A build proves three crates, in so many seconds at most on a busy machine.
SECONDS = 4 * 3600
PAGE, HEADING = TOP / "docs" / "embedding.md", "## A crate of your own"


def blocks():
    """The indented blocks of the recipe, without their margins."""
    part = PAGE.read_text().partition(f"\n{HEADING}\n")[2]
    part = re.split(r"^#", part, maxsplit=1, flags=re.MULTILINE)[0]
    indented = re.findall(r"(?:^(?: {4}.*)?\n)+", part, re.MULTILINE)
    return [re.sub(r"^ {4}", "", block, flags=re.MULTILINE).strip("\n") + "\n" for block in indented if block.strip()]


def follow(commands, main_file, copy):
    """What is wrong with the recipe, done in a copy, or None."""
    made = run(["bash", "-euc", commands], cwd=copy)
    if made.status:
        return f"its commands: {made}"
    (copy / "crates" / "mine" / "src" / "main.rt").write_text(main_file)
    for words in (["./build", "mine"], ["crates/mine/out/mine"]):
        made = run(words, seconds=SECONDS, cwd=copy)
        if made.status:
            return f"{words[0]}: {made}"
    return None if re.fullmatch(rb"0 ran\n1 ran\n2 ran\n(\d ran\n){6}", made.out) else f"it prints {made}"


def main():
    checks = Checks()
    with tempfile.TemporaryDirectory(prefix="recipe-") as held:
        copy = Path(held)
        copy_crates(BELOW, copy)
        for file in (*SCRIPTS, PROGRAM):
            (copy / file).parent.mkdir(parents=True, exist_ok=True)
            shutil.copy2(TOP / file, copy / file)
        checks.look("the recipe for a crate of one's own, as it stands in docs/embedding.md", follow(*blocks(), copy))
    return checks.end()


if __name__ == "__main__":
    sys.exit(status_of(main))

#!/usr/bin/env -S python3 -B
"""checks/links.py: whether README, the pages of docs/ and the README of each folder name what there is. Each link has to lead to a file,
and to a heading of it where it names one. Each file that is named has to be there. An excerpt, which is a block of lines below "from
[NAME](FILE):", has to stand in that file, indentation aside, or for a workload in what is stored beside it; two dots are lines left out,
and what stands three blanks behind a line is a remark. A call of the library for C has to stand in its header. docs/embedding.md and
docs/fleets.md have to link each program of crates/eevdf_uses. The last line is 'N passed, M failed', of the pages."""

import re
import subprocess
import sys
from pathlib import Path

from runner import TOP, Checks

LINK = re.compile(r"\[[^\]]*\]\(([^)\s]+)\)")
EXCERPT = re.compile(r"[Ff]rom \[[^\]]*\]\(([^)]+)\)[^\n]*:\n\n((?: {4}.*\n|\n)+)")
# A file by its name alone, and by a path from the top of the repository.
NAME = re.compile(r"(?<![\w/.*-])([\w-]+\.(?:rt|antt|py|sh|toml))\b")
PATH = r"(?<![\w/.-])(?:\./)?((?:{})/[\w./-]*[\w/])"
# The pages that have to link each program of crates/eevdf_uses.
EMBEDDING = (TOP / "docs/embedding.md", TOP / "docs/fleets.md")
# What a page speaks of that a user, a build or a run makes, and words in capitals, which stand for any name.
MADE = re.compile(r"crates/mine\b|crates/\w+/out\b|^workload\.toml$|(?:^|/)(?!README\.|DECISIONS\.)[A-Z]+\b")


def tracked():
    """The files of the repository."""
    listed = subprocess.run(["git", "ls-files", "-z", "--cached", "--others", "--exclude-standard"], cwd=TOP, capture_output=True)
    names = listed.stdout.decode().split("\0") if not listed.returncode else map(str, (f.relative_to(TOP) for f in TOP.rglob("*")))
    return {name for name in names if name and (TOP / name).is_file()}


def anchors(page):
    """The headings of a page, as links name them."""
    headings = re.findall(r"^#+ (.*)$", page.read_text(), re.MULTILINE)
    return {re.sub(r"[^\w -]", "", heading.lower()).replace(" ", "-") for heading in headings}


def link_faults(page, text):
    for link in LINK.findall(text):
        target, _, anchor = link.partition("#")
        path = page.parent / target if target else page
        if "://" in link:
            continue
        if not path.exists():
            yield f"links {link}, which isn't there"
        elif anchor and anchor not in anchors(path):
            yield f"links {link}, and there is no such heading"


def name_faults(text, files):
    folders = "|".join(sorted({name.partition("/")[0] for name in files if "/" in name}))
    names = {Path(name).name for name in files}
    for path in re.findall(PATH.format(folders), text):
        if not MADE.search(path) and not (TOP / path).exists():
            yield f"names {path}, which isn't there"
    for name in NAME.findall(text):
        if name not in names and not MADE.search(name):
            yield f"names {name}, and no file is called so"


def call_faults(text):
    header = TOP / "include/eevdf.h"
    declared = set(re.findall(r"\beevdf_\w+(?=\()", header.read_text())) if header.is_file() else set()
    for call in re.findall(r"\beevdf_\w+(?=\()", text):
        if call not in declared:
            yield f"calls {call}, which include/eevdf.h doesn't declare"


def pieces(block):
    """The parts of an excerpt between its dots, each a list of lines without indentation and remarks."""
    lines = [re.split(r" {3,}", line.strip())[0] for line in block.strip("\n").splitlines() if line.strip()]
    return [part.split("\n") for part in re.split(r"(?:^|\n)\.\.(?:\n|$)", "\n".join(lines)) if part]


def stands_in(piece, sources):
    lines = [[line.strip() for line in source.read_text().splitlines() if line.strip()] for source in sources]
    return any(text[at:at + len(piece)] == piece for text in lines for at in range(len(text)))


def excerpt_faults(page, text):
    for link, block in EXCERPT.findall(text):
        source = page.parent / link
        # what is printed for a workload stands beside it
        sources = [source, source.with_suffix(".out")] if source.suffix == ".toml" else [source]
        sources = [file for file in sources if file.is_file()]
        for piece in pieces(block) if sources else ():
            if not stands_in(piece, sources):
                yield f"has an excerpt that doesn't stand in {link}: {piece[0]} .."


def use_faults():
    """Which programs of crates/eevdf_uses the pages on embedding don't link."""
    text = "".join(page.read_text() for page in EMBEDDING)
    for program in sorted((TOP / "crates/eevdf_uses/src").glob("*.rt")):
        if program.name != "main.rt" and f"(../crates/eevdf_uses/src/{program.name})" not in text:
            yield f"nor does another page on embedding link crates/eevdf_uses/src/{program.name}"


def faults_of(page, files):
    text = page.read_text()
    found = [*link_faults(page, text), *name_faults(text, files), *call_faults(text), *excerpt_faults(page, text)]
    return found + list(use_faults()) if page == EMBEDDING[0] else found


def main():
    files = tracked()
    checks = Checks(are_many=True)
    for name in sorted(files):
        if re.fullmatch(r"(?:\w+/)*README\.md|docs/\w[\w-]*\.md", name):
            checks.look(name, "\n".join(dict.fromkeys(faults_of(TOP / name, files))))
    return checks.end()


if __name__ == "__main__":
    sys.exit(main())

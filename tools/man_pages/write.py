#!/usr/bin/env -S python3 -B
"""write.py FOLDER: writes the manual pages of the library for C into a folder, from the comments of include/eevdf.h: eevdf.3 with what all
calls have in common, and one for each call and function for memory."""

import argparse
import re
from pathlib import Path

HEADER = Path(__file__).resolve().parents[2] / "include" / "eevdf.h"

# A comment with the declarations that it belongs to.
COMMENTED = re.compile(r"/\*((?:(?!\*/).)*)\*/\n(?:EEVDF_MUST_CHECK\n)?((?:[a-z_0-9]+ \**\w+\([^;]*\);\n)+)", re.DOTALL)
NAME = re.compile(r"(\w+)\(")


def text_of(comment):
    """The lines of a comment without their margin."""
    return [re.sub(r"^ ?\* ?", "", line.strip()) for line in comment.strip().splitlines()]


def escaped(text):
    """A line as troff prints it, whatever it begins with."""
    return re.sub(r"^([.'])", r"\\&\1", text.replace("\\", "\\e").replace("-", "\\-"))


def paragraphs(lines):
    """Lines of a comment as paragraphs of a page. A line that begins with a heading in capitals begins a section, one of a list keeps its
    place, and one at the margin after a list begins a paragraph."""
    for before, line in zip(["", *lines], lines):
        heading = re.match(r"^([A-Z][A-Z ()x0-9_-]*[A-Z)])\. +(.*)$", line)
        if heading:
            yield f'.SH "{heading[1]}"'
            yield escaped(heading[2])
        elif not line.strip():
            yield ".PP"
        elif line.startswith("  - "):
            yield ".IP \\(bu 2"
            yield escaped(line[4:])
        elif line.startswith("Lock:") or before.startswith(" ") and not line.startswith(" "):
            yield ".PP"
            yield escaped(line)
        else:
            yield escaped(line.strip())


def version(header):
    return ".".join(re.findall(r"^#define EEVDF_VERSION_(?:MAJOR|MINOR|PATCH) (\d+)$", header, re.MULTILINE))


def page(name, header, declared, lines, others):
    """A manual page of section 3."""
    summary = " ".join(lines).split(". ")[0].rstrip(".")
    yield f'.TH {name.upper()} 3 "" "eevdf {version(header)}"'
    yield from (".SH NAME", escaped(f"{name} - {summary[:1].lower()}{summary[1:]}"), ".SH SYNOPSIS", ".nf", ".B #include <eevdf.h>", ".PP")
    yield from (f".B {escaped(line.strip())}" for line in declared)
    yield from (".fi", ".SH DESCRIPTION", *paragraphs(lines), ".SH SEE ALSO", ", ".join(f"{escaped(other)}(3)" for other in others))


def pages(header):
    """The pages by their names."""
    overview = text_of(re.match(r"/\*(.*?)\*/", header, re.DOTALL)[1])
    # the first line names the file
    overview[0] = overview[0].partition(": ")[2][:1].upper() + overview[0].partition(": ")[2][1:]
    names = [name for _, declared in COMMENTED.findall(header) for name in NAME.findall(declared)]
    found = {"eevdf": page("eevdf", header, [], overview, names)}
    for comment, declared in COMMENTED.findall(header):
        for name in NAME.findall(declared):
            found[name] = page(name, header, declared.splitlines(), text_of(comment), ["eevdf"])
    return {name: "\n".join(lines) + "\n" for name, lines in found.items()}


def main():
    words = argparse.ArgumentParser(description=__doc__)
    words.add_argument("folder", type=Path, metavar="FOLDER")
    folder = words.parse_args().folder
    folder.mkdir(parents=True, exist_ok=True)
    for name, text in pages(HEADER.read_text()).items():
        (folder / f"{name}.3").write_text(text)


if __name__ == "__main__":
    main()

#!/usr/bin/env -S python3 -B
"""checks/both_readings.py [--mutants N] [--seed N]: looks whether documents come to the same where their lists in front are read by
themselves, and where all of a document is read as one, which a byte order mark before it brings about. They are those of examples/ and
checks/cases/ and drawn ones, each as it is and with its lists in front, and mutants of them: a byte changed, taken out or doubled. Output
and status have to be alike byte for byte. The last line is 'N passed, M failed'. TOP names another checkout whose programs are tried."""

import argparse
import codecs
import os
import random
import re
import sys
from concurrent.futures import ThreadPoolExecutor
from dataclasses import dataclass, replace
from itertools import islice
from pathlib import Path

CHECKS = Path(__file__).resolve().parent
sys.path += [str(CHECKS / "cases"), str(CHECKS / "drawn")]

from check import command_of  # noqa: E402
from draw.cases import draw  # noqa: E402
from runner import TOP, Checks, built, status_of  # noqa: E402

# How many drawn documents there are, and how many bytes make one too large to be sent so often.
DRAWN = 200
LARGE = 100000
# The members that are read by themselves where they stand in front. The version comes first, since the limits of the others come from it.
NUMBER = rb"\d+"
LIST = rb"\[(?:[^\[\]]|\[[^\[\]]*\])*\]"
MEMBERS = {b"version": NUMBER, b"order": LIST, b"program": LIST, b"script": LIST}
# What a changed byte becomes, in half of all cases: what these lists are made of, and what ends a string or begins another kind of one.
TELLING = b"0123456789 \n\t,[]\"'\\#=_-.abx\r"


@dataclass(frozen=True)
class Document:
    """What a program is sent, and its words. Threads may come in another order each time, so the programs that they would run are played."""

    name: str
    program: str
    words: tuple[str, ...]
    text: bytes


def document_of(name, program, words, text):
    return Document(name, "eevdf_orders", (), text) if "run" in words else Document(name, program, tuple(words), text)


def with_lists_in_front(text):
    """The same with the members before all else, as far as each is found on lines of its own."""
    members = []
    for name, value in MEMBERS.items():
        if found := re.search(rb"^" + name + rb" *= *" + value + rb"[^\n]*\n", text, re.MULTILINE):
            members.append(found[0])
            text = text.replace(found[0], b"", 1)
    return b"".join(members) + text


def both_ways(document):
    return document, replace(document, name=f"{document.name}, its lists in front", text=with_lists_in_front(document.text))


def stored_documents():
    for path in sorted([*TOP.glob("examples/*.toml"), *TOP.glob("checks/cases/*/*.toml")]):
        text = path.read_bytes()
        program, *words = command_of(text)
        yield document_of(str(path.relative_to(TOP)), program, words, text)


def drawn_documents(seed):
    for number in range(sys.maxsize):
        case = draw(random.Random(f"{seed} {number}"), number)
        if len(case.data) < LARGE:
            yield document_of(f"drawn document {number}", case.program, case.words, case.data)


def documents(seed):
    for document in (*stored_documents(), *islice(drawn_documents(seed), DRAWN)):
        if document.text and not document.text.startswith(codecs.BOM_UTF8):
            yield from both_ways(document)


def mutant(dice, document):
    """A document of which one byte is changed, taken out or doubled; in half of all cases one of its first thousand."""
    text = document.text
    place = dice.randrange(min(len(text), 1000) if dice.random() < 0.5 else len(text))
    byte = bytes([dice.choice(TELLING) if dice.random() < 0.5 else dice.randrange(256)])
    way, new = dice.choice((("changed", byte), ("taken out", b""), ("doubled", text[place:place + 1] * 2)))
    return replace(document, name=f"{document.name}, byte {place} {way}", text=text[:place] + new + text[place + 1:])


def mutants(dice, count, whole):
    return [mutant(dice, dice.choice(whole)) for _ in range(count)]


def fault_of(programs, document):
    """How a document comes to something else where it is read as a whole, or None."""
    by_front = programs.run(document.program, document.words, document.text)
    as_one = programs.run(document.program, document.words, codecs.BOM_UTF8 + document.text)
    # eevdf_orders prints the document, and the mark before all
    as_one = replace(as_one, out=as_one.out.removeprefix(codecs.BOM_UTF8))
    return None if by_front == as_one else f"{by_front} by its front, {as_one} as a whole, of {document.text[:2000]!r}"


def parse_words():
    words = argparse.ArgumentParser(description=__doc__)
    words.add_argument("--mutants", type=int, default=2000, help="how many mutants there are")
    words.add_argument("--seed", default="1", help="what is drawn is drawn from this")
    words.add_argument("--jobs", type=int, default=min(4, os.cpu_count()), help="how many runs there are at once")
    return words.parse_args()


def main():
    words = parse_words()
    programs, checks = built("eevdf", "eevdf_orders"), Checks(are_many=True)
    whole = list(documents(words.seed))
    tried = whole + mutants(random.Random(words.seed), words.mutants, whole)
    with ThreadPoolExecutor(words.jobs) as pool:
        for document, fault in zip(tried, pool.map(lambda document: fault_of(programs, document), tried)):
            checks.look(document.name, fault)
    return checks.end()


if __name__ == "__main__":
    sys.exit(status_of(main))

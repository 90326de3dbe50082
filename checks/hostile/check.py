#!/usr/bin/env -S python3 -B
"""checks/hostile/check.py [WORD..]: sends hostile texts to the built programs, and looks whether each is answered as docs/formats.md says,
in 2 seconds of processor time and 1 GiB, or in 12 seconds where the program isn't proved but compiled with checks; with words only those
whose name has one of them. The last line is 'N passed, M failed'. TOP names another checkout whose programs are tried."""

import argparse
import resource
import sys
from pathlib import Path

sys.path.append(str(Path(__file__).resolve().parents[1]))

from beyond import BEYOND  # noqa: E402
from coming import COMING  # noqa: E402
from documents import DOCUMENTS  # noqa: E402
from ordered import ORDERED  # noqa: E402
from runner import Checks, built, status_of  # noqa: E402
from words import WORDS  # noqa: E402
from work import within  # noqa: E402
from workloads import WORKLOADS  # noqa: E402

TEXTS = (*DOCUMENTS, *WORKLOADS, *COMING, *ORDERED, *WORDS)

MOST_SECONDS = 2
# How many times as long a program may take that isn't proved: its checks and what isn't optimized take up to five times as long.
WITH_CHECKS = 6
MOST_MEMORY = 1 << 30


def parse_words():
    words = argparse.ArgumentParser(description=__doc__)
    words.add_argument("--figures", action="store_true", help="prints the time and the memory of each text")
    words.add_argument("--beyond", action="store_true", help="measures the texts that are known to go beyond the bounds")
    words.add_argument("names", nargs="*", help="tries only texts whose name has one of these words in it")
    return words.parse_args()


def limits_of(is_limited):
    return {resource.RLIMIT_AS: MOST_MEMORY} if is_limited else None


def shown(printed):
    """The beginning of an answer."""
    return f"{(printed.errors + printed.out)[:80]!r}, status {printed.status}"


def figures(printed):
    return f"{printed.processor:6.2f} s {printed.memory >> 20:5} MiB"


def check(checks, programs, text, with_figures):
    # the stacks of the threads of a run take address space that they don't use
    seconds = MOST_SECONDS * (WITH_CHECKS if text.program in programs.unproved else 1)
    printed, late = within(seconds, programs, text.program, text.words, text.make(), limits_of(not text.has_threads()))
    if with_figures:
        print(f"{figures(printed)}  {text.name}", flush=True)
    if late or printed == text.answer:
        checks.look(text.name, late or (figures(printed) if printed.memory > MOST_MEMORY else None))
    else:
        checks.look(text.name, f"{shown(printed)} in place of {shown(text.answer)}")


def measure(programs, text):
    """Prints what a text takes, without a limit of memory and with it."""
    for is_limited in (False, True):
        printed = programs.run(text.program, text.words, text.make(), limits=limits_of(is_limited))
        answer = "as it should" if printed == text.answer else shown(printed)
        print(f"{figures(printed)}  {text.name}{', limited' * is_limited}: {answer}", flush=True)


def main():
    words = parse_words()
    programs, checks = built("eevdf", "eevdf_orders"), Checks(are_many=True)
    for text in BEYOND if words.beyond else TEXTS:
        if words.names and not any(name in text.name for name in words.names):
            continue
        if words.beyond:
            measure(programs, text)
        else:
            with checks.unless_slow(text.name):
                check(checks, programs, text, words.figures)
    return 0 if words.beyond else checks.end()


if __name__ == "__main__":
    sys.exit(status_of(main))

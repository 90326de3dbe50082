"""Texts for which the crate `toml` takes more time or more memory than the bounds are. README.md says why."""

import random

from documents import DEPTH
from text import MOST_BYTES, NO_VERSION, Text, fault, filled, numbered
from workloads import EMPTY

LETTERS = b"0123456789ABCDEFGHIJKLMNOPQRSTUVWXYZ_abcdefghijklmnopqrstuvwxyz-"


def short_key(number):
    """A key of four letters."""
    return bytes(LETTERS[number >> shift & 63] for shift in (18, 12, 6, 0))


def in_no_order(before, after):
    """As many short lines as there is room for, each with a key of its own, in an order drawn from a seed."""
    def make():
        keys = [before + short_key(number) + after for number in range(MOST_BYTES // (4 + len(before) + len(after)))]
        random.Random(1).shuffle(keys)
        return b"".join(keys)
    return make


BEYOND = (
    Text("short keys in no order", in_no_order(b"", b"=1\n"), NO_VERSION),
    Text("short headers in no order", in_no_order(b"[", b"]\n"), NO_VERSION),
    Text("as many inline tables of one key as there is room for", filled(b"{a=1},", b"x = [", b"]\n"), NO_VERSION),
    Text("as many inline tables of a dotted key as there is room for", filled(b"{a.b.c.d.e.f=1},", b"x = [", b"]\n"), NO_VERSION),
    Text("tables of an array with a table each", filled(b"[[a]]\n[a.b]\n"), NO_VERSION),
    Text("tasks with a key each", filled(b"{nice=1},", EMPTY + b"task = [", b"]\n"), fault("number of tasks")),
    Text("as many keys of a deep section as there is room for",
         numbered(b"k%d=1\n", 1200000, b"[" + b".".join([b"a"] * DEPTH) + b"]\n"), NO_VERSION),
    Text("many keys of a section of a very long name",
         numbered(b"k%d=1\n", 600000, b"[" + b"a" * (MOST_BYTES // 2) + b"]\n"), NO_VERSION),
)

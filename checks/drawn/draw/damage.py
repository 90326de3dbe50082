"""Damages the bytes of a workload."""

import re

LETTERS = b"0123456789 \n\"'[]{}=,.#-+_\\abtx\x00\x1f\x7f\x80\xc3\xff\r\t"


def cut(dice, data):
    return data[:dice.randrange(len(data) + 1)]


def cut_in_front(dice, data):
    return data[dice.randrange(min(len(data), 40) + 1):]


def change(dice, data):
    at = dice.randrange(len(data))
    return data[:at] + bytes([dice.choice(LETTERS)]) + data[at + 1:]


def insert(dice, data):
    at = dice.randrange(len(data) + 1)
    return data[:at] + bytes([dice.choice(LETTERS)]) + data[at:]


def drop(dice, data):
    at = dice.randrange(len(data))
    return data[:at] + data[at + 1:]


def on_lines(dice, data, edit):
    lines = data.splitlines(keepends=True)
    edit(lines, dice.randrange(len(lines)))
    return b"".join(lines)


def double_line(dice, data):
    return on_lines(dice, data, lambda lines, at: lines.insert(at, lines[at]))


def drop_line(dice, data):
    return on_lines(dice, data, lambda lines, at: lines.pop(at))


def move_line(dice, data):
    return on_lines(dice, data, lambda lines, at: lines.insert(dice.randrange(len(lines)), lines.pop(at)))


WAYS = (cut, cut_in_front, change, change, change, insert, insert, drop, drop,
        double_line, double_line, drop_line, move_line)


def damaged(dice, data):
    for _ in range(dice.choice((1, 1, 1, 2))):
        data = dice.choice(WAYS)(dice, data) if data else data
    return data


# Forms of TOML 1.1 alone, and dates and times, in which the two readers differ: see README.md.
DIFFERENT = re.compile(rb"""
    \\[ex]                         # two escapes of 1.1
    | [0-9]{2}:[0-9]{2}            # times, also without seconds
    | [0-9]{4}-[0-9]{2}-[0-9]{2}   # dates
    | \{[^}]*[\r\n{]               # a second line in an inline table, or one table in another
    | ,[ \t]*\}                    # a comma at the end of an inline table
    | [eE][+-]?[0-9_]{3}           # a real number that may be too large for 64 bits
""", re.VERBOSE)


def is_read_alike(data):
    """Whether a text has none of the forms that tomllib and the crate `toml` are known to read differently."""
    return DIFFERENT.search(data) is None

"""Writes a document as TOML in one of many forms. Only forms are written that TOML 1.0 and 1.1 both have."""

import math
import re

BARE = re.compile("[A-Za-z0-9_-]+")


class Style:
    """How one document is written: each share says how often a rarer form is taken."""

    def __init__(self, dice):
        self.dice = dice
        self.odd_numbers = dice.choice((0.0, 0.0, 0.2))
        self.odd_strings = dice.choice((0.0, 0.0, 0.3))
        self.comments = dice.choice((0.0, 0.0, 0.2))
        self.spaces = dice.choice((0.0, 0.0, 0.3))
        self.many_lines = dice.choice((0.0, 0.2, 1.0))
        self.inline_tasks = dice.random() < 0.3
        self.newline = dice.choice(("\n", "\n", "\n", "\r\n"))
        self.last_newline = dice.random() < 0.9

    def happens(self, share):
        return share > 0 and self.dice.random() < share

    def gap(self):
        return self.dice.choice(("", " ", "\t", "  ")) if self.happens(self.spaces) else ""

    def comment(self):
        if not self.happens(self.comments):
            return ""
        text = self.dice.choice(("", "a note", "\"", "'[", "\u00e9", "]}", "version = 2"))
        return self.dice.choice((" # ", "#", "\t#")) + text

    # Keys and simple values.

    def key(self, key):
        if BARE.fullmatch(key) and not self.happens(self.odd_strings):
            return key
        return self.string(key, False)

    def escaped(self, letter):
        code = ord(letter)
        if letter in "\"\\" or code < 32 or code == 127 or self.happens(self.odd_strings * 0.2):
            return f"\\u{code:04x}" if code < 2**16 and self.dice.random() < 0.5 else f"\\U{code:08X}"
        return letter

    def string(self, text, may_be_long=True):
        printable = all(ord(letter) >= 32 and ord(letter) != 127 for letter in text)
        literal = printable and "'" not in text
        form = self.dice.randrange(4 if may_be_long else 2) if self.happens(self.odd_strings) else 0
        if form == 1 and literal:
            return f"'{text}'"
        if form == 2 and literal:
            return "'''" + self.dice.choice(("", "\n")) + text + "'''"
        body = "".join(map(self.escaped, text))
        if form == 3 and not body.startswith(" "):
            return '"""' + self.dice.choice(("", "\n", "\\\n ")) + body + '"""'
        return f'"{body}"'

    def number(self, number):
        if not self.happens(self.odd_numbers):
            return str(number)
        forms = [f"{number:_}", f"+{number}" if number >= 0 else str(number)]
        if number >= 0:
            forms += [f"0x{number:x}", f"0x{number:X}", f"0o{number:o}", f"0b{number:b}", f"0x00{number:x}"]
        return self.dice.choice(forms)

    def real(self, number):
        return str(number) if math.isfinite(number) else self.dice.choice(("inf", "+inf", "-inf", "nan"))

    # Arrays and tables.

    def line_end(self):
        return self.comment() + "\n" + self.gap()

    def array(self, values, inside):
        parts = [self.gap() + self.value(value, inside) + self.gap() for value in values]
        if not inside and self.happens(self.many_lines):
            return "[" + "".join(self.line_end() + part + "," for part in parts) + self.line_end() + "]"
        comma = "," if parts and self.happens(self.spaces) else ""
        return "[" + ",".join(parts) + comma + "]"

    def inline_table(self, table):
        pairs = [f"{self.key(key)}{self.gap()} = {self.value(value, True)}" for key, value in table.items()]
        return "{" + ",".join(self.gap() + pair + self.gap() for pair in pairs) + "}"

    def value(self, value, inside=False):
        """`inside` an inline table no value takes a second line."""
        if isinstance(value, bool):
            return "true" if value else "false"
        if isinstance(value, int):
            return self.number(value)
        if isinstance(value, float):
            return self.real(value)
        if isinstance(value, str):
            return self.string(value, not inside)
        if isinstance(value, list):
            return self.array(value, inside)
        if isinstance(value, dict):
            return self.inline_table(value)
        return value.isoformat()

    # Lines.

    def pair(self, key, value):
        gap = self.gap()
        return f"{gap}{self.key(key)}{gap} = {gap}{self.value(value)}{self.comment()}\n"

    def blank(self):
        return self.dice.choice(("\n", " \t\n", "# a line\n", "\n\n")) if self.happens(self.comments + self.spaces) else ""

    def pairs(self, table):
        return "".join(self.blank() + self.pair(key, value) for key, value in table.items())

    def header(self, key):
        gap = self.gap()
        return f"{gap}[[{gap}{self.key(key)}{gap}]]{self.comment()}\n"

    def tables_of_tasks(self, tables):
        return "".join(self.blank() + self.header("task") + self.pairs(table) + self.table_below() for table in tables)

    def table_below(self):
        """Now and then a table of the task that the workbench ignores."""
        return self.dice.choice(("[task.note]\nhome = 99\n", "[[task.notes]]\n")) if self.dice.random() < 0.02 else ""

    def document(self, document):
        tables = document.get("task")
        apart = not self.inline_tasks and isinstance(tables, list) and tables != []
        apart = apart and all(isinstance(table, dict) for table in tables)
        text = self.pairs({key: value for key, value in document.items() if key != "task" or not apart})
        if apart:
            text += self.tables_of_tasks(tables)
        if self.dice.random() < 0.03:
            text += "[note]\nversion = 3\n[note.task]\n"
        text = text.replace("\n", self.newline)
        return text if self.last_newline else text.rstrip("\r\n")


def text_of_document(dice, document):
    return Style(dice).document(document).encode()

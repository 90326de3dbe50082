"""Documents of a form that takes a reader of TOML long, or much memory, or that ends where it shouldn't."""

from text import NO_MEMORY, NO_VERSION, NOT_TOML, Text, filled, given, numbered

# Arrays and inline tables stand in one another to this depth, and a key has so many parts.
DEPTH = 80
DEEP = 100000


def arrays(depth):
    return given(b"x = " + b"[" * depth + b"]" * depth + b"\n")


def inline_tables(depth):
    return given(b"x = " + b"{x = " * depth + b"1" + b"}" * depth + b"\n")


def key_of(parts):
    return given(b".".join([b"a"] * parts) + b" = 1\n")


def header_of(parts):
    return given(b"[" + b".".join([b"a"] * parts) + b"]\n")


BLANK = (
    Text("newlines", filled(b"\n"), NO_VERSION),
    Text("carriage returns with newlines", filled(b"\r\n"), NO_VERSION),
    Text("carriage returns", filled(b"\r"), NOT_TOML),
    Text("spaces", filled(b" "), NO_VERSION),
    Text("zero bytes", filled(b"\0"), NOT_TOML),
    Text("byte order marks", filled(b"\xef\xbb\xbf"), NOT_TOML),
    Text("one comment", filled(b"a", b"#"), NO_VERSION),
    Text("empty comments", filled(b"#\n"), NO_VERSION),
    Text("a byte that is no text behind newlines", filled(b"\n", after=b"\xff"), NOT_TOML),
    Text("half a character behind a comment", filled(b"a", b"#", b"\xc3"), NOT_TOML),
)

NESTED = (
    Text("opening brackets", filled(b"["), NOT_TOML),
    Text("opening brackets of a value", filled(b"[", b"x = "), NOT_TOML),
    Text("closing brackets", filled(b"]"), NOT_TOML),
    Text("opening braces of values", filled(b"{x=", b"x="), NOT_TOML),
    Text("arrays to the depth", arrays(DEPTH), NO_VERSION),
    Text("arrays past the depth", arrays(DEPTH + 1), NOT_TOML),
    Text("arrays 100000 deep", arrays(DEEP), NOT_TOML),
    Text("inline tables to the depth", inline_tables(DEPTH), NO_VERSION),
    Text("inline tables past the depth", inline_tables(DEPTH + 1), NOT_TOML),
    Text("inline tables 100000 deep", inline_tables(DEEP), NOT_TOML),
    Text("a key of as many parts as there may be", key_of(DEPTH), NO_VERSION),
    Text("a key of one part more", key_of(DEPTH + 1), NOT_TOML),
    Text("a key of parts", filled(b".a", b"a", b" = 1\n"), NOT_TOML),
    Text("a header of as many parts as there may be", header_of(DEPTH), NO_VERSION),
    Text("a header of one part more", header_of(DEPTH + 1), NOT_TOML),
    Text("a header of parts", filled(b".a", b"[a", b"]\n"), NOT_TOML),
)

NUMBERS = (
    Text("one number", filled(b"1"), NOT_TOML),
    Text("an integer of ones", filled(b"1", b"x = ", b"\n"), NOT_TOML),
    Text("an integer of zeros", filled(b"0", b"x = ", b"\n"), NOT_TOML),
    Text("an integer of underscores", filled(b"_1", b"x = 1", b"\n"), NOT_TOML),
    Text("a hexadecimal integer of zeros", filled(b"0", b"x = 0x", b"1\n"), NO_VERSION),
    Text("a fraction of ones", filled(b"1", b"x = 0.", b"\n"), NO_VERSION),
    Text("a fraction of underscores", filled(b"_1", b"x = 0.1", b"\n"), NO_VERSION),
    Text("a fraction past its exponent", filled(b"0", b"x = 0.", b"1e16777216\n"), NO_VERSION),
    Text("an exponent of ones", filled(b"1", b"x = 1e", b"\n"), NOT_TOML),
    Text("a negative exponent of ones", filled(b"1", b"x = 1e-", b"\n"), NO_VERSION),
    Text("a second of ones", filled(b"1", b"x = 07:32:00.", b"\n"), NO_VERSION),
    Text("a year of ones", filled(b"1", b"x = ", b"-05-27\n"), NOT_TOML),
)

STRINGS = (
    Text("one string", filled(b"a", b'x = "', b'"\n'), NO_VERSION),
    Text("a string with no end", filled(b"a", b'x = "'), NOT_TOML),
    Text("a string of escapes", filled(b"\\n", b'x = "', b'"\n'), NO_VERSION),
    Text("a string of long escapes", filled(b"\\U0001F600", b'x = "', b'"\n'), NO_VERSION),
    Text("an unknown escape behind escapes", filled(b"\\\\", b'x = "', b'\\q"\n'), NOT_TOML),
    Text("a string of quotes", filled(b'""a', b'x = """', b'"""\n'), NO_VERSION),
    Text("a string of apostrophes", filled(b"''a", b"x = '''", b"'''\n"), NO_VERSION),
    Text("a string of quotes alone", filled(b'"', b'x = """'), NOT_TOML),
    Text("a string of lines", filled(b"\\ \n", b'x = """', b'"""\n'), NO_VERSION),
    Text("a string of one long break", filled(b" ", b'x = """\\', b'\n"""\n'), NO_VERSION),
    Text("a string of surrogates", filled(b"\\uD83D", b'x = "', b'"\n'), NOT_TOML),
)

KEYS = (
    Text("a million keys", numbered(b"k%d = 1\n", 1000000), NO_VERSION),
    Text("a million keys and the first once more", numbered(b"k%d = 1\n", 1000000, after=b"k0 = 1\n"), NOT_TOML),
    Text("keys that begin alike", numbered(b"k" * 4000 + b"%d = 1\n", 4000), NO_VERSION),
    Text("one key", filled(b"a", after=b" = 1\n"), NO_VERSION),
    Text("a key of escapes", filled(b"\\n", b'"', b'" = 1\n'), NO_VERSION),
    Text("a key with no value", filled(b"a"), NOT_TOML),
    Text("empty keys", filled(b'"" = 1\n'), NOT_TOML),
    Text("dotted keys of one table", numbered(b"a.k%d = 1\n", 600000), NO_VERSION),
    Text("dotted keys of many parts", numbered(b"a." * 79 + b"k%d = 1\n", 60000), NO_VERSION),
    Text("an inline table of keys", numbered(b"k%d = 1,", 600000, b"x = {", b"}\n"), NO_VERSION),
    Text("an inline table whose last key is its first", numbered(b"k%d = 1,", 600000, b"x = {", b"k0 = 1}\n"), NOT_TOML),
)

TABLES = (
    Text("one header again and again", filled(b"[a]\n"), NOT_TOML),
    Text("headers", numbered(b"[k%d]\n", 500000), NO_VERSION),
    Text("headers of many parts", numbered(b"[" + b"a." * 79 + b"k%d]\n", 60000), NO_VERSION),
    Text("keys of a deep section", numbered(b"k%d = 1\n", 100000, b"[" + b".".join([b"a"] * DEPTH) + b"]\n"), NO_VERSION),
    Text("keys of a section of a long name", numbered(b"k%d = 1\n", 10000, b"[" + b"a" * 100000 + b"]\n"), NO_VERSION),
    Text("tables of an array", filled(b"[[a]]\n"), NO_VERSION),
    Text("arrays of an array", filled(b"[],", b"x = [", b"]\n"), NO_VERSION),
    Text("empty strings of an array", filled(b'"",', b"x = [", b"]\n"), NO_VERSION),
    Text("strings of an array", filled(b'"a",', b"x = [", b"]\n"), NO_VERSION),
    Text("empty inline tables of an array", filled(b"{},", b"x = [", b"]\n"), NO_VERSION),
    Text("inline tables of an array", given(b"x = [" + b"{a=1}," * 500000 + b"]\n"), NO_VERSION),
    Text("arrays of one number of an array", filled(b"[1],", b"x = [", b"]\n"), NO_VERSION),
    Text("commas of an array", filled(b",", b"x = [", b"]\n"), NOT_TOML),
)

# These need more than 1 GiB, most of them many times that.
LARGE = (
    Text("headers of many parts, each of its own", numbered(b"[k%d" + b".a" * 79 + b"]\n", 95000), NO_MEMORY),
    Text("dotted keys of many parts, each of its own", numbered(b"k%d" + b".a" * 79 + b" = 1\n", 95000), NO_MEMORY),
    Text("inline tables of a key of many parts", filled(b"{" + b"a." * 79 + b"a=1},", b"x = [", b"]\n"), NO_MEMORY),
    Text("deep inline tables of an array", filled(b"{a=" * 78 + b"1" + b"}" * 78 + b",", b"x = [", b"]\n"), NO_MEMORY),
    Text("deep arrays of an array", filled(b"[" * 79 + b"]" * 79 + b",", b"x = [", b"]\n"), NO_MEMORY),
)

DOCUMENTS = (*BLANK, *NESTED, *NUMBERS, *STRINGS, *KEYS, *TABLES, *LARGE)

"""From bytes to a TOML document, by tomllib. README.md says where the crate `toml` and tomllib differ."""

import tomllib

from plain.fault import Fault

MARK = b"\xef\xbb\xbf"
NOT_TOML = "not a TOML document"


def has_large_number(value):
    """Whether an integer of 65 bits or more stands in a value: the crate takes no such document."""
    if isinstance(value, dict):
        return any(has_large_number(member) for member in value.values())
    if isinstance(value, list):
        return any(has_large_number(member) for member in value)
    return isinstance(value, int) and not -(2**63) <= value < 2**63


def document_of(data):
    try:
        document = tomllib.loads(data.removeprefix(MARK).decode("utf-8"))
    except ValueError:
        raise Fault(NOT_TOML) from None
    if has_large_number(document):
        raise Fault(NOT_TOML)
    return document

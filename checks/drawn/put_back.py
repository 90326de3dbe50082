"""Puts the script that a report ends with into its workload, before the first task."""

import tomllib

from plain.document import MARK, document_of


def is_key_of_script(line):
    """Whether a line begins with the key `script`, in any form of a key."""
    key, equals, _ = line.partition(b"=")
    try:
        return equals != b"" and tomllib.loads(key.decode() + "= 0") == {"script": 0}
    except ValueError:
        return False


def is_pair(lines):
    try:
        return len(tomllib.loads(b"".join(lines).decode())) == 1
    except ValueError:
        return False


def lines_of_script(lines):
    """The first line of a workload's own script and the line behind its last; both are 0 where it has none."""
    for first, line in enumerate(lines):
        if is_key_of_script(line):
            return first, next(end for end in range(first + 1, len(lines) + 1)
                               if b"]" in lines[end - 1] and is_pair(lines[first:end]))
    return 0, 0


def with_script(data, script):
    """A workload with a script in place of its own. Its other keys stand as they did."""
    mark = MARK if data.startswith(MARK) else b""
    lines = data[len(mark):].splitlines(keepends=True)
    own = document_of(data).get("script")
    first, end = lines_of_script(lines) if own is not None else (0, 0)
    return mark + b"".join((*lines[:first], script, *lines[end:]))


def without_requests(text):
    """A report without the requests that are left."""
    return b"".join(line for line in text.splitlines(keepends=True) if not line.startswith(b"left "))

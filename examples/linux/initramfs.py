#!/usr/bin/env -S python3 -B
"""initramfs.py ARCHIVE NAME=FILE..: writes the files under these names into an archive that Linux unpacks as it boots (cpio, newc)."""

import sys
from pathlib import Path

EXECUTABLE = 0o100755


def padded(data):
    return data + bytes(-len(data) % 4)


def member(number, name, data, mode=EXECUTABLE):
    """A member: thirteen numbers of eight digits, the name, and the bytes."""
    numbers = (number, mode, 0, 0, 1, 0, len(data), 0, 0, 0, 0, len(name) + 1, 0)
    head = b"070701" + b"".join(b"%08X" % value for value in numbers)
    return padded(head + name.encode() + b"\0") + padded(data)


def main():
    archive, *given = sys.argv[1:]
    files = [word.split("=", 1) for word in given]
    members = [member(at, name, Path(file).read_bytes()) for at, (name, file) in enumerate(files, 1)]
    Path(archive).write_bytes(b"".join(members) + member(0, "TRAILER!!!", b"", 0))


if __name__ == "__main__":
    main()

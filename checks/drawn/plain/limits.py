"""The limits of docs/formats.md, and those that a version has for itself."""

from dataclasses import dataclass

BYTES = 16777216
TASKS = 1024
OPERATIONS = 10000
PLACES = 1000000


# The slices of a task, in nanoseconds.
SHORTEST = 100000
LONGEST = 100000000

# The words that a version has and those before it haven't.
OF_VERSION_TWO = ("renice",)
OF_VERSION_THREE = ("begin", "end", "set", "rebase")
OF_VERSION_FOUR = ("doze",)


@dataclass(frozen=True)
class Limits:
    """What a version allows. `unknown` are the words of later versions."""

    cpus: int
    deeds: int
    unknown: tuple


VERSIONS = {
    1: Limits(16, 160000, OF_VERSION_TWO + OF_VERSION_THREE + OF_VERSION_FOUR),
    2: Limits(64, 640000, OF_VERSION_THREE + OF_VERSION_FOUR),
    3: Limits(64, 640000, OF_VERSION_FOUR),
    4: Limits(64, 640000, ()),
}
NEWEST = 4

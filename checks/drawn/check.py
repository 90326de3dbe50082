#!/usr/bin/env -S python3 -B
"""checks/drawn/check.py: draws workloads and compares the built programs with the plain model, for a number of seconds. The last line is
'N passed, M failed'. TOP names another checkout whose programs are compared."""

import argparse
import multiprocessing
import os
import random
import sys
import tempfile
import time
from collections import Counter
from pathlib import Path

sys.path.append(str(Path(__file__).resolve().parents[1]))

from differences import OTHER_WORDS, check, check_words  # noqa: E402
from draw.cases import NAMES, Case, draw  # noqa: E402
from plain.limits import OF_VERSION_FOUR, OF_VERSION_THREE  # noqa: E402
from runner import Checks, Printed, built, status_of  # noqa: E402

# Who draws for so long comes to each kind of workload, and goes on until each deed of versions 3 and 4 was done so many times.
SECONDS_FOR_EACH_KIND = 30
LEAST_OF_EACH_DEED = 10000
COUNTED = OF_VERSION_THREE + OF_VERSION_FOUR


def parse_words():
    words = argparse.ArgumentParser(description=__doc__)
    words.add_argument("--seconds", type=float, default=40, help="how long to go on drawing")
    words.add_argument("--seed", default=str(int.from_bytes(os.urandom(4))), help="what everything is drawn from")
    words.add_argument("--only", type=int, help="compares only the workload of this number")
    words.add_argument("--jobs", type=int, default=min(4, os.cpu_count()), help="how many processes compare")
    return words.parse_args()


def bytes_of(value):
    if isinstance(value, bytes):
        return value
    if isinstance(value, Printed) and not value.errors:
        return value.whole()
    return f"{value}\n".encode()


class Comparison(Checks):
    """Counts what was compared, and writes down what differs."""

    def __init__(self, seed, folder):
        super().__init__(are_many=True)
        self.seed = seed
        self.folder = folder
        self.alike = Counter()
        self.done = Counter()

    def count(self, number, case, difference):
        self.alike[case.kind] += difference is None
        self.done.update(deed[0] for deed in case.deeds)
        if difference is None:
            self.look(case.kind, None)
        else:
            self.look(difference.what, self.write(number, case, difference))

    def write(self, number, case, difference):
        """Writes a folder of what differs, and gives its name."""
        folder = self.folder / str(number)
        folder.mkdir(parents=True)
        words = " ".join(map(str, (case.program, *case.words)))
        (folder / "case").write_text(f"seed {self.seed}, workload {number}, {case.kind}: {words}\n{difference.what}\n")
        (folder / "workload.toml").write_bytes(case.data)
        (folder / "program").write_bytes(bytes_of(difference.said))
        (folder / "model").write_bytes(bytes_of(difference.expected))
        return folder

    def add(self, other):
        super().add(other)
        self.alike.update(other.alike)
        self.done.update(other.done)

    def has_done(self, least):
        """Whether each deed of versions 3 and 4 was done so often."""
        return all(self.done[name] >= least for name in COUNTED)

    def look_for_each_kind(self):
        """A kind that never came has failed."""
        for kind in ("words", *NAMES):
            if kind not in self.alike:
                self.look(kind, "no workload was of this kind")

    def end(self):
        print(f"compared alike: {', '.join(f'{count} {kind}' for kind, count in sorted(self.alike.items()))}")
        print(f"done of versions 3 and 4: {', '.join(f'{self.done[name]} {name}' for name in COUNTED)}")
        return super().end()


def compare_words(comparison, programs):
    for at, (name, words) in enumerate(OTHER_WORDS):
        comparison.count(f"words-{at}", Case("words", name, words, b""), check_words(programs, name, words))


def compare_one(comparison, programs, number):
    case = draw(random.Random(f"{comparison.seed} {number}"), number)
    comparison.count(number, case, check(programs, case))


def compare_share(seed, folder, programs, end, least, numbers):
    """Compares the workloads of a share's numbers, until the time is over and each deed of versions 3 and 4 was done so often."""
    comparison = Comparison(seed, folder)
    for number in numbers:
        if time.monotonic() >= end and comparison.has_done(least):
            return comparison
        with comparison.unless_slow(f"drawn workload {number}"):
            compare_one(comparison, programs, number)


def compare_drawn(comparison, programs, words):
    end = time.monotonic() + words.seconds
    least = -(-LEAST_OF_EACH_DEED // words.jobs) if words.seconds >= SECONDS_FOR_EACH_KIND else 0
    shares = [(words.seed, comparison.folder, programs, end, least, range(share, sys.maxsize, words.jobs)) for share in range(words.jobs)]
    with multiprocessing.Pool(words.jobs) as pool:
        for other in pool.starmap(compare_share, shares):
            comparison.add(other)


def new_folder():
    """The folder for what differs; it is made only where something does."""
    return Path(tempfile.gettempdir()) / f"drawn-{os.getpid()}-{time.time_ns()}"


def main():
    words = parse_words()
    print(f"seed {words.seed}", flush=True)
    programs, comparison = built("eevdf", "eevdf_orders"), Comparison(words.seed, new_folder())
    if words.only is not None:
        compare_one(comparison, programs, words.only)
    else:
        compare_words(comparison, programs)
        compare_drawn(comparison, programs, words)
        if words.seconds >= SECONDS_FOR_EACH_KIND:
            comparison.look_for_each_kind()
    return comparison.end()


if __name__ == "__main__":
    sys.exit(status_of(main))

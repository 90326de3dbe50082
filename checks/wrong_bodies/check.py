#!/usr/bin/env -S python3 -B
"""checks/wrong_bodies/check.py [--all] [--right] [--stale] [CRATE | CRATE/NAME]..: tries the wrong bodies of every crate, or of those
named, that are not on record as refused.

Each must be refused in the function that its line `refused:` names. Many are planted together in one copy of the crate and tried by
one check, since a function is proved from the contracts of those that it calls, and not from their bodies. One that such a check
doesn't say enough of is tried once more by itself. They are tried over the libraries that `rt ci` makes in a copy of the repository,
while it goes on there; none of a crate counts that isn't proved there as it stands. A refusal is put on record, in the crate's
must-fail/refused.txt, and isn't tried again while its line fits (records.py); with --all each is. A line that is of no wrong body has
failed, and is taken away. --stale tries nothing: it prints the crates that have some to be tried. With --right the right bodies are
tried in their places, and each has to be proved. The last line is 'N passed, M failed'."""

import argparse
import contextlib
import math
import os
import re
import sys
import tempfile
import threading
from dataclasses import dataclass
from pathlib import Path

from edits import FUNCTION as SIGNATURE
from edits import TOP, BadEdit, are_apart, cycles_of, edits_of, is_of_bodies, names_of
from libraries import CRATES, Libraries
from planting import ENDS, can_be_copied, plant
from records import Records, sums_of
from stand_ins import make_library

sys.path.append(str(TOP / "tools"))

from crate_copies import (  # noqa: E402
    SOURCES,
    all_below,
    copy_crates,
    copy_parts,
    folder_of,
    free_memory,
    start_ci,
    wait_for_other_runs,
    with_all_below,
)

# How many wrong bodies one check tries at most; a few more where one function has many.
MOST = 60
# The memory that must be free, in bytes, for a check to be begun beside another.
MEMORY = 5 << 30

# What a check says.

FUNCTION = re.compile(r"^(?:so far: )?fn (\S+): (.*)$", re.MULTILINE)
# What is said of goals for which no proof was found, where none is written by hand.
NOT_FOUND = re.compile(r"did not prove (.*)")
# The same of one goal, with its place: all that is said of it where another of the function's goals is proved wrongly by hand.
NOTE = re.compile(r"^note: (src/\S+):(\d+):\d+: (it is not proved that .*\(`([^`]+)`\).*)$", re.MULTILINE)
# An error of a proof file, with its folder, where it is one of a function, and its further lines, which are indented. Its first word is the
# goal or the lemma that is answered there.
PROOF_ERROR = re.compile(r"^(?:\./)?(proofs/(?:(\S+)/)?[^/\s]+\.antt):\d+:\d+: error: (.*(?:\n  .*)*)", re.MULTILINE)
GOAL = re.compile(r"`([^`]+)`")
# The goals and the lemmas whose proofs use one that is wrong, and which that is.
NOT_CHECKED = re.compile(r"(?:on `([^`]+)`, which .*)?w(?:as|ere) not checked: (.*)")
# By which of these others one of them uses it.
BY_WAY = re.compile(r" \(via [^)]*\)")
# How many more there are behind the last one that is named.
MORE = re.compile(r" and \d+ more$")
# A line that declares a name in a proof file, and the words of a text there.
DECLARED = re.compile(r"^ *(?:abbrev )?(?:pub )?([^\s:(]+) :", re.MULTILINE)
WORD = re.compile(r"[^\s(){}\[\],;.λ]+")
# What it says where the file only names what isn't there or isn't proved. What is printed of a term may have names that can't be
# written there; that is no such case.
NAMES_ALONE = re.compile(r"has no field|has no `|was not admitted|\(nearest: |is not in scope(?! here, so what is shown)")
# What is said of a function whose code the prover has no rules for: it is neither proved nor refused.
NOT_COVERED = re.compile(r"does not cover|not covered")
FIRST_ERROR = re.compile(r"^.*: error\b.*$", re.MULTILINE)
# A goal that is of one of the clauses that a function ensures, or of its only one; and one of what a type or a loop keeps.
ENSURED = re.compile(r"returns\b(?:.*-clause-(\w+))?")
KEPT = re.compile(r"^invariant(?=_of-)|\bpreserved\b")


@dataclass(frozen=True)
class Unproved:
    """A goal of a function that isn't proved, and what is said of it."""

    goal: str
    words: str

    def clause(self):
        """The name of the clause that it is of: `ensures` where the function has only one, `invariant` or `preserved` of what a type or a
        loop keeps, and the goal's own name where it is of none."""
        if ensured := ENSURED.match(self.goal):
            return ensured[1] or "ensures"
        kept = KEPT.search(self.goal)
        return kept[0] if kept else self.goal


class Said:
    """What a check says of a crate's folder: which functions it refuses for what they do themselves, with the goals that aren't proved;
    which it proves; and the first error that it finds. Some goals are told with a file alone, and not with their function, so `files` are
    those of each function in which something is planted."""

    def __init__(self, crate, folder, files, text):
        self.refused = {}
        self.proved = set()
        error = FIRST_ERROR.search(text)
        self.error = error[0] if error else text[-300:]
        errors = PROOF_ERROR.findall(text)
        wrong_lemmas = wrong_lemmas_of((folder / file, error) for file, function, error in errors if not function)
        wrong_proofs = {}
        for file, proof, error in errors:
            if is_of_goal(error, wrong_lemmas):
                wrong_proofs.setdefault(function_of(proof), []).extend(goals_of(folder / file, error))
        cyclic = set().union(*cycles_of(folder))
        notes = {}
        for file, line, words, goal in NOTE.findall(text):
            notes.setdefault((file, name_at(folder / file, int(line))), []).append(Unproved(goal, words))
        for name, told in FUNCTION.findall(text):
            name = name.removeprefix(f"{crate}::")
            # of one that may wait it says so too
            if told.partition(",")[0] == "proved":
                self.proved.add(name)
            elif not NOT_COVERED.search(told):
                own = name.rpartition("::")[2]
                noted = [note for file in files.get(name, ()) for note in notes.get((file, own), [])]
                # the proofs of a cycle stand in one folder, so a wrong one doesn't say of which function it is
                self.look(name, told, wrong_proofs.get(name, []), noted, own in cyclic)

    def look(self, name, told, wrong_proofs, notes, is_in_cycle):
        parts = [part for part in told.split("; ") if NOT_FOUND.search(part)]
        unproved = [Unproved(goal, part) for part in parts for goal in GOAL.findall(NOT_FOUND.search(part)[1])]
        if told.startswith(("not proved", "no proof")) and (wrong_proofs or is_in_cycle):
            unproved += wrong_proofs + notes
        if unproved:
            self.refused[name] = unproved


def goals_of(file, error):
    """The goals that an error of a proof file is of. Three of those that use a wrong lemma are named; where there are more, they are looked
    for in the file."""
    if others := NOT_CHECKED.search(error):
        named = BY_WAY.sub("", MORE.sub("", others[2])).split(", ")
        more = users_of(others[1], file) - set(named) if MORE.search(others[2]) else ()
        return [Unproved(goal, error) for goal in (*named, *sorted(more))]
    goal = GOAL.match(error)
    return [Unproved(goal[1] if goal else "", error)]


def users_of(used, file):
    """What a proof file declares whose text names this lemma, or one that does."""
    text = file.read_text()
    begun = list(DECLARED.finditer(text))
    words = [(it[1], set(WORD.findall(text[it.start() : end]))) for it, end in zip(begun, [*(it.start() for it in begun[1:]), None])]
    users = {used}
    while more := {name for name, named in words if name not in users and named & users}:
        users |= more
    return users - {used}


def is_of_goal(error, wrong_lemmas):
    """Whether an error of a proof file is that a goal doesn't hold there, or in a lemma that is used there. Else a name is missing."""
    others = NOT_CHECKED.search(error)
    return bool(others and others[1] in wrong_lemmas) or not NAMES_ALONE.search(error)


def wrong_lemmas_of(errors):
    """The lemmas in which a goal doesn't hold, and those that use one, by their files and the errors there. A file is read after those it
    uses."""
    wrong = set()
    for file, error in errors:
        others = NOT_CHECKED.search(error)
        used = others and others[1]
        is_wrong = used in wrong if used else not NAMES_ALONE.search(error)
        if is_wrong:
            wrong.update(it.goal for it in goals_of(file, error))
    return wrong


def name_at(file, line):
    """The name of the function, without its path, in whose lines this one is. The attributes above it are its own."""
    lines = file.read_text().split("\n")
    is_above = lines[line - 1].lstrip().startswith("#[")
    found = filter(None, map(SIGNATURE.match, lines[line - 1 :] if is_above else reversed(lines[:line])))
    return next((begun[2] for begun in found), "")


def function_of(folder):
    """The function whose proof stands in this folder of proofs/. The folder of one that calls itself begins with a plus."""
    return folder.replace("/+", "/").removeprefix("+").replace("/", "::")


def told_of(unproved):
    """What is said of goals that aren't proved: their names, and the words on the first."""
    return f"{', '.join(it.goal for it in unproved)}: {unproved[0].words}" if unproved else ""


def judged(edit, unproved):
    """Whether an edit is refused by the clause that it names, if it names one, and what is said of it."""
    is_refused = not edit.clause or any(edit.clause in (it.clause(), it.goal) for it in unproved)
    return is_refused, ("" if is_refused else f"not by {edit.clause}, but by ") + told_of(unproved)


# The tries.

class Tries:
    """The tries of one crate's edits over libraries."""

    def __init__(self, crate, libraries, is_right):
        self.crate = crate
        self.libraries = libraries
        self.is_right = is_right

    def try_together(self, edits):
        """The function that each of these edits is planted in, and what a check says of a copy of the crate with all of them."""
        (folder_of(self.crate) / "out").mkdir(exist_ok=True)
        with tempfile.TemporaryDirectory(prefix="wrong-bodies-", dir=folder_of(self.crate) / "out") as held:
            folder = Path(held)
            copy_parts(self.crate, SOURCES, folder)
            names = plant(edits, folder, self.is_right)
            if all("main" not in names_of(edit, folder_of(self.crate)) for edit in edits):
                make_library(folder)
            files = {name: {change.file for change in edit.changes} for edit, name in names.items()}
            return names, Said(self.crate, folder, files, self.libraries.check(self.crate, folder, set(names.values())))

    def try_right_bodies(self, edits):
        """Each of the edits with whether its function is proved as it stands where the edit would be tried, and what is said of it."""
        names, said = self.try_together(edits)
        return [(edit, name in said.proved, told_of(said.refused.get(name, [])) or name) for edit, name in names.items()]

    def try_group(self, edits):
        """Each of the edits with whether it is refused in its function, and what is said of it."""
        if self.is_right:
            return self.try_right_bodies(edits)
        names, said = self.try_together(edits)
        told = [(edit, *judged(edit, said.refused[name])) for edit, name in names.items() if name in said.refused]
        told += [(edit, False, f"{edit.refused} is proved") for edit, name in names.items() if name in said.proved]
        rest = [edit for edit, name in names.items() if name not in said.refused and name not in said.proved]
        if len(edits) == 1:
            return told or [(edit, False, f"not refused in {edit.refused}, but: {said.error}") for edit in rest]
        # a check that refuses none of them has ended before it reached any
        size = 1 if told else (len(rest) + 1) // 2
        for start in range(0, len(rest), size):
            told += self.try_group(rest[start : start + size])
        return told


def fits(edit, group, folder):
    """Whether an edit can be tried together with others: those of the same function leave it a copy of the function."""
    same = [other for other in group if other.refused == edit.refused]
    apart = all(are_apart(edit, other, folder) for other in group if other not in same)
    return apart and (not same or len(same) <= len(ENDS) and can_be_copied(edit, folder))


def groups_of(crate, edits):
    """The edits in groups that are tried together, and by itself each that changes more than bodies."""
    folder = folder_of(crate)
    together = [edit for edit in edits if is_of_bodies(edit, folder)]
    # those that can't stand in a copy come first, and so have the functions themselves
    together.sort(key=lambda edit: can_be_copied(edit, folder))
    alone = [[edit] for edit in edits if edit not in together]
    groups = [[] for _ in range(math.ceil(len(together) / MOST))]
    for edit in together:
        free = [group for group in groups if fits(edit, group, folder)]
        if not free:
            groups.append([])
            free = groups[-1:]
        min(free, key=lambda group: (edit.refused in (it.refused for it in group), len(group))).append(edit)
    return groups + alone


# The run.

class Recorded:
    """The wrong bodies of a crate, with their sums, those of them that are to be tried, and what stands on record of none."""

    def __init__(self, crate, edits, every, is_anew):
        self.records = Records(crate)
        self.sums = sums_of(crate, edits)
        self.strange = self.records.strange(every)
        self.stale = [edit for edit in edits if is_anew or not self.records.has(edit, self.sums[edit])]
        self.count = len(edits) - len(self.stale)

    def put(self, told):
        """Puts on record those that are refused, unless what their refusals stand on was changed meanwhile, and no others."""
        now = sums_of(self.records.crate, [edit for edit, *_ in told])
        for edit, is_refused, _ in told:
            self.records.put(edit, self.sums[edit] if is_refused and now[edit] == self.sums[edit] else None)


class Run:
    """The crates whose edits can't be tried yet, and the groups of edits that can. No right body is on record."""

    def __init__(self, edits, recorded, libraries, is_right):
        self.edits = {crate: them for crate, them in edits.items() if them}
        self.recorded = recorded
        self.libraries = libraries
        self.is_right = is_right
        self.change = libraries.change
        self.waiting = list(self.edits)
        self.groups = []
        self.passed = []
        self.told = {}
        self.busy = 0

    def next_task(self):
        """A crate and a group of its edits that can be tried now."""
        for crate in list(self.waiting):
            if self.libraries.proved.issuperset(all_below(CRATES, crate)):
                self.waiting.remove(crate)
                self.groups += [(crate, group) for group in groups_of(crate, self.edits[crate])]
        if not self.groups or self.busy and free_memory() < MEMORY:
            return None
        return self.groups.pop(0)

    def try_group(self, crate, group):
        try:
            told = Tries(crate, self.libraries, self.is_right).try_group(group)
        except BadEdit as why:
            told = [(group[0], False, str(why))]
        with self.change:
            for edit, is_passed, text in told:
                word = "FAILED" if not is_passed else "proved" if self.is_right else "refused"
                print(f"{word}: {edit}: {text[:240]}", flush=True)
                self.passed += [edit] * is_passed
            if not self.is_right:
                self.told.setdefault(crate, []).extend(told)
                self.put_on_record(crate)

    def put_on_record(self, crate):
        """Puts what was told of a crate on record once that is proved as it stands."""
        if crate in self.libraries.proved and self.told.get(crate):
            self.recorded[crate].put(self.told.pop(crate))

    def may_go_on(self):
        """Whether something is under way after which there may be more to do."""
        return self.groups or self.waiting and not self.libraries.has_ended

    def work(self):
        """What each of the threads does, until nothing is left that it could begin or wait for."""
        while True:
            with self.change:
                task = self.next_task()
                while task is None:
                    if not self.may_go_on():
                        return
                    self.change.wait(2)
                    task = self.next_task()
                self.busy += 1
            try:
                self.try_group(*task)
            finally:
                with self.change:
                    self.busy -= 1
                    self.change.notify_all()

    def go(self, jobs):
        threads = [threading.Thread(target=self.work) for _ in range(jobs)]
        threads.append(threading.Thread(target=self.libraries.follow))
        for thread in threads:
            thread.start()
        for thread in threads:
            thread.join()
        for crate in list(self.told):
            self.put_on_record(crate)

    def count(self):
        """How many edits have passed of crates that are proved as they stand."""
        for crate in self.edits:
            if crate not in self.libraries.proved:
                print(f"rt ci doesn't prove {crate}, so its wrong bodies tell nothing", flush=True)
        return sum(edit.crate in self.libraries.proved for edit in self.passed)


@contextlib.contextmanager
def ci_of(crates, copy):
    """A folder where `rt ci` proves these crates and those below them, and what it says: in a copy of their own, or in one that is
    given, where it was started by others and its words come on standard input."""
    if copy:
        yield copy.resolve(), sys.stdin
        return
    with tempfile.TemporaryDirectory(prefix="wrong-bodies-") as held:
        top = Path(held)
        copy_crates(with_all_below(CRATES, crates), top)
        rt = start_ci(top)
        try:
            yield top, rt.stdout
        finally:
            rt.terminate()
            rt.wait()


def parse_words():
    words = argparse.ArgumentParser(description=__doc__, formatter_class=argparse.RawDescriptionHelpFormatter)
    words.add_argument("--copy", type=Path, help="a copy of the repository where `rt ci` runs, whose words are the standard input")
    words.add_argument("--jobs", type=int, default=len(os.sched_getaffinity(0)), help="how many checks run at a time")
    words.add_argument("--all", action="store_true", help="tries those too that are on record")
    words.add_argument("--stale", action="store_true", help="prints the crates that have some to be tried, and tries none")
    words.add_argument("--right", action="store_true", help="tries the right bodies in the places of the wrong ones")
    words.add_argument("named", nargs="*", help="a crate, or CRATE/NAME of crates/CRATE/must-fail/NAME.edit")
    return words.parse_args()


def edits_named(every, named):
    """Of these edits by their crate those that are named: all where no name is given."""
    wanted = {crate: [it for it in edits if not named or crate in named or str(it) in named] for crate, edits in every.items()}
    return {crate: edits for crate, edits in wanted.items() if edits or not named}


def try_stale(stale, recorded, words):
    """The run of those that are to be tried. Without any no `rt ci` is waited for."""
    with ci_of([crate for crate, edits in stale.items() if edits], words.copy) if any(stale.values()) else nothing() as (top, said):
        run = Run(stale, recorded, Libraries(top, said, threading.Condition()), words.right)
        run.go(words.jobs)
    return run


def nothing():
    return contextlib.nullcontext((TOP, ()))


def look_at_strange(recorded):
    """How many lines on record are of no wrong body."""
    strange = [f"{crate}/{name}" for crate, it in recorded.items() for name in it.strange]
    for name in strange:
        print(f"FAILED: {name}: it is on record, and there is no such wrong body", flush=True)
    return len(strange)


def main():
    words = parse_words()
    try:
        every = {crate: edits_of(crate) for crate in CRATES}
        edits = edits_named(every, words.named)
        recorded = {crate: Recorded(crate, edits[crate], every[crate], words.all or words.right) for crate in edits}
    except BadEdit as why:
        print(f"{why}\n0 passed, 1 failed")
        return 1
    stale = {crate: it.stale for crate, it in recorded.items()}
    if words.stale:
        print(*(crate for crate, them in stale.items() if them))
        return 0
    with open(TOP / "crates.txt") as held:
        wait_for_other_runs("wrong_bodies", held)
        run = try_stale(stale, recorded, words)
        failed = look_at_strange(recorded)
        for crate, it in recorded.items():
            it.records.keep_only(every[crate])
    on_record = sum(it.count for it in recorded.values())
    now = run.count()
    failed += sum(map(len, stale.values())) - now
    if not words.right:
        print(f"{on_record} are on record as refused; refused now: {now}")
    print(f"{on_record + now} passed, {failed} failed")
    return 1 if failed else 0


if __name__ == "__main__":
    sys.exit(main())

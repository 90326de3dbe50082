#!/usr/bin/env -S python3 -B
"""checks/second_lock.py: tries bodies of eevdf_fleet in which an operation takes locks so that threads could wait for each other for ever,
or a caller operates its seat while it looks. The compiler has to refuse each where it stands: it makes a second `LockLeave` or
`JournalLeave`, reaches a lock by itself, or borrows what is lent for as long as a lock is held. No file of must-fail/ can ask this, because
what stands there has to compile. The bodies of a round are put into one copy of the crates, since the compiler tells of each; what is
borrowed it looks at only where all else is right. The last line is 'N passed, M failed'."""

import re
import subprocess
import sys
import tempfile
from pathlib import Path

from runner import TOP, Checks

sys.path.append(str(TOP / "tools"))

from crate_copies import copy_crates, read_crates, with_all_below  # noqa: E402

CRATE = "eevdf_fleet"
# The function that is asked for. All are read before any is proved.
ASKED = "own"

OWN = "let (mut guard, mut leave) = self.hold(call.rt, held, seat.cpu());"
LISTED = OWN.replace("call.rt", "rt")
BOTH = "self.hold_both(call.rt, held, seat.cpu(), other)"
JOURNAL = "let mut journal = journal.lock(rt, leave);"
LOOKED = "        observe(&guard.queue)\n"
AGAIN = "let (_second, _leave) = self.hold(call.rt, held, seat.cpu());"


def in_a_look(call):
    """A call that a caller makes while it looks at its own queue."""
    return f"{{ let cpu = seat.cpu(); self.look(rt, seat, cpu, |_queue| {call}) }}"


# What a body does, its file, a text of it, what is put in its place, and the error. A round for what is out of reach, and one for what is
# borrowed.
ROUNDS = (
    (
        ("a LockLeave made by an operation", "locked_deeds.rt", BOTH,
         BOTH.replace("held", "&mut LockLeave { alone: std::marker::PhantomData }"), "private-field"),
        ("a LockLeave beside the parts that an operation was lent", "drains.rt", OWN,
         f"let (_parts, mut second) = LockLeave::beside(*seat); {OWN.replace('held', '&mut second')}", "move-out-of-place"),
        ("a JournalLeave made by an operation", "line_commits.rt", JOURNAL,
         JOURNAL.replace("leave", "&mut JournalLeave { held: std::marker::PhantomData }"), "private-field"),
        ("the lock of a queue reached by an operation", "operations.rt", "self.across(call, seat, held, &deed, other, transfer)",
         "{ let _raw = &self.locks[other.index()].slot; self.across(call, seat, held, &deed, other, transfer) }", "private-field"),
    ),
    (
        ("a second lock while one is held", "locked_deeds.rt", OWN, f"{OWN} {AGAIN}", "borrow-e0499"),
        ("a look while a lock is held", "listed_drains.rt", LISTED,
         f"{LISTED} let cpu = seat.cpu(); self.look(rt, seat, held, cpu, |_queue| ());", "borrow-e0499"),
        ("a second lock while a look lasts", "locks/looking.rt", LOOKED,
         f"{{ let (_second, _again) = self.hold(rt, held, cpu); {LOOKED.strip()} }}", "borrow-e0499"),
        ("an operation of the seat in its look", "endless/try_operate.rt", "self.pick(rt, seat)", in_a_look("self.pick(rt, seat)"),
         "borrow-e0499"),
        ("a look of the seat in its look", "endless/fleet.rt", "self.operate(rt, seat, Op::Pick)",
         in_a_look("{ let _seen = self.look(rt, seat, cpu, |_queue| ()); Answer::Idle }"), "borrow-e0499"),
        ("a third lock while two are held", "locked_deeds.rt", f"{BOTH};", f"{BOTH}; {AGAIN}", "borrow-e0499"),
        ("the journal's lock twice", "line_commits.rt", JOURNAL, f"let _first = journal.lock(rt, leave); {JOURNAL}", "borrow-e0499"),
        ("a queue's lock while the journal's is held", "drains.rt", OWN,
         f"let (first, mut late) = self.hold(call.rt, held, seat.cpu()); drop(first); let _journal = match &self.journal {{ "
         f"Some(journal) => Some(journal.lock(call.rt, &mut late)), None => None }}; {OWN} drop(_journal);", "borrow-e0499"),
    ),
)


def plant(top, bodies):
    """Puts bodies into a copy, and gives of each its place: the path of its file, and the line."""
    for _, file, old, new, _ in bodies:
        path = top / "crates" / CRATE / "src" / file
        text = path.read_text()
        if text.count(old) != 1:
            sys.exit(f"FAILED: {file} has {text.count(old)} times the text: {old}\n0 passed, 1 failed")
        path.write_text(text.replace(old, new))
        yield f"src/{file}", text[:text.index(old)].count("\n") + 1


def try_round(checks, bodies):
    with tempfile.TemporaryDirectory(prefix="second-lock-") as held:
        top = Path(held)
        copy_crates(with_all_below(read_crates(), [CRATE]), top)
        places = list(plant(top, bodies))
        run = subprocess.run(["rt", "check", "--only", ASKED], cwd=top / "crates" / CRATE, capture_output=True, text=True, errors="replace")
    said = run.stdout + run.stderr
    for (name, *_, error), (file, line) in zip(bodies, places):
        found = re.search(rf"^{re.escape(file)}:{line}:\d+: error\[{error}\]", said, re.MULTILINE)
        checks.look(name, None if found else f"not refused by {error} at {file}:{line}: {said[-500:]}")


def main():
    checks = Checks()
    for bodies in ROUNDS:
        try_round(checks, bodies)
    return checks.end()


if __name__ == "__main__":
    sys.exit(main())

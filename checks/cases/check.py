#!/usr/bin/env -S python3 -B
"""checks/cases/check.py [WORD..]: sends workloads to the built programs `eevdf` and `eevdf_orders`, and looks whether each prints what
stands in the file beside it; with words only those whose path has one of them. Without words it sends those of made.py too. The last line
is 'N passed, M failed'. TOP names another checkout whose programs are tried."""

import codecs
import re
import sys
from pathlib import Path

import made

CASES = Path(__file__).resolve().parent
sys.path += [str(CASES.parent), str(CASES.parent / "drawn")]

from plain.workbench import COMMANDS, answer  # noqa: E402
from runner import TOP, Checks, Printed, built, stored, status_of  # noqa: E402

SOLO = ("eevdf", "solo")
REPLAY = ("eevdf", "replay")
ORDERS = ("eevdf_orders",)

# The last line of what is printed, where all is well.
DONE = b"status 0\n"

# What is cut short and damaged, byte by byte.
DAMAGED = (TOP / "examples/two-tasks.toml", CASES / "orders/the-first-of-two-posts-wakes-the-task.toml")
# Bytes that are put in the place of each one: what ends a text, a line or a string, what begins a number or an array, and two
# that aren't UTF-8 there.
BYTES = (b"\0", b"\n", b'"', b"9", b"-", b"[", b"]", b"\\", b"\xc3", b"\xff")

# Orders in which caller 0 comes last.
ORDERED = (CASES / "orders/the-first-of-two-posts-wakes-the-task.toml",
           CASES / "orders/a-pull-before-two-picks-with-its-history.toml")


def command_of(workload):
    """The program and its words, which stand in the workload's first line: '# eevdf solo'. A byte order mark may come before."""
    return workload.removeprefix(codecs.BOM_UTF8).partition(b"\n")[0].decode().split()[1:]


class Cases(Checks):
    """Counts the workloads for which the programs print what they should."""

    def __init__(self):
        super().__init__(are_many=True)
        self.programs = built("eevdf", "eevdf_orders")

    def run(self, command, workload, **more):
        program, *words = command
        return self.programs.run(program, words, workload, **more)

    def whole(self, command, workload):
        """What a program prints for a workload, and as its last line the status."""
        return self.run(command, workload).whole()

    def compare(self, name, command, workload, wanted):
        printed = self.whole(command, workload)
        self.expect(name, printed, printed == wanted)

    def compare_errors(self, name, command, workload, wanted, **more):
        """The same where all comes on standard error."""
        printed = self.run(command, workload, **more)
        self.expect(name, printed, printed == wanted)


def with_front(workload):
    """The same with the line of its version and its order in front of all else."""
    found = [re.search(rb"^version = .*\n", workload, re.MULTILINE), re.search(rb"^order = \[[^\]]*\]\n", workload, re.MULTILINE)]
    members = [member[0] for member in found if member]
    for member in members:
        workload = workload.replace(member, b"", 1)
    return b"".join(members) + workload


def check_front(checks, name, command, workload):
    """A version and an order in front are read by themselves, but behind a byte order mark with all else: that comes to the same."""
    moved = with_front(workload.removeprefix(codecs.BOM_UTF8))
    checks.compare(f"{name}, by its front and as a whole", command, moved, checks.whole(command, codecs.BOM_UTF8 + moved))


def versions_after(path, workload, wanted):
    """The later versions in which a workload is sent once more: reports and orders are alike there, and so are the bounds of the numbers
    that numbers/ has."""
    if not wanted.endswith(DONE) and path.parent.name != "numbers":
        return []
    return [version for version in made.CPUS if any(b"\nversion = %d\n" % before in workload for before in range(1, version))]


def in_version(version, text):
    return re.sub(rb"\nversion = \d\n", b"\nversion = %d\n" % version, text, count=1)


def without_times(text):
    """A report without what stands in front of its lines; a script at its end has no times."""
    report, script, deeds = text.partition(b"script = [")
    return re.sub(rb"^ *\d+ (?=[a-z])", b"", report, flags=re.MULTILINE) + script + deeds


def check_times(checks, name, command, workload, wanted):
    """With times the report is the same, and in front of each line stands the time that the plain model has."""
    words = (*command[1:], "--times")
    printed = checks.run((command[0], *words), workload)
    is_right = (printed.out, printed.status) == answer(words, workload) and without_times(printed.whole()) == wanted
    checks.expect(f"{name} with times", printed.whole(), is_right)


def check_pair(checks, path):
    workload, wanted = path.read_bytes(), stored(path.with_suffix(".out")).whole()
    name, command = path.relative_to(TOP), command_of(workload)
    checks.compare(name, command, workload, wanted)
    for version in versions_after(path, workload, wanted):
        # a report has no version, and what eevdf_orders prints has that of the workload
        checks.compare(f"{name} in version {version}", command, in_version(version, workload), in_version(version, wanted))
    if command[0] == "eevdf":
        check_front(checks, name, command, workload)
    if command[0] == "eevdf" and command[1] in COMMANDS and "--times" not in command:
        check_times(checks, name, command, workload, wanted)
    if command[0] == "eevdf_orders" and wanted.endswith(DONE):
        check_ordered(checks, name, command, workload)
        check_places(checks, name, wanted)


def refusal(fault):
    return f"fault: {fault}\nstatus 1\n".encode()


def is_report(printed):
    return printed.lstrip(b" 0").startswith(b"cpu 0\n") and printed.endswith(DONE)


def is_report_or_refusal(printed):
    if printed.endswith(DONE):
        return is_report(printed)
    return bool(re.fullmatch(rb"fault: [^\n]*\nstatus 1\n", printed))


def check_damaged(checks, path):
    """Each beginning of a workload, and each that differs from it in one byte, comes to a report or to a refusal."""
    workload = path.read_bytes()
    command = command_of(workload)
    body = workload.index(b"version")
    printed = {}
    for place in range(body, len(workload)):
        printed[f"cut at {place}"] = checks.whole(command, workload[:place])
        for byte in BYTES:
            printed[f"{byte} at {place}"] = checks.whole(command, workload[:place] + byte + workload[place + 1:])
    wrong = [name for name, text in printed.items() if not is_report_or_refusal(text)]
    name = f"{path.relative_to(TOP)}, damaged in {len(printed)} ways"
    checks.look(name, ", ".join(wrong))


def check_beginnings(checks, path):
    """Every beginning of an order is short at the caller that comes last."""
    workload = path.read_bytes()
    order = re.search(rb"order = \[(.*?)\]", workload)
    places = order[1].split(b",")
    for length in range(len(places)):
        begun = workload[:order.start(1)] + b",".join(places[:length]) + workload[order.end(1):]
        name = f"{path.relative_to(TOP)}, {length} places"
        checks.compare(name, command_of(workload), begun, refusal("order short at 0"))


def check_shortest(checks):
    """The least inputs, of nothing and of one byte, which have no first line for a command."""
    for command in (SOLO, REPLAY, ("eevdf", "run"), ORDERS):
        name = " ".join(command)
        checks.compare(f"no byte for {name}", command, b"", refusal("missing version"))
        checks.compare(f"the byte 255 for {name}", command, b"\xff", refusal("not a TOML document"))


def check_deeds(checks):
    """A script of a deed that the version has comes to a report, and one of another is refused for its first member."""
    for versions, deeds in made.DEEDS.items():
        for deed in deeds:
            for version in made.CPUS:
                printed = checks.whole(SOLO, made.whole_machine(version, script=f'script = ["{deed}"]\n'))
                is_right = is_report(printed) if version in versions else printed == refusal("bad value at script at 0")
                checks.expect(f"the deed '{deed}' in version {version}", printed, is_right)


def check_operations(checks):
    """A program of an operation that the version has waits for its order, and one of another is refused for its first member."""
    for versions, operations in made.SINGLE_OPERATIONS.items():
        for operation in operations:
            for version in made.CPUS:
                workload = made.whole_machine(version, program=f'["{operation}"]', script="order = []\n")
                fault = "order short at 0" if version in versions else "bad value at program 0 at 0"
                checks.compare(f"the operation '{operation}' in version {version}", REPLAY, workload, refusal(fault))


def check_longest_orders(checks):
    """The longest order is played, and one place less is too few. A longer one is refused before its places are looked at."""
    nobody = made.ORDERED_CPUS
    too_long = refusal(f"order longer than {made.PLACES}")
    rows = (
        ("the longest order", made.LONGEST, made.report_of_longest().encode() + DONE),
        ("one place less", made.LONGEST[:-1], refusal(f"order short at {nobody - 1}")),
        ("one place more", made.LONGEST + [0], too_long),
        ("one place more, of nobody", [nobody] * (made.PLACES + 1), too_long),
        ("the longest order, of nobody", [nobody] * made.PLACES, refusal("order at 0: no caller")),
        ("one place less, of nobody", [nobody] * (made.PLACES - 1), refusal("order at 0: no caller")),
    )
    for name, order, wanted in rows:
        checks.compare(name, REPLAY, made.picks_in_order(order), wanted)


def check_run(checks, name, programs, tasks, cpus, count):
    """Each task stands in one place of the report of a run; and one thread that does the history prints the same report, but for
    the requests that are left."""
    printed = checks.whole(("eevdf", "run", "--history"), (programs + tasks).encode())
    report, script, deeds = printed.removesuffix(DONE).partition(b"script = [")
    report = re.sub(rb"^left .*\n", b"", report, flags=re.MULTILINE)
    placed = sorted(map(int, re.findall(rb"^(?:task|asleep) (\d+) ", report, re.MULTILINE)))
    checks.expect(f"{name}: CPUs and tasks", printed,
                len(re.findall(rb"^cpu ", report, re.MULTILINE)) == cpus and placed == list(range(count)))
    workload = programs.encode() + script + deeds + tasks.encode()
    checks.compare(f"{name}: its history by one thread", SOLO, workload, report + DONE)


def check_runs(checks):
    """Each drawn workload is run three times, since its threads may come in another order."""
    for seed in range(1, 21):
        for time in range(1, 4):
            check_run(checks, f"the programs of seed {seed}, run {time}", *made.drawn_programs(seed))
    check_run(checks, "the most programs", *made.most_programs())


def order_of(text):
    """The callers at the places of a text's order."""
    order = re.search(rb"order = \[([\d,\s]*)\]", text)
    return list(map(int, re.findall(rb"\d+", order[1]))) if order else []


def check_ordered(checks, name, command, workload):
    """What eevdf_orders prints is the workload with an order in front, and the workbench plays that to its end. Gives the order."""
    ordered = checks.whole(command, workload).removesuffix(DONE)
    played = checks.whole(REPLAY, ordered)
    checks.expect(f"{name}, played", played, ordered.endswith(workload.removeprefix(codecs.BOM_UTF8)) and is_report(played))
    return order_of(ordered)


def check_places(checks, name, ordered):
    """The workbench reads at each place the caller that stands there: where it has done all its steps before, and no other caller
    has, the order is refused at this place."""
    order = order_of(ordered)
    for place, caller in enumerate(order):
        workload = made.posts_in_order(ordered, order, place)
        checks.compare(f"{name}, read at place {place}", REPLAY, workload, refusal(f"order at {place}: done"))


def check_ordered_workloads(checks):
    """The orders of the same workloads play whether the callers take turns or a seed draws them."""
    for number, workload in enumerate(made.TO_BE_ORDERED):
        for words in ((), *(("--seed", str(seed)) for seed in range(20))):
            command = (*ORDERS, *words)
            check_ordered(checks, f"made workload {number} for {' '.join(command)}", command, workload)


def check_drains(checks):
    """A drain of 64 CPUs is 130 steps. It takes the lock of its own CPU alone, so nobody waits, and all callers take turns."""
    order = check_ordered(checks, "64 drains, ordered", ORDERS, made.drains())
    checks.expect("the order of 64 drains", str(order).encode(), order == [*range(64)] * 130)


def check_other_words(checks):
    """Words that eevdf_orders doesn't take get one line on standard error, and nothing is ordered."""
    usage = Printed(b"", 2, b"usage: eevdf_orders [--seed N] [FILE]\n")
    for words in made.NO_SEEDS:
        checks.compare_errors(f"the words '{words}'", (*ORDERS, *words.split()), made.TO_BE_ORDERED[0], usage)


def check_failed_write(checks):
    """A machine may lack the file that takes no byte."""
    full = Path("/dev/full")
    if not full.is_char_device():
        checks.leave_out("a write that fails", f"there is no {full}")
        return
    with full.open("wb") as out:
        checks.compare_errors("a write that fails", ORDERS, made.TO_BE_ORDERED[0], Printed(b"", 3, b"fault: writing\n"), stdout=out)


def check_made(checks):
    check_deeds(checks)
    check_operations(checks)
    check_longest_orders(checks)
    check_runs(checks)
    check_ordered_workloads(checks)
    check_drains(checks)
    check_other_words(checks)
    check_failed_write(checks)


def main():
    paths = sorted([*TOP.glob("examples/*.toml"), *CASES.glob("*/*.toml")])
    words = sys.argv[1:]
    checks = Cases()
    for path in paths:
        if not words or any(word in str(path.relative_to(TOP)) for word in words):
            check_pair(checks, path)
    if not words:
        check_shortest(checks)
        for path in DAMAGED:
            check_damaged(checks, path)
        for path in ORDERED:
            check_beginnings(checks, path)
        check_made(checks)
    return checks.end()


if __name__ == "__main__":
    sys.exit(status_of(main))

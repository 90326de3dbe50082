#!/usr/bin/env -S python3 -B
"""checks/faults/check.py [WORD..]: sends faulty workloads and words to the built programs, and compares all that they print, on standard
output and on standard error, with what stands beside each; with words only those whose name has one of them. The last line is
'N passed, M failed'. TOP names another checkout whose programs are tried."""

import os
import re
import sys
import tempfile
from pathlib import Path

sys.path.append(str(Path(__file__).resolve().parents[1]))

from documents import DOCUMENTS, NO_SCRIPT  # noqa: E402
from marked import said_of  # noqa: E402
from refused import NOT_ORDERED, OF_SCRIPTS, UNDONE, with_all_notes, with_parts  # noqa: E402
from runner import TOP, Checks, Printed, built, run, status_of  # noqa: E402
from program_texts import asked_text  # noqa: E402
from unread import OF_MISSING, PLAIN, UNREAD  # noqa: E402
from words import TEXT, WORDS  # noqa: E402

PROGRAMS = ("eevdf", "eevdf_orders", "eevdf_timeline")

HEADER = (TOP / "include" / "eevdf.h").read_text()
# The version of the library, which the programs have too.
VERSION = ".".join(re.search(rf"^#define EEVDF_VERSION_{part} (\d+)$", HEADER, re.MULTILINE)[1] for part in ("MAJOR", "MINOR", "PATCH"))

# A workload for each program alone, with what comes on standard error behind the line of the fault.
WITH_ORDER = b'version = 1\nprogram = [["pick"]]\norder = [0]\n[[task]]\n'
ORDERED = "this order is there already, and `eevdf replay` plays it"
OTHER_SOURCES = "a workload with an order is drawn with --replay, and one of programs alone with --run\n"


def look(checks, name, printed, wanted):
    checks.expect(name, printed, printed == wanted)


def check_table(checks, programs, cases):
    for case in cases:
        printed = run([programs.path(case.program), *case.words], case.text)
        look(checks, case.name, printed, Printed(case.line.encode(), case.status, case.said.encode()))


def check_others(checks, programs):
    """The programs that print their lines on standard error say the same there, behind the line."""
    for case in DOCUMENTS[:12]:
        wanted = Printed(b"", case.status, (case.line + case.said).encode())
        for program in ("eevdf_orders", "eevdf_timeline"):
            look(checks, f"{program}: {case.name}", run([programs.path(program)], case.text), wanted)
    said = f"fault: missing script\n{said_of('', NO_SCRIPT)}{OTHER_SOURCES}"
    look(checks, "eevdf_timeline without a script", run([programs.path("eevdf_timeline")], WITH_ORDER), Printed(b"", 1, said.encode()))
    ordered = run([programs.path("eevdf_orders")], WITH_ORDER)
    order = said_of(WITH_ORDER.decode().replace("order = [0]", "order = «[0]»"), ORDERED)
    look(checks, "eevdf_orders of an order", ordered, Printed(b"", 1, f"fault: workload has an order already\n{order}".encode()))


def check_unread(checks, programs):
    """Keys that nothing reads are told, and all else is as without them."""
    for program, words in (("eevdf", ["solo"]), ("eevdf_orders", []), ("eevdf_timeline", ["--stats"])):
        command = [programs.path(program), *words]
        # their script isn't ordered
        behind = NOT_ORDERED if program == "eevdf_orders" else ""
        plain = run(command, PLAIN.encode())
        look(checks, f"{program}: no key that nothing reads", plain, Printed(plain.out, 0, behind.encode()))
        for case in UNREAD:
            printed = run(command, case.text)
            told = Printed(printed.out if program == "eevdf_orders" else plain.out, 0, (case.said + behind).encode())
            look(checks, f"{program}: {case.name}", printed, told)


def check_refused(checks, programs):
    """Deeds that are refused are told, and all else is as it is, but under `--strict`."""
    eevdf = programs.path("eevdf")
    for case in (*OF_SCRIPTS, with_all_notes()):
        for words in ([], ["--history"]):
            report = run([eevdf, "solo", *words], case.text)
            is_report = (report.status, report.errors) == (0, case.said.encode()) and report.out.startswith(b"cpu 0\n")
            checks.expect(f"eevdf solo {words}: {case.name}", report, is_report)
            fault = Printed(f"fault: refused deed at script at {case.first}\n".encode(), 1, case.said.encode())
            strict = run([eevdf, "solo", "--strict", *words], case.text)
            look(checks, f"eevdf solo --strict {words}: {case.name}", strict, report if case.first is None else fault)
    for case in OF_SCRIPTS:
        drawn = run([programs.path("eevdf_timeline"), "--stats"], case.text)
        checks.expect(f"eevdf_timeline: {case.name}", drawn, (drawn.status, drawn.errors) == (0, case.said.encode()))


def check_undone(checks, programs):
    """What a command doesn't do of a workload is told in a line."""
    for command, parts, said in UNDONE:
        text = with_parts(parts)
        printed = run([programs.path("eevdf"), command], text)
        is_told = (printed.status, printed.errors) == (0, said.encode()) and printed.out.startswith(b"cpu 0\n")
        checks.expect(f"eevdf {command} of {parts!r}", printed, is_told)
    for parts, said in ((parts, NOT_ORDERED if "script" in parts else "") for _, parts, _ in UNDONE if "order" not in parts):
        printed = run([programs.path("eevdf_orders")], with_parts(parts))
        checks.expect(f"eevdf_orders of {parts!r}", printed, (printed.status, printed.errors) == (0, said.encode()))


def of_file(name, said):
    """What is said of a workload, as it is said of a file: each line with a place begins with the name."""
    return re.sub(r"^line (\d+), column (\d+): ", rf"{name}:\1:\2: ", said, flags=re.MULTILINE)


def check_files(checks, programs, folder):
    """A file in any place behind the command is read in place of standard input, and `-` stands for that."""
    file = Path(folder) / "workload.toml"
    file.write_bytes(TEXT)
    for program, command, words in (("eevdf", ["solo"], []), ("eevdf", ["solo"], ["--history"]),
                                    ("eevdf", ["solo"], ["--strict"]), ("eevdf_orders", [], []), ("eevdf_orders", [], ["--seed", "7"]), ("eevdf_timeline", [], []),
                                    ("eevdf_timeline", [], ["--stats"]), ("eevdf_timeline", [], ["--cpu", "0", "--perfetto"])):
        given = run([programs.path(program), *command, *words], TEXT)
        for name, data in ((str(file), b""), ("-", TEXT)):
            for order in ([*words, name], [name, *words]):
                named = run([programs.path(program), *command, *order], data)
                checks.expect(f"{program} {' '.join((*command, *order))}", named, given.status == 0 and named == given)


def check_file_names(checks, programs, folder):
    """What is said of a file begins with its name."""
    eevdf, file = programs.path("eevdf"), Path(folder) / "faulty.toml"
    for case in (*DOCUMENTS, *OF_MISSING):
        file.write_bytes(case.text)
        said = of_file(file, case.said)
        wanted = said if case.said.startswith("line ") else f"{file}: {said}"
        look(checks, f"{case.name}, in a file", run([eevdf, *case.words, file]), Printed(case.line.encode(), case.status, wanted.encode()))
    for case in (*UNREAD, *OF_SCRIPTS):
        file.write_bytes(case.text)
        said = of_file(file, case.said)
        wanted = f"{file}: {said}" if said.startswith("script at ") else said
        printed = run([eevdf, "solo", file])
        checks.expect(f"{case.name}, in a file", printed, (printed.status, printed.errors) == (0, wanted.encode()))
    named = Path(folder) / "a\x1b[31mb.toml"
    named.write_bytes(b"version = 5\n")
    printed = run([eevdf, "solo", named])
    shown = f"{folder}/a\\u{{1b}}[31mb.toml:1:11: ".encode()
    checks.expect("a name with what a terminal would obey", printed, printed.errors.startswith(shown) and b"\x1b" not in printed.errors)


def check_unreadable(checks, programs, folder):
    """A folder can be opened and not read: its name is said, and why."""
    said = f"{folder}: Is a directory (os error 21)\n"
    look(checks, "eevdf solo of a folder", run([programs.path("eevdf"), "solo", folder]), Printed(b"fault: reading\n", 3, said.encode()))
    for program in ("eevdf_orders", "eevdf_timeline"):
        printed = run([programs.path(program), folder])
        look(checks, f"{program} of a folder", printed, Printed(b"", 3, f"fault: reading\n{said}".encode()))


def check_help(checks, programs):
    for program in PROGRAMS:
        for words in (["--help"], ["-h"], ["solo", "--help"]):
            printed = run([programs.path(program), *words])
            lines = printed.out.decode().splitlines()
            is_help = (printed.status, printed.errors) == (0, b"") and len(lines) > 8 and lines[2].startswith(f"usage: {program} ")
            told = all(any(line.lstrip().startswith(word) for line in lines) for word in ("FILE", "--help", "--version", "example: "))
            checks.expect(f"{program} {' '.join(words)}", printed, is_help and told and "docs/formats.md" in printed.out.decode())
            checks.look(f"{program} {' '.join(words)}, unbuilt", None if asked_text(program, words).encode() == printed.out else "is another text")
        look(checks, f"{program} --version", run([programs.path(program), "--version"]), Printed(f"{program} {VERSION}\n".encode()))
        look(checks, f"{program} --version, unbuilt", asked_text(program, ["--version"]), f"{program} {VERSION}\n")


def check_writes(checks, programs):
    """A write that fails is told on standard error, and a pipe that nobody reads isn't."""
    words = {"eevdf": ["solo"], "eevdf_orders": [], "eevdf_timeline": []}
    for program, asked in ((program, asked) for program in PROGRAMS for asked in (words[program], ["--help"], ["--version"])):
        command = [programs.path(program), *asked]
        if Path("/dev/full").is_char_device():
            with open("/dev/full", "wb") as full:
                look(checks, f"{program} {asked} into a full device", run(command, TEXT, stdout=full), Printed(b"", 3, b"fault: writing\n"))
        else:
            checks.leave_out(f"{program} {asked} into a full device", "there is no /dev/full")
        reading, writing = os.pipe()
        os.close(reading)
        with open(writing, "wb") as pipe:
            look(checks, f"{program} {asked} into a pipe that nobody reads", run(command, TEXT, stdout=pipe), Printed(b"", 3))
        closed = run(["sh", "-c", '"$@" >&-', "sh", *map(str, command)], TEXT)
        look(checks, f"{program} {asked} without a standard output", closed, Printed(b"", 3, b"fault: writing\n"))


def main():
    checks = Checks(are_many=True)
    programs = built(*PROGRAMS)
    chosen = sys.argv[1:]
    cases = (*DOCUMENTS, *OF_MISSING, *WORDS)
    check_table(checks, programs, [case for case in cases if not chosen or any(word in case.name for word in chosen)])
    if not chosen:
        check_others(checks, programs)
        check_unread(checks, programs)
        check_refused(checks, programs)
        check_undone(checks, programs)
        with tempfile.TemporaryDirectory() as folder:
            check_files(checks, programs, folder)
            check_file_names(checks, programs, folder)
            check_unreadable(checks, programs, folder)
        check_help(checks, programs)
        check_writes(checks, programs)
    return checks.end()


sys.exit(status_of(main))

"""Words, files and streams: `eevdf_phases` says of them what the other programs of the workbench say, with their statuses."""

import os
import tempfile
from pathlib import Path

from runner import TOP, Printed, run
from program_texts import asked_text

USAGE = "usage: eevdf_phases [--from trace] [--run|--stats] [FILE]\n"
UNKNOWN = "words are --run or --stats, --from trace, and the name of a file\n"
TOGETHER = "--run and --stats exclude each other, and each stands once\n"
TEXT = (TOP / "examples" / "phases" / "web-server.toml").read_bytes()

# (words, what is said behind the line of usage)
WORDS = [
    (["--rum"], f'unknown word "--rum"; {UNKNOWN}'),
    (["--run=1"], f'unknown word "--run=1"; {UNKNOWN}'),
    ([""], f"unknown word the end; {UNKNOWN}"),
    (["a", "b"], 'one file is read, and "b" is another\n'),
    (["a", "-"], 'one file is read, and "-" is another\n'),
    (["-", "-"], 'one file is read, and "-" is another\n'),
    (["--run", "--run"], TOGETHER),
    (["--run", "--stats"], TOGETHER),
    (["--from", "trace", "--run", "--stats"], TOGETHER),
    (["--from", "track"], 'unknown value "track" of --from, which is trace\n'),
    (["--from", "--run"], 'unknown value "--run" of --from, which is trace\n'),
    (["--run", "--from"], "behind --from stands trace\n"),
    (["--from=track"], f'unknown word "--from=track"; {UNKNOWN}'),
    (["--from", "trace", "--from=trace"], "--from stands once\n"),
    (["--from", "trace", "a", "b"], 'one file is read, and "b" is another\n'),
    (["no-such-file"], "no-such-file: No such file or directory (os error 2)\n"),
    (["no\x1b[31mfile", "--run"], "no\\u{1b}[31mfile: No such file or directory (os error 2)\n"),
]


def check_said(checks, program):
    for words, said in WORDS:
        printed = run([program, *words], TEXT)
        checks.expect(f"words {words}", printed, printed == Printed(b"", 2, (USAGE + said).encode()))
    printed = run([program, b"\xff"], TEXT)
    checks.expect("a word that isn't UTF-8", printed, printed == Printed(b"", 2, USAGE.encode()))
    for words in (["--help"], ["-h"], ["--run", "--help"]):
        printed = run([program, *words])
        is_same = asked_text("eevdf_phases", words).encode() == printed.out
        checks.expect(f"{words}", printed, (printed.status, printed.errors) == (0, b"") and USAGE.encode() in printed.out and is_same)
    printed = run([program, "--version"])
    checks.expect("--version", printed, printed.status == 0 and printed.out.startswith(b"eevdf_phases 0."))


def check_files(checks, program):
    file = TOP / "examples" / "phases" / "web-server.toml"
    for flag in ([], ["--run"], ["--stats"]):
        given = run([program, *flag], TEXT)
        for words, data in (([file], b""), (["-"], TEXT)):
            for order in ([*words, *flag], [*flag, *words]):
                printed = run([program, *order], data)
                checks.expect(f"words {order}", printed, given.status == 0 and printed == given)
    with tempfile.TemporaryDirectory() as folder:
        said = f"fault: reading\n{folder}: Is a directory (os error 21)\n"
        printed = run([program, folder])
        checks.expect("a folder", printed, printed == Printed(b"", 3, said.encode()))


def check_writes(checks, program):
    """A write that fails is told on standard error, and a pipe that nobody reads isn't."""
    for words in ([], ["--run"], ["--stats"], ["--help"], ["--version"]):
        if Path("/dev/full").is_char_device():
            with open("/dev/full", "wb") as full:
                printed = run([program, *words], TEXT, stdout=full)
            checks.expect(f"{words} into a full device", printed, printed == Printed(b"", 3, b"fault: writing\n"))
        else:
            checks.leave_out(f"{words} into a full device", "there is no /dev/full")
        reading, writing = os.pipe()
        os.close(reading)
        with open(writing, "wb") as pipe:
            printed = run([program, *words], TEXT, stdout=pipe)
        checks.expect(f"{words} into a pipe that nobody reads", printed, printed == Printed(b"", 3))


def check_words(checks, programs):
    program = programs.path("eevdf_phases")
    check_said(checks, program)
    check_files(checks, program)
    check_writes(checks, program)

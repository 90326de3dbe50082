"""Words that the programs don't take, and what each says of itself."""

from marked import Case

USAGE = {
    "eevdf": "usage: eevdf solo|replay|run [--history] [--times] [solo: --strict] [FILE]\n",
    "eevdf_orders": "usage: eevdf_orders [--seed N] [FILE]\n",
    "eevdf_timeline": "usage: eevdf_timeline [--replay [--race]|--run] [--html|--perfetto|--table|--stats [--json]] [--rows cpus|tasks]"
                      " [--width PX] [--from NS] [--to NS] [--cpu N,..] [--task N,..] [FILE]\n",
}
COMMANDS = "commands are solo, replay, run\n"
BEHIND = "behind a command stand --history, --times, of solo --strict, and the name of a file\n"
STRICT = "--strict stands once, behind solo\n"
NO_SEED = "--seed takes a whole number below 2^64, and"
NOT_THERE = "no-such-folder/workload.toml"
TEXT = b'version = 1\nprogram = [[]]\nscript = ["0 pick"]\n[[task]]\n'


def words(program, given, said):
    """What is said of words: of `eevdf` the usage line stands on standard output."""
    first = USAGE[program]
    on_output = program == "eevdf"
    return Case(f"{program} {given}", TEXT, first if on_output else "", ("" if on_output else first) + said, tuple(given.split()), program, 2)


WORDS = (
    words("eevdf", "", f"no command; {COMMANDS}"),
    words("eevdf", "sol", f'unknown command "sol"; {COMMANDS}'),
    words("eevdf", "--history solo", f'unknown command "--history"; {COMMANDS}'),
    words("eevdf", "solo --histories", f'unknown word "--histories"; {BEHIND}'),
    words("eevdf", "solo a b", 'one file is read, "a", and "b" is another\n'),
    words("eevdf", "solo --history a - b", 'one file is read, "a", and "-" is another\n'),
    words("eevdf", f"solo {NOT_THERE} --histories", f'unknown word "--histories"; {BEHIND}'),
    words("eevdf", "solo --history --history", "--history stands once\n"),
    words("eevdf", "solo --times --history --times", "--times stands once\n"),
    words("eevdf", "replay --times --times", "--times stands once\n"),
    words("eevdf", "solo --times=1", f'unknown word "--times=1"; {BEHIND}'),
    words("eevdf", "--times solo", f'unknown command "--times"; {COMMANDS}'),
    words("eevdf", "solo --strict --history --strict", STRICT),
    words("eevdf", "replay --strict", STRICT),
    words("eevdf", "run --strict --history", STRICT),
    words("eevdf", "solo --strict=1", f'unknown word "--strict=1"; {BEHIND}'),
    words("eevdf", "--strict solo", f'unknown command "--strict"; {COMMANDS}'),
    words("eevdf", f"solo {NOT_THERE} --history", f"{NOT_THERE}: No such file or directory (os error 2)\n"),
    words("eevdf", "solo no\x1b[31mfile", "no\\u{1b}[31mfile: No such file or directory (os error 2)\n"),
    words("eevdf", f"solo {NOT_THERE}", f"{NOT_THERE}: No such file or directory (os error 2)\n"),
    words("eevdf_orders", "--seed", "--seed stands once, and takes a whole number below 2^64\n"),
    words("eevdf_orders", "--seed x", f'{NO_SEED} "x" is none\n'),
    words("eevdf_orders", "--seed -1", f'{NO_SEED} "-1" is none\n'),
    words("eevdf_orders", "a b", 'one file is read, and "b" is another\n'),
    words("eevdf_orders", f"{NOT_THERE} --seed 1", f"{NOT_THERE}: No such file or directory (os error 2)\n"),
    words("eevdf_orders", "--seeds 1", 'unknown word "--seeds"; words are --seed with a number, and the name of a file\n'),
    words("eevdf_orders", "--sed 1", 'unknown word "--sed"; words are --seed with a number, and the name of a file\n'),
    words("eevdf_orders", "--seed 1 --seed 2", "--seed stands once, and takes a whole number below 2^64\n"),
    words("eevdf_timeline", "--replay --run", "--replay and --run exclude each other\n"),
    words("eevdf_timeline", "--json", "--json stands with --stats\n"),
    words("eevdf_timeline", "--perfetto --stats", "--perfetto excludes --stats and --json\n"),
    words("eevdf_timeline", "--table --stats", "--table excludes --perfetto, --stats and --json\n"),
    words("eevdf_timeline", "--html --stats", "--html excludes --perfetto, --table, --stats and --json\n"),
    words("eevdf_timeline", "--perfetto --html", "--html excludes --perfetto, --table, --stats and --json\n"),
    words("eevdf_timeline", "--perfetto --table", "--table excludes --perfetto, --stats and --json\n"),
    words("eevdf_timeline", "--rows both", '--rows takes cpus or tasks, and "both" is neither\n'),
    words("eevdf_timeline", "--rows=tasks --table", "rows are of a picture: --rows excludes --perfetto, --table and --stats\n"),
    words("eevdf_timeline", "--width 319", '--width takes a whole number of pixels from 320 to 10000, and "319" is none\n'),
    words("eevdf_timeline", "--width=10001", '--width takes a whole number of pixels from 320 to 10000, and "10001" is none\n'),
    words("eevdf_timeline", "--width 400 --table", "a width is of a picture: --width excludes --perfetto, --table and --stats\n"),
    words("eevdf_timeline", "--replay --race --width 400", "a race is as wide as its steps: --race excludes --width\n"),
    words("eevdf_timeline", "--race", "--race stands with --replay\n"),
    words("eevdf_timeline", "--run --race", "--race stands with --replay\n"),
    words("eevdf_timeline", "--replay --race --html", "--race excludes --html, --perfetto, --table, --stats and --json\n"),
    words("eevdf_timeline", "--replay --race --cpu 0", "a race is of all CPUs and tasks: --race excludes --rows, --cpu and --task\n"),
    words("eevdf_timeline", "--from 5 --to 3", "the time of --to is after that of --from, which is 0 where it isn't given; each stands once\n"),
    words("eevdf_timeline", "--from x", '--from takes a whole number of nanoseconds below 2^64, and "x" is none\n'),
    words("eevdf_timeline", "--to", "--to takes a value, and none stands behind it\n"),
    words("eevdf_timeline", "--cpu 64", '--cpu takes numbers from 0 to 63 with commas between them, and "64" is none\n'),
    words("eevdf_timeline", "--task 5000", '--task takes numbers from 0 to 1023 with commas between them, and "5000" is none\n'),
    words("eevdf_timeline", "--cpu 9", "--cpu 9: the workload has no CPU 9\n"),
    words("eevdf_timeline", "--task 0,8", "--task 8: the workload has no task 8\n"),
    words("eevdf_timeline", "--cpu=", '--cpu takes numbers from 0 to 63 with commas between them, and the end is none\n'),
    words("eevdf_timeline", "--cpu=64 --run", '--cpu takes numbers from 0 to 63 with commas between them, and "64" is none\n'),
    words("eevdf_timeline", "--from=x", '--from takes a whole number of nanoseconds below 2^64, and "x" is none\n'),
    words("eevdf_timeline", "--json --from=1", "--json stands with --stats\n"),
    words("eevdf_timeline", "a --cpu 0 b", 'one file is read, and "b" is another\n'),
    words("eevdf_timeline", f"{NOT_THERE} --stats", f"{NOT_THERE}: No such file or directory (os error 2)\n"),
    words("eevdf_timeline", "--rerun", 'unknown word "--rerun"; --help names those that are known\n'),
)

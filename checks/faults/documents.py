"""Faulty workloads, each with the line of its fault (docs/formats.md) and what is expected at the place that is marked."""

from marked import Case, document

NO_TOML = "not a TOML document"
TASKS = "[[task]]\n[[task]]\nhome = 1\n"
# The words that are known, by version.
IN_SCRIPTS_OF_ONE = "operations are tick, pick, yield, sleep, pull, wake"
IN_PROGRAMS_OF_ONE = "operations are tick, pick, yield, sleep, pull, post, drain"
IN_SCRIPTS = "operations are tick, pick, yield, sleep, pull, renice, wake"
IN_PROGRAMS = "operations are tick, pick, yield, sleep, pull, renice, post, drain"
IN_SCRIPTS_OF_THREE = "operations are tick, pick, yield, sleep, pull, renice, begin, end, set, rebase, wake"
IN_PROGRAMS_OF_THREE = "operations are tick, pick, yield, sleep, pull, renice, begin, end, set, rebase, post, drain"
IN_SCRIPTS_OF_FOUR = "operations are tick, pick, yield, sleep, pull, renice, begin, end, set, rebase, doze, wake"
IN_PROGRAMS_OF_FOUR = "operations are tick, pick, yield, sleep, pull, renice, begin, end, set, rebase, doze, post, drain"
NEAREST = "the nearest that is known is"
NO_NUMBER = 'the number of a CPU stands in scripts alone; an operation of a program begins with its word, as "pick"'
NO_WAKE = '"wake" stands in scripts alone; in programs "post" asks for a wake, and "drain" does it'
NO_SLICE = "a slice is a number of nanoseconds from 100000 to 100000000, and"
PHASES = "version = 1\nmachine = { lasts = '1ms' }\n"
OF_PHASES = "this is a workload of phases, of which `eevdf_phases` makes one of a script"
NO_SCRIPT = 'a script is done, and the workload has none: `script = ["0 pick", ..]` before the first [[task]]'


def script(name, message, deed, place="0", version=2):
    """A script of one faulty deed behind others, on two CPUs with a task each."""
    good = '"0 pick", ' * int(place)
    text = f"version = {version}\nprogram = [[], []]\nscript = [{good}{deed}]\n{TASKS}"
    return document(name, f"bad value at script at {place}", message, text)


def operation(name, message, text, line="bad value at program 0 at 0", version=2):
    """A program of one faulty operation, on two CPUs with a task each."""
    return document(name, line, message, f"version = {version}\nprogram = [[{text}], []]\n{TASKS}", ("run",))


def key(name, at, message, pair):
    """A task, the second one, with a faulty key."""
    return document(name, f"bad value at task 1 {at}", message, f"version = 1\nprogram = [[]]\n[[task]]\n[[task]]\n{pair}\n")


OF_TOML = (
    document("a comma is missing", NO_TOML, "missing comma between array elements, expected `,` or `]`",
             "version = 1\nprogram = [[] «»[]]\n[[task]]\n"),
    document("a key is doubled", NO_TOML, "duplicate key", "version = 1\n«version = 1»\nprogram = [[]]\n[[task]]\n"),
    document("a number of 20 digits", NO_TOML, "number out of range",
             "version = 1\nprogram = [[]]\n[[task]]\nstart = «12345678901234567890»\n"),
    document("a key without a value", NO_TOML, "key with no value, expected `=`", "version = 1\nprogram«»\n"),
    document("a header that isn't closed", NO_TOML, "unclosed array table, expected `]]`", "version = 1\nprogram = [[]]\n[[task]«»\n"),
    document("a second value on a line", NO_TOML, "unexpected key or value, expected newline, `#`", "version = [1] «»2\nprogram = [[]]\n"),
    document("a word for a value", NO_TOML,
             "invalid value, expected a string, number, boolean, date-time, array or inline table",
             "version = «one»\nprogram = [[]]\n[[task]]\n"),
    Case("a byte that is no UTF-8", b"version = 1\nprogram = [[\"\xff\"]]\n", f"fault: {NO_TOML}\n", "line 2, column 14: invalid UTF-8\n"),
)

OF_DEEDS = (
    script("an unknown operation", f'unknown operation "slep"; {NEAREST} sleep', '"0 «slep» 1"'),
    script("two letters of an operation in the other order", f'unknown operation "pcik"; {NEAREST} pick', '"0 «pcik»"', version=1),
    script("an operation with a capital", 'unknown operation "Pick"; words are in lower case, as pick', '"0 «Pick»"'),
    script("an operation in capitals", 'unknown operation "SLEEP"; words are in lower case, as sleep', '"0 «SLEEP» 1"'),
    script("an operation of a later version in capitals", f'unknown operation "DOZE"; {IN_SCRIPTS}', '"0 «DOZE» 1"'),
    script("an unknown operation like none", f'unknown operation "nap"; {IN_SCRIPTS}', '"0 «nap» 1"'),
    script("an unknown operation like none in version 1", f'unknown operation "nap"; {IN_SCRIPTS_OF_ONE}', '"0 «nap» 1"', version=1),
    script("an operation like one of a later version", f'unknown operation "renise"; {IN_SCRIPTS_OF_ONE}', '"0 «renise» 0 5"', version=1),
    script("an operation like one of programs", f'unknown operation "drian"; {IN_SCRIPTS}', '"0 «drian»"'),
    script("the second of two equal deeds that differ in a word", f'unknown operation "pic"; {NEAREST} pick', '"0 «pic»"', "2"),
    script("two spaces", "one space stands between two words, and none before or after", '"0 « »pick"'),
    script("a space in front", "one space stands between two words, and none before or after", '"« »0 pick"'),
    script("a space at the end", "one space stands between two words, and none before or after", '"0 pick« »"'),
    script("an unknown task", "task 7 is not in the workload, which has tasks 0 to 1", '"0 sleep «7»"'),
    script("a wake away from home", "task 1 sleeps and wakes at its home, CPU 1", '"«0» wake 1 from 1"'),
    script("a long tick", "tick of 2000000000 ns; at most 1000000000", '"0 tick «2000000000»"'),
    script("a tick of no time", "tick of 0 ns; at least 1", '"0 tick «0»"'),
    script("a tick of 20 digits", "tick of 99999999999999999999 ns; at most 1000000000", '"0 tick «99999999999999999999»"'),
    script("a tick without a time", "a tick takes a time in nanoseconds, 1 to 1000000000, and the end is none", '"0 tick«»"'),
    script("a tick with an underscore", 'a tick takes a time in nanoseconds, 1 to 1000000000, and "1_000" is none', '"0 tick «1_000»"'),
    script("a zero in front", 'a number has no 0 in front, as "05" has', '"0 tick «05»"'),
    script("a deed without a CPU", 'a deed begins with the number of its CPU, as "0 pick"', '"«pick»"'),
    script("a CPU that the workload hasn't", "CPU 2 is not in the workload, which has CPUs 0 to 1", '"«2» pick"'),
    script("a pull from nowhere", "CPU 9 is not in the workload, which has CPUs 0 to 1", '"0 pull «9»"'),
    script("a pull from itself", "CPU 1 pulls from itself", '"1 pull «1»"'),
    script("a post in a script", f'"post" stands in programs alone; operations of a script are {IN_SCRIPTS.split(" are ")[1]}',
           '"0 «post» 1"'),
    script("a drain in a script of version 1",
           f'"drain" stands in programs alone; operations of a script are {IN_SCRIPTS_OF_ONE.split(" are ")[1]}', '"0 «drain»"', version=1),
    script("a word too many", 'nothing is expected any more, and "now" stands here', '"0 pick «now»"'),
    script("a wake without a sender", 'a wake names the CPU that asks for it, as "0 wake 3 from 1"', '"1 wake 1«»"'),
    script("a wake by an unknown sender", "CPU 5 is not in the workload, which has CPUs 0 to 1", '"1 wake 1 from «5»"'),
    script("a nice level too high", 'a nice level is a number from -20 to 19, and "20" is none', '"0 renice 0 «20»"'),
    script("a renice in version 1", '"renice" is known from version 2 on', '"0 «renice» 0 5"', version=1),
    script("a begin in version 2", '"begin" is known from version 3 on', '"0 «begin» 0 5 3000000"'),
    script("an end in version 1", '"end" is known from version 3 on', '"0 «end» 0"', version=1),
    script("a set in version 2", '"set" is known from version 3 on', '"0 «set» 0 5 3000000"'),
    script("a rebase in version 2", '"rebase" is known from version 3 on', '"0 «rebase»"'),
    script("a doze in version 3", '"doze" is known from version 4 on', '"0 «doze» 0"', version=3),
    script("an unknown operation in version 3", f'unknown operation "nap"; {IN_SCRIPTS_OF_THREE}', '"0 «nap» 1"', version=3),
    script("an unknown operation like one of version 3", f'unknown operation "rebaes"; {NEAREST} rebase', '"0 «rebaes»"', version=3),
    script("a post in a script of version 3",
           f'"post" stands in programs alone; operations of a script are {IN_SCRIPTS_OF_THREE.split(" are ")[1]}', '"0 «post» 1"', version=3),
    script("a begin away from home", "task 1 begins at its home, CPU 1", '"«0» begin 1 0 3000000"', version=3),
    script("a begin of an unknown task", "task 2 is not in the workload, which has tasks 0 to 1", '"0 begin «2» 0 3000000"', version=3),
    script("a begin without a level", 'a nice level is a number from -20 to 19, and the end is none', '"0 begin 0«»"', version=3),
    script("a begin without a slice", f"{NO_SLICE} the end is none", '"0 begin 0 5«»"', version=3),
    script("a slice too short", f'{NO_SLICE} "99999" is none', '"0 begin 0 5 «99999»"', version=3),
    script("a slice too long", f'{NO_SLICE} "100000001" is none', '"0 set 0 5 «100000001»"', version=3),
    script("a slice with a zero in front", 'a number has no 0 in front, as "0100000" has', '"0 set 0 5 «0100000»"', version=3),
    script("a word behind a slice", 'nothing is expected any more, and "0" stands here', '"0 set 0 5 3000000 «0»"', version=3),
    script("an end of two tasks", 'nothing is expected any more, and "1" stands here', '"0 end 0 «1»"', version=3),
    script("an end of an unknown task", "task 9 is not in the workload, which has tasks 0 to 1", '"0 end «9»"', version=3),
    script("a rebase by a number", 'nothing is expected any more, and "5" stands here', '"0 rebase «5»"', version=3),
    script("an unknown operation in version 4", f'unknown operation "nap"; {IN_SCRIPTS_OF_FOUR}', '"0 «nap» 1"', version=4),
    script("an unknown operation like one of version 4", f'unknown operation "dose"; {NEAREST} doze', '"0 «dose» 0"', version=4),
    script("a doze without a task", "the number of a task is expected, and the end is none", '"0 doze«»"', version=4),
    script("a doze of two tasks", 'nothing is expected any more, and "1" stands here', '"0 doze 0 «1»"', version=4),
    script("a doze of an unknown task", "task 9 is not in the workload, which has tasks 0 to 1", '"0 doze «9»"', version=4),
    script("a number for a deed", 'a deed is a string, as "0 tick 1000000", and this is of type integer', "«7»"),
    script("a deed between other quotes", f'unknown operation "slep"; {NEAREST} sleep', "'0 «slep» 1'"),
    script("a deed with an escape", f'unknown operation "slep"; {NEAREST} sleep', '«"0 sl\\u0065p 1"»'),
    script("a word that a terminal would obey", f'unknown operation "\\u{{1b}}[31m"; {IN_SCRIPTS}', '«"0 \\u001b[31m"»'),
    document("a deed behind a comment with quotes", "bad value at script at 1", f'unknown operation "slep"; {NEAREST} sleep',
             'version = 1\nprogram = [[], []]\nscript = [ # "0 slep", ]\n  "0 pick", # [\n  "0 «slep»",\n]\n' + TASKS),
    document("a deed behind letters of two bytes", "bad value at script at 0", f'unknown operation "slep"; {NEAREST} sleep',
             'version = 1\nprogram = [[], []]\n"script" = [ "0 «slep» äöü" ] # äöü\n' + TASKS),
)

OF_OPERATIONS = (
    operation("an unknown operation of a program", f'unknown operation "nap"; {IN_PROGRAMS}', '"«nap»"'),
    operation("a wake in a program", NO_WAKE, '"«wake» 1 from 0"'),
    operation("an operation with the number of a CPU", NO_NUMBER, '"«0» pick"'),
    operation("an operation with the number of a CPU that isn't there", NO_NUMBER, '"pick", "«12» wake 1 from 0"',
              "bad value at program 0 at 1"),
    operation("an operation of a program with a letter too few", f'unknown operation "drin"; {NEAREST} drain', '"«drin»"'),
    operation("an operation of a program like one of scripts", f'unknown operation "waek"; {IN_PROGRAMS}', '"«waek» 1"'),
    operation("an operation of a program that is like none in version 1", f'unknown operation "nap"; {IN_PROGRAMS_OF_ONE}', '"«nap»"',
              version=1),
    operation("a boolean for an operation", 'an operation is a string, as "tick 1000000", and this is of type boolean', "«true»"),
    operation("a task of a program that the workload hasn't", "task 5 is not in the workload, which has tasks 0 to 1",
              '"pick", "sleep «5»"', "unknown task at program 0 at 1"),
    operation("a program that pulls from its own CPU", "CPU 0 pulls from itself", '"pull «0»"', "bad pull at program 0 at 0"),
    operation("a program that pulls from nowhere", "CPU 7 is not in the workload, which has CPUs 0 to 1", '"pull «7»"',
              "bad pull at program 0 at 0"),
    operation("an unknown operation of a program in version 3", f'unknown operation "nap"; {IN_PROGRAMS_OF_THREE}', '"«nap»"', version=3),
    operation("a begin of a program in version 2", '"begin" is known from version 3 on', '"«begin» 0 0 3000000"'),
    operation("a program that begins a task of another home", "task 1 begins at its home, CPU 1", '"pick", "begin «1» 0 3000000"',
              "bad begin at program 0 at 1", version=3),
    operation("a program that begins a task that the workload hasn't", "task 2 is not in the workload, which has tasks 0 to 1",
              '"begin «2» 0 3000000"', "unknown task at program 0 at 0", version=3),
    operation("a program that ends a task that the workload hasn't", "task 5 is not in the workload, which has tasks 0 to 1",
              '"end «5»"', "unknown task at program 0 at 0", version=3),
    operation("a program that sets a level alone", f"{NO_SLICE} the end is none", '"set 0 5«»"', version=3),
    operation("a doze of a program in version 2", '"doze" is known from version 4 on', '"«doze» 0"'),
    operation("an unknown operation of a program in version 4", f'unknown operation "nap"; {IN_PROGRAMS_OF_FOUR}', '"«nap»"', version=4),
    operation("a program in which a task dozes that the workload hasn't", "task 5 is not in the workload, which has tasks 0 to 1",
              '"doze «5»"', "unknown task at program 0 at 0", version=4),
    operation("an operation too long to be told", f'unknown operation "{"x" * 40}"..; {IN_PROGRAMS}', '"«' + "x" * 300 + '»"'),
    operation("an operation far to the right", f'unknown operation "nap"; {IN_PROGRAMS}', " " * 500 + '"«nap»"'),
    document("a program that is no list", "bad value at program 1", "the program of a CPU is an array of strings, and this is of type string",
             f'version = 1\nprogram = [[], «"pick"»]\n{TASKS}', ("run",)),
)

OF_KEYS = (
    document("no version", "missing version",
             "a workload has a line `version = 1`, `version = 2`, `version = 3` or `version = 4`, before the first [[task]]",
             "program = [[]]\n[[task]]\n"),
    document("an unknown version", "bad value at version", "the version is the integer 1, 2, 3 or 4", "version = «5» # five\n"),
    document("a version in quotes", "bad value at version", "the version is the integer 1, 2, 3 or 4", 'version = «"1"»\n'),
    document("no task", "missing task", "a workload has a table [[task]] for each task", "version = 1\nprogram = [[]]\n"),
    document("a task that is a table", "bad value at task", "task is an array of tables, written [[task]], and this is of type table",
             "version = 1\nprogram = [[]]\n«[task]»\n"),
    document("a task that is a number", "bad value at task 1", "a task is a table, and this is of type integer",
             "version = 1\nprogram = [[]]\ntask = [{}, «5»]\n"),
    document("no programs", "missing program",
             "a workload has a line `program = [[], ..]` with a list for each CPU, before the first [[task]]", "version = 1\n[[task]]\n"),
    document("a program below a task", "missing program",
             "program stands below a header, and so is a key of that table; it belongs before the first [[task]]",
             "version = 1\n[[task]]\n«program» = [[]]\n"),
    document("a script below a task", "missing script",
             "script stands below a header, and so is a key of that table; it belongs before the first [[task]]",
             'version = 1\nprogram = [[]]\n[[task]]\n«script» = ["0 pick"]\n'),
    document("no script", "missing script", NO_SCRIPT, "version = 1\nprogram = [[]]\n[[task]]\n"),
    document("no order", "missing order", "an order is played, and the workload has none: `order = [0, ..]` before the first [[task]]",
             "version = 1\nprogram = [[]]\n[[task]]\n", ("replay",)),
    document("a workload of phases", "missing program", OF_PHASES, f"{PHASES}[[task]]\nname = 'a'\nphases = [{{ run = '1ms' }}]\n"),
    document("a workload of phases whose slices have units", "bad value at task 0 slice", OF_PHASES, f"{PHASES}[[task]]\nslice = '3ms'\n"),
    document("a workload of phases without a task", "missing task", OF_PHASES, PHASES),
    document("a trace", NO_TOML, "this is a trace, of which `eevdf_phases --from trace` makes a workload",
             "# cpus=1\n  bash-23 [001] 5077.123456: sched_switch: bash:23 [120] S ==> cat:24 [120]\n"),
    document("a script that is a string", "bad value at script", "script is an array of strings, each a deed, and this is of type string",
             'version = 1\nprogram = [[]]\nscript = «"0 pick"»\n[[task]]\n'),
    document("an order with a sign", "bad value at order at 2", "a caller is an integer from 0 on",
             "version = 1\nprogram = [[]]\norder = [0,\n  0, «-1»]\n[[task]]\n", ("replay",)),
    key("a home that is text", "home", "home is the number of a CPU, an integer from 0 to 15 in version 1", 'home = «"0"»'),
    key("a home below 0", "home", "home is the number of a CPU, an integer from 0 to 15 in version 1", "home = «-1»"),
    key("a nice level of 20", "nice", "nice is an integer from -20 to 19", "nice = «20» # highest"),
    key("a slice too short", "slice", "slice is an integer from 100000 to 100000000, in nanoseconds", "nice = 3\nslice = «99_999»"),
    key("a start with a point", "start", "start is an integer, and this is of type float", "start = «0.5»"),
    key("a number for asleep", "asleep", "asleep is true or false, and this is of type integer", "asleep = «1»"),
    document("a key of an inline task", "bad value at task 1 nice", "nice is an integer from -20 to 19",
             "version = 1\nprogram = [[]]\ntask = [{home = 0, nice = 3}, {nice = «-21», home = 0}]\n"),
    document("a key of an inline task with a dot", "bad value at task 1 slice",
             "slice is an integer from 100000 to 100000000, in nanoseconds",
             "version = 1\nprogram = [[]]\ntask = [{slice = 100000}, {home = 0, «slice» . ns = 100000}]\n"),
    key("a nice level with a dot behind it", "nice", "nice is an integer from -20 to 19", "home = 0\n«nice».x = 3"),
    key("a nice level in quotes with a dot behind it", "nice", "nice is an integer from -20 to 19", '"«nice»".x.y = 3'),
    key("a table for a nice level", "nice", "nice is an integer from -20 to 19", "home = 0\n[task.«nice»]\nnice = 3"),
    key("tables for a start", "start", "start is an integer, and this is of type array", "[[task.«start»]]\n[[task.start]]"),
    key("a table in a table for asleep", "asleep", "asleep is true or false, and this is of type table", "[ task . «asleep» . x ]"),
    document("a table for a nice level of the first task", "bad value at task 0 nice", "nice is an integer from -20 to 19",
             "version = 1\nprogram = [[]]\n[[task]]\n[task.home2]\nnice = 3\n[task.«nice»]\n[[task]]\nnice = 3\n[[task]]\n[task.nice2]\n"),
    document("a program with a dot behind it", "bad value at program",
             "program is an array with a list for each CPU, and this is of type table", "version = 1\n«program».a = 1\n[[task]]\n"),
    document("a table that is the program", "bad value at program",
             "program is an array with a list for each CPU, and this is of type table", "version = 1\n[[task]]\n«[program]»\n"),
    document("a table in the program", "bad value at program",
             "program is an array with a list for each CPU, and this is of type table", "version = 1\n[[task]]\n[«program».a]\n"),
    document("a script with a dot behind it", "bad value at script",
             "script is an array of strings, each a deed, and this is of type table",
             "version = 1\nprogram = [[]]\n«script».x = 1\n[[task]]\n"),
    document("tables that are the script", "bad value at script at 0",
             'a deed is a string, as "0 tick 1000000", and this is of type table', "version = 1\nprogram = [[]]\n[[task]]\n[[«script»]]\n"),
    document("an order with a dot behind it", "bad value at order",
             "order is an array of the numbers of callers, and this is of type table",
             "version = 1\nprogram = [[]]\n«order».first = 0\n[[task]]\n"),
    document("tables that are the order", "bad value at order at 0", "a caller is an integer from 0 on",
             "version = 1\nprogram = [[]]\n[[task]]\n[[«order»]]\n[[order]]\n"),
    document("a version with a dot in it", "bad value at version", "the version is the integer 1, 2, 3 or 4", "«version».major = 1\n"),
    document("a version that is a table", "bad value at version", "the version is the integer 1, 2, 3 or 4",
             "[[task]]\n[«version»]\nmajor = 1\n"),
    document("a task with a dot behind it", "bad value at task", "task is an array of tables, written [[task]], and this is of type table",
             "version = 1\nprogram = [[]]\n«task».home = 0\n"),
)

OF_SETUPS = (
    document("no CPU", "number of cpus", "0 programs; a workload has 1 to 16, one for each CPU, in version 1",
             "version = 1\nprogram = «[]»\n[[task]]\n"),
    document("17 CPUs", "number of cpus", "17 programs; a workload has 1 to 16, one for each CPU, in version 1",
             f"version = 1\nprogram = «[{'[], ' * 16}[]]»\n[[task]]\n"),
    document("no tasks in a list", "number of tasks", "0 tasks; a workload has 1 to 1024", "version = 1\nprogram = [[]]\ntask = «[]»\n"),
    document("1025 tasks", "number of tasks", "1025 tasks; a workload has 1 to 1024",
             "version = 1\nprogram = [[]]\n" + "[[task]]\n" * 1024 + "«[[task]]»\n"),
    document("a home that the workload hasn't", "home of task 1", "CPU 5 is not in the workload, which has CPUs 0 to 1",
             "version = 1\nprogram = [[], []]\n[[task]]\n[[task]]\nhome = «5»\n"),
    document("a home beside the only CPU", "home of task 0", "CPU 1 is not in the workload, which has CPU 0 alone",
             "version = 1\nprogram = [[]]\n[[task]]\nhome = «1»\n"),
    document("a start out of range", "start of task 0", "start, and start plus the charge of a slice, lie between -2^60 and 2^60",
             "version = 1\nprogram = [[]]\n[[task]]\nstart = «1152921504606846976»\n"),
    document("a program of 10001 operations", "program 1 too long", "a program of 10001 operations; at most 10000",
             "version = 1\nprogram = [[], «[" + '"pick", ' * 10001 + "]»]\n[[task]]\n"),
)

OF_ORDERS = (
    document("a caller that isn't there", "order at 1: no caller",
             "there is no such caller; a caller is the number of a CPU of the workload",
             'version = 1\nprogram = [["pick"]]\norder = [0, «1»]\n[[task]]\n', ("replay",)),
    document("an order that ends early", "order short at 0", "the order ends before caller 0 has done its program",
             'version = 1\nprogram = [["pick"]]\norder = «[]»\n[[task]]\n', ("replay",)),
)

DOCUMENTS = (*OF_TOML, *OF_DEEDS, *OF_OPERATIONS, *OF_KEYS, *OF_SETUPS, *OF_ORDERS)

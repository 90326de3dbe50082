"""Workloads of great size: the longest lists that a version takes, longer ones, and what stands at their last place."""

from text import MOST_BYTES, NOT_TOML, Text, fault, filled, given, numbered, padded, report

OPERATIONS = 10000
PLACES = 1000000

TASK = b"\n[[task]]\n"
EMPTY = b"version = 1\nprogram = [[]]\nscript = []\n"
ONE_PICK = b'version = 1\nprogram = [[]]\nscript = ["0 pick"]' + TASK
AFTER_ONE_PICK = report("cpu 0", "pick: picked 0", "load 1024 floor 0", "task 0 v 0 d 3000000 lag 0 running")
TWO_TASKS = b'version = 1\nprogram = [[]]\nscript = ["0 pick", "0 tick 3000000", "0 pick"]' + TASK + b"[[task]]\n"
AFTER_TWO_TASKS = report(
    "cpu 0", "pick: picked 0", "tick 3000000: charged 0 resched", "pick: picked 1", "load 2048 floor 1500000",
    "task 0 v 3000000 d 6000000 lag -1500000", "task 1 v 0 d 3000000 lag 1500000 running")
MANY_TASKS = 1024


def listed(item, count):
    return b"[" + item * count + b"]"


def programs(operation, count, cpus, version=2):
    """A workload whose CPUs all have the same program of one operation again and again."""
    return b"version = %d\nprogram = " % version + listed(listed(b'"%s",' % operation, count) + b",", cpus) + b"\n"


def scripted(version, count, deed=b"pick", last=b"", tasks=TASK):
    """A script of one deed again and again, and behind it another one."""
    items = b'"0 %s",' % deed * count + (b'"0 %s"' % last if last else b"")
    return given(b"version = %d\nprogram = [[]]\nscript = [" % version + items + b"]" + tasks)


def after_picks(count):
    return report("cpu 0", *["pick: picked 0"] * count, "load 1024 floor 0", "task 0 v 0 d 3000000 lag 0 running")


def cpu_after(cpu, answer, count, *ends):
    return [f"cpu {cpu}", *[f"pick: {answer}"] * count, *ends]


def after_program_picks(count, cpus):
    """Each CPU picks so many times, and only CPU 0 has a task."""
    lines = cpu_after(0, "picked 0", count, "load 1024 floor 0", "task 0 v 0 d 3000000 lag 0 running")
    for cpu in range(1, cpus):
        lines += cpu_after(cpu, "idle", count, "load 0 floor 0")
    return report(*lines)


def after_posts(count, cpus):
    """Each CPU posts so many wakes of task 0 to CPU 0, and nothing is drained."""
    left = [f"left 0 from {sender}" for sender in range(cpus) for _ in range(count)]
    others = [line for cpu in range(1, cpus) for line in (f"cpu {cpu}", "load 0 floor 0")]
    return report("cpu 0", "load 1024 floor 0", "task 0 v 0 d 3000000 lag 0", *left, *others)


def at_rest(cpus):
    """Nothing was done with the one task."""
    return after_posts(0, cpus)


def order_of(places):
    return b"order = " + listed(b"0,", places) + b"\n"


def one_after_the_other(cpus, steps):
    """An order in which each caller does all its steps before the next one begins."""
    return b"order = [" + b"".join(b"%d," % cpu * steps for cpu in range(cpus)) + b"]\n"


def many_tasks():
    """The greatest number of tasks, each with a long key that is ignored."""
    task = b"[[task]]\nx = 1\n" + b"k" * 16000 + b" = 1\n"
    return EMPTY + task * MANY_TASKS


def tasks_at_rest(count):
    tasks = [f"task {task} v 0 d 3000000 lag 0" for task in range(count)]
    return report("cpu 0", f"load {1024 * count} floor 0", *tasks)


TASKS = (
    Text("tasks", filled(b"[[task]]\n", EMPTY), fault("number of tasks")),
    Text("a million tasks", given(EMPTY + b"[[task]]\n" * 1000000), fault("number of tasks")),
    Text("inline tasks", filled(b"{},", EMPTY + b"task = [", b"]\n"), fault("number of tasks")),
    Text("numbers in place of tasks", filled(b"1,", EMPTY + b"task = [", b"]\n"), fault("bad value at task 0")),
    Text("a bad value behind a million tasks", given(EMPTY + b"task = [" + b"{}," * 1000000 + b"{nice=20}]\n"),
         fault("bad value at task 1000000 nice")),
    Text("tasks with long keys", many_tasks, tasks_at_rest(MANY_TASKS)),
    Text("a task less than there may be", given(EMPTY + b"[[task]]\n" * (MANY_TASKS - 1)), tasks_at_rest(MANY_TASKS - 1)),
    Text("a task more than there may be", given(EMPTY + b"[[task]]\n" * (MANY_TASKS + 1)), fault("number of tasks")),
    Text("a task more than there may be in version 2",
         given(b"version = 2\nprogram = [[]]\nscript = []\n" + b"[[task]]\n" * (MANY_TASKS + 1)), fault("number of tasks")),
)

PROGRAMS = (
    Text("programs", filled(b"[],", b"version = 1\nprogram = [", b"]" + TASK), fault("number of cpus")),
    Text("numbers in place of programs", filled(b"1,", b"version = 1\nprogram = [", b"]" + TASK), fault("bad value at program 0")),
    Text("operations", filled(b'"pick",', b"version = 1\nprogram = [[", b"]]" + TASK), fault("program 0 too long")),
    Text("an operation less than there may be", given(programs(b"pick", OPERATIONS - 1, 1) + b"script = []" + TASK), at_rest(1)),
    Text("an operation more than there may be", given(programs(b"pick", OPERATIONS + 1, 1) + b"script = []" + TASK),
         fault("program 0 too long")),
    Text("an operation more in the second program", given(
        b"version = 2\nscript = []\nprogram = [[], " + listed(b'"drain",', OPERATIONS + 1) + b"]" + TASK),
         fault("program 1 too long")),
    Text("a long operation", filled(b" ", b'version = 1\nprogram = [["tick', b'5"]]' + TASK), fault("bad value at program 0 at 0")),
    Text("the longest programs, for solo", given(programs(b"pick", OPERATIONS, 64) + b"script = []" + TASK), at_rest(64)),
    Text("the longest programs, for replay", given(programs(b"pick", OPERATIONS, 64) + b"order = []" + TASK),
         fault("order short at 0"), ("replay",)),
    Text("the longest drains, for replay", given(programs(b"drain", OPERATIONS, 64) + b"order = []" + TASK),
         fault("order short at 0"), ("replay",)),
    Text("the longest programs, for run", given(programs(b"pick", OPERATIONS, 64) + TASK),
         after_program_picks(OPERATIONS, 64), ("run",)),
    Text("the longest posts, for run", given(programs(b"post 0", OPERATIONS, 64) + TASK), after_posts(OPERATIONS, 64), ("run",)),
    Text("the longest drains, for run", given(programs(b"drain", OPERATIONS, 64) + TASK), at_rest(64), ("run",)),
    Text("the last operation of the longest programs", given(
        programs(b"pick", OPERATIONS, 63)[:-2] + listed(b'"pick",', OPERATIONS - 1)[:-1] + b'"post 1"]]\n' + TASK),
         fault(f"unknown task at program 63 at {OPERATIONS - 1}")),
)

SCRIPTS = (
    Text("the longest script of version 1", scripted(1, 160000), after_picks(160000)),
    Text("a script of one deed less", scripted(1, 159999), after_picks(159999)),
    Text("a script of one deed more", scripted(1, 160001), fault("bad value at script")),
    Text("the longest script of version 2", scripted(2, 640000), after_picks(640000)),
    Text("a script of version 2 of one deed less", scripted(2, 639999), after_picks(639999)),
    Text("a script of version 2 of one deed more", scripted(2, 640001), fault("bad value at script")),
    Text("deeds", filled(b'"0 pick",', b"version = 1\nprogram = [[]]\nscript = [", b"]" + TASK), fault("bad value at script")),
    Text("empty deeds", filled(b'"",', b"version = 1\nprogram = [[]]\nscript = [", b"]" + TASK), fault("bad value at script")),
    Text("a deed of digits", filled(b"1", b'version = 1\nprogram = [[]]\nscript = ["0 tick ', b'"]' + TASK),
         fault("bad value at script at 0")),
    Text("a deed of zeros", filled(b"0", b'version = 1\nprogram = [[]]\nscript = ["0 tick ', b'1"]' + TASK),
         fault("bad value at script at 0")),
    Text("a deed of spaces", filled(b" ", b'version = 1\nprogram = [[]]\nscript = ["0', b'pick"]' + TASK),
         fault("bad value at script at 0")),
    Text("a deed of words", filled(b"0 ", b'version = 1\nprogram = [[]]\nscript = ["0 ', b'pick"]' + TASK),
         fault("bad value at script at 0")),
    Text("the last deed of the longest script", given(
        b"version = 1\nprogram = [[]]\nscript = [" + b'"0 pick",' * 159999 + b'"1 pick"]' + TASK),
         fault("bad value at script at 159999")),
)

ORDERS = (
    Text("an order of as many places as there is room for", filled(b"0,", b"version = 1\nprogram = [[]]\norder = [", b"]" + TASK),
         fault("order longer than 1000000"), ("replay",)),
    Text("an order that solo ignores", filled(b"0,", EMPTY + b"order = [", b"]" + TASK),
         at_rest(1)),
    Text("the longest order", given(programs(b"pick", OPERATIONS, 25) + one_after_the_other(25, 4 * OPERATIONS) + TASK),
         after_program_picks(OPERATIONS, 25), ("replay",)),
    Text("an order of the longest posts", given(programs(b"post 0", OPERATIONS, 64) + one_after_the_other(64, OPERATIONS) + TASK),
         after_posts(OPERATIONS, 64), ("replay",)),
    Text("the longest order, which is done at once", given(b"version = 1\nprogram = [[]]\n" + order_of(PLACES) + TASK),
         fault("order at 0: done"), ("replay",)),
    Text("an order of one place more", given(b"version = 1\nprogram = [[]]\n" + order_of(PLACES + 1) + TASK),
         fault("order longer than 1000000"), ("replay",)),
    Text("an order of one place more, of no caller",
         given(b"version = 1\nprogram = [[]]\norder = " + listed(b"7,", PLACES + 1) + TASK),
         fault("order longer than 1000000"), ("replay",)),
    Text("an order whose last place is none",
         given(b"version = 1\nprogram = [[]]\norder = [" + b"0," * (PLACES - 1) + b"-1]" + TASK),
         fault(f"bad value at order at {PLACES - 1}"), ("replay",)),
    Text("the greatest integer in an order", given(b"version = 1\nprogram = [[]]\norder = [9223372036854775807]" + TASK),
         fault("order at 0: no caller"), ("replay",)),
    Text("a greater integer in an order", given(b"version = 1\nprogram = [[]]\norder = [9223372036854775808]" + TASK),
         NOT_TOML, ("replay",)),
)

BYTES = (
    Text("two tasks with newlines up to the limit", padded(TWO_TASKS), AFTER_TWO_TASKS),
    Text("a workload with newlines up to the limit", padded(ONE_PICK), AFTER_ONE_PICK),
    Text("a workload with newlines past the limit", padded(ONE_PICK, size=MOST_BYTES + 1),
         fault("workload longer than 16777216 bytes")),
    Text("newlines past the limit", filled(b"\n", size=MOST_BYTES + 1), fault("workload longer than 16777216 bytes")),
    Text("bytes that are no text past the limit", filled(b"\xff", size=MOST_BYTES + 1),
         fault("workload longer than 16777216 bytes")),
    Text("four times the limit", filled(b"[", size=4 * MOST_BYTES), fault("workload longer than 16777216 bytes")),
    Text("a workload behind a comment", filled(b"a", b"#", b"\n" + ONE_PICK), AFTER_ONE_PICK),
    Text("a workload behind a million keys", numbered(b"k%d = 1\n", 1000000, after=ONE_PICK), AFTER_ONE_PICK),
    Text("a version of digits", filled(b"1", b'version = "', b'"\n'), fault("bad value at version")),
    Text("a workload whose last byte is no text", filled(b" ", ONE_PICK, b"\xff"), NOT_TOML),
)

WORKLOADS = (*TASKS, *PROGRAMS, *SCRIPTS, *ORDERS, *BYTES)

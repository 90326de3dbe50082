"""Workloads of versions 3 and 4 of great size, whose tasks begin, end, are set and doze, and whose queues are rebased: the longest lists of
these words, and what is wrong at their last place."""

from text import Text, fault, filled, report
from workloads import OPERATIONS, TASK, at_rest, listed, one_after_the_other, programs, scripted

DEEDS = 640000
ASLEEP = TASK + b"asleep = true\n"
# The order of 25 CPUs whose operations are of four steps.
FOUR_STEPS = one_after_the_other(25, 4 * OPERATIONS)
HEAD = b"version = 3\nprogram = [[]]\nscript = ["


def sent(deed, count=DEEDS, version=3, **more):
    """A script of one deed again and again. It is made when it is sent, since it is long."""
    return lambda: scripted(version, count, deed, **more)()


def programmed(operation, count=OPERATIONS, cpus=64, behind=b""):
    """CPUs of one program of one operation again and again."""
    return lambda: programs(operation, count, cpus, 3) + behind + TASK


def said(line, count, *ends):
    return report("cpu 0", *[line] * count, *ends)


def own_ends():
    """Each CPU ends its own task again and again."""
    lists = b"".join(listed(b'"end %d",' % cpu, OPERATIONS) + b"," for cpu in range(64))
    return b"version = 3\nprogram = [" + lists + b"]\n" + b"".join(b"[[task]]\nhome = %d\n" % cpu for cpu in range(64))


def after_own_ends():
    return report(*[line for cpu in range(64) for line in (
        f"cpu {cpu}", f"end {cpu}: ended", *[f"end {cpu}: not here"] * (OPERATIONS - 1), "load 0 floor 0", f"asleep {cpu} lag 0")])


def after_ends(cpus):
    """Each CPU ends task 0, which only its home finds, and only once."""
    lines = ["cpu 0", "end 0: ended", *["end 0: not here"] * (OPERATIONS - 1), "load 0 floor 0", "asleep 0 lag 0"]
    for cpu in range(1, cpus):
        lines += [f"cpu {cpu}", *["end 0: not here"] * OPERATIONS, "load 0 floor 0"]
    return report(*lines)


def after_rebases(cpus):
    """Each CPU rebases, and no virtual time is other than 0."""
    lines = []
    for cpu in range(cpus):
        lines += [f"cpu {cpu}", *["rebase: rebased 0"] * OPERATIONS]
        lines += ["load 1024 floor 0", "task 0 v 0 d 3000000 lag 0"] if cpu == 0 else ["load 0 floor 0"]
    return report(*lines)


def after_sets(cpus):
    """Each CPU sets task 0, which only its home finds. Its request is of the slice that the set before gave it."""
    lines = []
    for cpu in range(cpus):
        answer, ends = ("set", ["load 15 floor 0", "task 0 v 0 d 6826666 lag 0"]) if cpu == 0 else ("not here", ["load 0 floor 0"])
        lines += [f"cpu {cpu}", *[f"set 0 19 100000: {answer}"] * OPERATIONS, *ends]
    return report(*lines)


def ends_in_order():
    """Ends by 14 CPUs one after the other, of five steps at home and of seven away."""
    order = b"order = [" + b"0," * (5 * OPERATIONS) + b"".join(b"%d," % cpu * (7 * OPERATIONS) for cpu in range(1, 14)) + b"]\n"
    return programs(b"end 0", OPERATIONS, 14, 3) + order + TASK


def last_operation(operation):
    """The longest programs, with this one at their last place."""
    return lambda: (programs(b"rebase", OPERATIONS, 63, 3)[:-2] + listed(b'"rebase",', OPERATIONS - 1)[:-1]
                    + b'"%s"]]\n' % operation + TASK)


# Task 0 naps so many times, and is picked once more.
NAPS = DEEDS // 3


def naps():
    """The longest script of a task that is picked, dozes and wakes."""
    items = b'"0 pick", "0 doze 0", "0 wake 0 from 0",' * NAPS + b'"0 pick"'
    return b"version = 4\nprogram = [[]]\nscript = [" + items + b"]" + TASK


def after_dozes(cpus):
    """Each CPU lets task 0 doze, which runs nowhere."""
    lines = []
    for cpu in range(cpus):
        lines += [f"cpu {cpu}", *["doze 0: not running"] * OPERATIONS]
        lines += ["load 1024 floor 0", "task 0 v 0 d 3000000 lag 0"] if cpu == 0 else ["load 0 floor 0"]
    return report(*lines)


SCRIPTS_OF_THREE = (
    Text("the longest script of begins", sent(b"begin 0 19 100000000", tasks=ASLEEP),
         said("begin 0 19 100000000: begun", DEEDS, "load 0 floor 0", "asleep 0 lag 0")),
    Text("the longest script of ends", sent(b"end 0"),
         report("cpu 0", "end 0: ended", *["end 0: not here"] * (DEEDS - 1), "load 0 floor 0", "asleep 0 lag 0")),
    Text("the longest script of sets", sent(b"set 0 19 100000"),
         said("set 0 19 100000: set", DEEDS, "load 15 floor 0", "task 0 v 0 d 6826666 lag 0")),
    Text("the longest script of sets of a task that sleeps", sent(b"set 0 -20 100000000", tasks=ASLEEP),
         said("set 0 -20 100000000: set", DEEDS, "load 0 floor 0", "asleep 0 lag 0")),
    Text("the longest script of rebases", sent(b"rebase"),
         said("rebase: rebased 0", DEEDS, "load 1024 floor 0", "task 0 v 0 d 3000000 lag 0")),
    # a walk over all tasks at each of them took 11 seconds
    Text("the longest script of rebases of all tasks", sent(b"rebase", tasks=TASK * 1024),
         said("rebase: rebased 0", DEEDS, "load 1048576 floor 0", *[f"task {task} v 0 d 3000000 lag 0" for task in range(1024)])),
    Text("a script of version 3 of one deed more", sent(b"rebase", DEEDS + 1), fault("bad value at script")),
    Text("rebases", filled(b'"0 rebase",', HEAD, b"]" + TASK), fault("bad value at script")),
    Text("a slice too short behind the longest script", sent(b"rebase", DEEDS - 1, last=b"set 0 0 99999"),
         fault(f"bad value at script at {DEEDS - 1}")),
    Text("a begin of no task behind the longest script", sent(b"rebase", DEEDS - 1, last=b"begin 1 0 100000"),
         fault(f"bad value at script at {DEEDS - 1}")),
    Text("a rebase behind the longest script of version 2", sent(b"pick", DEEDS - 1, 2, last=b"rebase"),
         fault(f"bad value at script at {DEEDS - 1}")),
    Text("a slice of digits", filled(b"1", HEAD + b'"0 begin 0 0 ', b'"]' + ASLEEP), fault("bad value at script at 0")),
    Text("a slice of zeros", filled(b"0", HEAD + b'"0 set 0 0 ', b'100000"]' + TASK), fault("bad value at script at 0")),
    Text("a level of digits", filled(b"1", HEAD + b'"0 set 0 -', b' 100000"]' + TASK), fault("bad value at script at 0")),
    Text("an end of digits", filled(b"1", HEAD + b'"0 end ', b'"]' + TASK), fault("bad value at script at 0")),
    Text("a rebase of spaces", filled(b" ", HEAD + b'"0 rebase', b'"]' + TASK), fault("bad value at script at 0")),
    Text("a set of numbers", filled(b" 0", HEAD + b'"0 set', b'"]' + TASK), fault("bad value at script at 0")),
)

PROGRAMS_OF_THREE = (
    Text("the longest programs of version 3, for solo", programmed(b"set 0 -20 100000000", behind=b"script = []"), at_rest(64)),
    Text("the longest begins away from home", programmed(b"begin 0 0 100000"), fault("bad begin at program 1 at 0"), ("run",)),
    Text("a rebase more than there may be", programmed(b"rebase", OPERATIONS + 1, 1, b"script = []"), fault("program 0 too long")),
    Text("a begin away from home at the last place", last_operation(b"begin 0 0 100000"),
         fault(f"bad begin at program 63 at {OPERATIONS - 1}")),
    Text("an end of no task at the last place", last_operation(b"end 1"), fault(f"unknown task at program 63 at {OPERATIONS - 1}")),
    Text("a begin of no task at the last place", last_operation(b"begin 1 0 100000"),
         fault(f"unknown task at program 63 at {OPERATIONS - 1}")),
    Text("a slice too long at the last place", last_operation(b"set 0 0 100000001"),
         fault(f"bad value at program 63 at {OPERATIONS - 1}")),
    Text("the longest rebases, for run", programmed(b"rebase"), after_rebases(64), ("run",)),
    Text("the longest sets, for run", programmed(b"set 0 19 100000"), after_sets(64), ("run",)),
    Text("the longest ends, for run", own_ends, after_own_ends(), ("run",)),
    Text("the longest ends of one task, for run", programmed(b"end 0", cpus=16), after_ends(16), ("run",)),
)

ORDERS_OF_THREE = (
    Text("the longest order of rebases", programmed(b"rebase", cpus=25, behind=FOUR_STEPS), after_rebases(25), ("replay",)),
    Text("the longest order of sets", programmed(b"set 0 19 100000", cpus=25, behind=FOUR_STEPS), after_sets(25), ("replay",)),
    Text("a long order of ends", ends_in_order, after_ends(14), ("replay",)),
    # caller 1 holds both locks after so many steps of its ends
    Text("an order that comes to a lock within an end", programmed(b"end 0", cpus=25, behind=FOUR_STEPS),
         fault(f"order at {8 * OPERATIONS}: blocked on 0"), ("replay",)),
)

OF_FOUR = (
    Text("the longest script of dozes", sent(b"doze 0", version=4),
         said("doze 0: not running", DEEDS, "load 1024 floor 0", "task 0 v 0 d 3000000 lag 0")),
    Text("the longest script of naps", naps,
         report("cpu 0", *["pick: picked 0", "doze 0: slept 0", "wake 0 from 0: woken"] * NAPS, "pick: picked 0", "load 1024 floor 0",
                "task 0 v 0 d 3000000 lag 0 running")),
    Text("a doze behind the longest script of version 3", sent(b"rebase", DEEDS - 1, last=b"doze 0"),
         fault(f"bad value at script at {DEEDS - 1}")),
    Text("a doze of no task behind the longest script", sent(b"rebase", DEEDS - 1, 4, last=b"doze 1"),
         fault(f"bad value at script at {DEEDS - 1}")),
    Text("a doze of digits", filled(b"1", HEAD.replace(b"3", b"4") + b'"0 doze ', b'"]' + TASK), fault("bad value at script at 0")),
    Text("the longest dozes, for run", lambda: programs(b"doze 0", OPERATIONS, 64, 4) + TASK, after_dozes(64), ("run",)),
    Text("the longest order of dozes on one CPU",
         lambda: programs(b"doze 0", OPERATIONS, 1, 4) + one_after_the_other(1, 5 * OPERATIONS) + TASK, after_dozes(1), ("replay",)),
)

COMING = (*SCRIPTS_OF_THREE, *PROGRAMS_OF_THREE, *ORDERS_OF_THREE, *OF_FOUR)

"""Workloads that are made and not stored, since they are many of one form, or long, or come to another report at each run."""

from random import Random

# So many CPUs a version allows, and so many tasks each of them.
CPUS = {1: 16, 2: 64, 3: 64, 4: 64}
TASKS = 1024

# What can't stand behind a begin or a set. The greatest numbers would be within the limits if their first bits were lost.
NOT_GIVEN = (
    "", " ", " 0", " 0 0", " 0 0 ", " 0 0 99999", " 0 0 100000001", " 0 20 100000", " 0 -21 100000", " 0 -0 100000", " 0 +1 100000",
    " 0 01 100000", " 1024 0 100000", " -1 0 100000", " 00 0 100000", " 0 0 0100000", " 0 0 +100000", " 0 0 -100000", " 0 0 100_000",
    " 0 0 1e5", " 0 0 4295067296", " 0 0 18446744073709651616", " 0 0 100000 ", " 0 0 100000 0", "  0 0 100000", " 0  0 100000",
    " 0 0  100000", " 100000 0 0",
)

# Deeds, by the versions that have them.
DEEDS = {
    (1, 2, 3, 4): ("0 tick 1", "0 tick 1000000000", "15 pick", "0 pull 15", "15 pull 0", "0 sleep 0", "0 wake 0 from 15"),
    (2, 3, 4): ("16 pick", "63 pick", "0 pull 63", "0 wake 0 from 16", "0 wake 0 from 63", "0 renice 0 0", "0 renice 0 -20",
                "0 renice 0 19"),
    (3, 4): ("0 begin 0 0 100000", "0 begin 1023 -20 100000000", "0 begin 0 19 99999999", "0 end 0", "0 end 1023", "63 end 0",
             "0 set 0 0 100000", "0 set 1023 19 100000000", "63 set 0 -20 100001", "0 rebase", "63 rebase"),
    (4,): ("0 doze 0", "0 doze 1023", "63 doze 0"),
    (): ("", "0", "0 ", "pick", "0 tick", "0 tick 0", "0 tick 1000000001", "0 tick 18446744073709551615",
         "0 tick 18446744073709551616", "0 tick +5", "0 tick -5", "0 tick  5", "0 pick ", " 0 pick", "00 pick", "0  pick",
         "64 pick", "18446744073709551616 pick", "0 post 1", "0 drain", "0 pull 64", "0 wake 0 from 64", "0 wake 1024 from 0",
         "0 wake 1", "0 wake 1 from", "0 wake 1 by 1", "0 wake 1 from 64", "0 wake 1 from 1 ", "0 wake 1024 from 1",
         "0 wake from 1", "0 sleep 1024", "0 renice 0 -0", "0 renice 0 20", "0 renice 0 -21", "0 renice 1", "0 renice 1 -0",
         "0 renice 1 20", "renice 1 5", "1 begin 0 0 100000", "0 begin 1024 0 100000", "0 end", "0 end ", "0 end 1024", "0 end 00",
         "0 end 0 0", "64 end 0", "end 0", "0 rebase ", "0 rebase 0", "64 rebase", "rebase", "0 Rebase",
         "0 doze", "0 doze ", "0 doze 1024", "0 doze 00", "0 doze 0 0", "0 doze  0", "64 doze 0", "doze 0", "0 Doze 0", "0 dozes 0",
         *(f"0 {word}{rest}" for word in ("begin", "set") for rest in NOT_GIVEN)),
}

# Operations, by the versions that have them.
SINGLE_OPERATIONS = {
    (1, 2, 3, 4): (
        "tick 1", "tick 1000000000", "pick", "yield", "sleep 0", "sleep 1023", "post 0", "post 1023", "drain", "pull 1", "pull 15",
    ),
    (2, 3, 4): ("pull 16", "pull 63", "renice 0 0", "renice 1023 -20", "renice 0 19"),
    (3, 4): ("begin 0 0 100000", "begin 1023 -20 100000000", "end 0", "end 1023", "set 0 19 100000", "set 1023 0 100000000", "rebase"),
    (4,): ("doze 0", "doze 1023"),
    (): (
        "", "tick", "tick 0", "tick 1000000001", "tick 01", "tick 5 ", "yield 1", "sleep 1024", "sleep", "post -1", "post 1 2", "drain ",
        "pull 64", "pull  1", "wake 0 from 1", "Pick", "renice", "renice 0", "renice 0 ", "renice 0 -", "renice 0 -0", "renice 0 -01",
        "renice 0 -21", "renice 0 --1", "renice 0 - 1", "renice 0 01", "renice 0 20", "renice 0 +1", "renice 0 18446744073709551616",
        "renice 0 -9223372036854775808", "renice 0 5 ", "renice 0 5 5", "renice 0  5", "renice  0 5", "renice 1024 5", "renice -1 5",
        "renice 0 0x5", "end", "end ", "end -1", "end 1024", "end 00", "end 0 0", "ends 0", "rebase ", " rebase", "rebase 0", "rebased",
        "Begin 0 0 100000", "doze", "doze ", "doze -1", "doze 1024", "doze 00", "doze 0 0", "dozes 0", "Doze 0",
        *(f"{word}{rest}" for word in ("begin", "set") for rest in NOT_GIVEN),
    ),
}


def whole_machine(version, program="[]", script=""):
    """As many CPUs and tasks as a version allows, so that what is refused isn't that a CPU or a task is missing."""
    programs = ", ".join([program] + ["[]"] * (CPUS[version] - 1))
    return f"version = {version}\nprogram = [{programs}]\n{script}task = [{'{}, ' * TASKS}]\n".encode()


# The longest order: each CPU does as many picks as a program may have operations, in four steps each.
PLACES = 1_000_000
ORDERED_CPUS = 25
PICKS = 10_000
LONGEST = [caller for caller in range(ORDERED_CPUS) for _ in range(4 * PICKS)]


def picks_in_order(order):
    programs = ", ".join(["[" + '"pick", ' * PICKS + "]"] * ORDERED_CPUS)
    return f"version = 2\nprogram = [{programs}]\norder = [{', '.join(map(str, order))}]\n[[task]]\n".encode()


def report_of_longest():
    """CPU 0 picks the one task each time, and the others pick nobody."""
    first = "cpu 0\n" + "pick: picked 0\n" * PICKS + "load 1024 floor 0\ntask 0 v 0 d 3000000 lag 0 running\n"
    others = (f"cpu {cpu}\n" + "pick: idle\n" * PICKS + "load 0 floor 0\n" for cpu in range(1, ORDERED_CPUS))
    return first + "".join(others)


# Programs that are run by threads: the text up to the tasks, that of the tasks, and how many CPUs and tasks there are.

def programs_text(programs):
    rows = ("[" + ", ".join(f'"{operation}"' for operation in program) + "],\n" for program in programs)
    return "version = 4\nprogram = [\n" + "".join(rows) + "]\n"


# So many tasks have their home on each CPU of a drawn workload.
TASKS_OF_A_CPU = 3


def drawn_operation(dice, cpu, cpus):
    """A sleep, a doze, an end or a change that names a task of the CPU itself succeeds more often."""
    own = cpu * TASKS_OF_A_CPU + dice.randrange(TASKS_OF_A_CPU)
    any_task = dice.randrange(cpus * TASKS_OF_A_CPU)
    level = dice.randrange(-20, 20)
    given = f"{level} {dice.randrange(100_000, 8_488_608)}"
    return dice.choice((
        *["pick"] * 4, *[f"tick {dice.randrange(1, 0x40_0001)}"] * 3, "yield", *[f"sleep {own}"] * 2, f"sleep {any_task}",
        *[f"doze {own}"] * 2, f"doze {any_task}",
        f"renice {own} {level}", f"renice {any_task} {level}", *[f"post {any_task}"] * 2, *["drain"] * 3,
        f"begin {own} {given}", f"end {own}", f"end {any_task}", f"set {own} {given}", f"set {any_task} {given}", "rebase",
        *[f"pull {dice.choice([other for other in range(cpus) if other != cpu])}"] * 2,
    ))


def drawn_task(dice, home):
    """One task in four begins asleep."""
    return (f"[[task]]\nhome = {home}\nnice = {dice.randrange(-20, 20)}\nslice = {dice.randrange(100_000, 8_488_608)}\n"
            f"start = {dice.randrange(0x40_0000)}\nasleep = {'true' if dice.randrange(4) == 0 else 'false'}\n")


def drawn_programs(seed):
    """2 to 16 CPUs with three tasks each, and 100 to 200 operations of all kinds in each program."""
    dice = Random(seed)
    cpus = 2 + seed % 15
    programs = [[drawn_operation(dice, cpu, cpus) for _ in range(dice.randrange(100, 201))] for cpu in range(cpus)]
    tasks = [drawn_task(dice, home) for home in range(cpus) for _ in range(TASKS_OF_A_CPU)]
    return programs_text(programs), "".join(tasks), cpus, len(tasks)


# The most programs, of so many operations, with so many tasks. The first CPUs are homes, and the others have only what they pull.
OPERATIONS = 1000
POSTED_TASKS = 128
HOMES = 16


def operation_of_most(cpu, at):
    """All kinds come in turn; posts and pulls reach all tasks and CPUs. A begin is of a home alone."""
    near = (cpu + at // 13 * HOMES) % POSTED_TASKS
    return ("pick", "tick 1000000", f"post {(cpu + at) % POSTED_TASKS}", f"pull {(cpu + 1 + at % 63) % CPUS[4]}",
            f"renice {near} {at % 20}", "yield", f"sleep {near}", "drain", f"set {near} {at % 20} 1000000", f"end {near}",
            f"begin {near} {at % 20} 3000000" if cpu < HOMES else "pick", "rebase", f"doze {near}")[at % 13]


def most_programs():
    programs = [[operation_of_most(cpu, at) for at in range(OPERATIONS)] for cpu in range(CPUS[4])]
    tasks = "".join(f"[[task]]\nhome = {task % HOMES}\n" for task in range(POSTED_TASKS))
    return programs_text(programs), tasks, CPUS[4], POSTED_TASKS


# Workloads that get an order. They have all operations, callers that wait for each other's locks, and CPUs with nothing to do.
TO_BE_ORDERED = (
    b'''version = 1
program = [["pull 1", "pull 1"], ["pull 2", "pull 2"], ["pull 0", "pull 0"]]
[[task]]
[[task]]
[[task]]
''',
    b'''version = 1
program = [["pick", "tick 5", "sleep 0", "drain", "post 2"], ["post 0", "drain", "yield"], ["drain", "sleep 1"]]
[[task]]
[[task]]
home = 1
[[task]]
home = 2
asleep = true
''',
    b'''version = 1
program = [[], ["pick", "pull 3", "drain", "pull 0", "pick", "yield"], ["post 0"], ["pull 1"]]
[[task]]
asleep = true
[[task]]
home = 3
''',
    b'''version = 1
program = [[]]
[[task]]
''',
    b'''version = 2
program = [["pick", "renice 0 5", "drain"], ["pull 0", "renice 1 -20", "post 2"]]
[[task]]
[[task]]
[[task]]
asleep = true
''',
    b'''version = 3
program = [["pick", "tick 5", "end 1", "begin 2 5 100000", "drain"], ["end 0", "post 2", "set 1 0 100000", "rebase"], ["pull 0", "end 0"]]
[[task]]
[[task]]
home = 1
[[task]]
asleep = true
''',
    b'''version = 4
program = [["pick", "tick 5", "doze 0", "drain", "pick"], ["post 0", "pull 0", "pick", "doze 1", "doze 2", "drain"]]
[[task]]
[[task]]
[[task]]
home = 1
''',
)

# Words that eevdf_orders doesn't take. The first number is one past the greatest seed.
NO_SEEDS = (
    "--seed 18446744073709551616", "7", "--seed", "--seed x", "--seed -1", "--seed 1.5", "--seed 1 --seed 2", "--helps", "help",
)


def drains():
    """A drain on each CPU."""
    return (programs_text([["drain"]] * CPUS[4]) + "[[task]]\n").encode()


def posts_in_order(ordered, order, place):
    """The order in front of a text, and programs of posts, each of which is one step. The caller at a place has as many as it has
    done before this place, and the others have enough."""
    posts = [len(order)] * (max(order) + 1)
    posts[order[place]] = order[:place].count(order[place])
    programs = programs_text([["post 0"] * count for count in posts])
    return ordered[:ordered.index(b"]\n") + 2] + f"{programs}[[task]]\n".encode()

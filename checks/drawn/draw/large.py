"""Workloads at and past the limits of size. The larger ones are drawn seldom, since the plain reader is slow."""

from plain.limits import BYTES, OPERATIONS, PLACES, TASKS, VERSIONS

TASK = "[[task]]\n"


def workload(version, top, tasks=1):
    return f"version = {version}\n{top}\n{TASK * tasks}".encode()


def empty_programs(count):
    return "program = [" + "[]," * count + "]"


def script(count, deed="0 pick"):
    return "script = [" + f'"{deed}",' * count + "]"


def programs_of(*lengths, operation="pick"):
    return "program = [" + ",".join("[" + f'"{operation}",' * length + "]" for length in lengths) + "]"


def limit_or_past(dice, limit):
    """A limit, or one more."""
    return limit + dice.randrange(2)


def cpus(dice, version):
    count = limit_or_past(dice, dice.choice((0, 16, VERSIONS[version].cpus)))
    return "eevdf", ("solo",), workload(version, empty_programs(count) + "\n" + script(0))


def tasks(dice, version):
    count = limit_or_past(dice, dice.choice((0, TASKS)))
    return "eevdf", ("solo",), workload(version, "task = []\n" * (count == 0) + empty_programs(1) + "\n" + script(2), count)


def operations(dice, version):
    lengths = [dice.choice((0, 1, limit_or_past(dice, OPERATIONS))) for _ in range(dice.randint(1, 3))]
    return "eevdf", ("replay",), workload(version, programs_of(*lengths) + "\norder = []")


def too_many_steps(dice, version):
    """Four programs of more than 1000000 steps together."""
    drains = programs_of(*[OPERATIONS] * 4, *[0] * 12, operation="drain")
    return "eevdf_orders", (), workload(version, drains)


def words_of(version):
    """Operations of a program of CPU 0, whose task 0 is the only one."""
    if version < 3:
        return ("pick",)
    coming = ("pick", "rebase", "end 0", "set 0 5 100000", "begin 0 0 3000000")
    return coming if version == 3 else (*coming, "doze 0")


def long_order(dice, version):
    """An order of many places, now and then of as many as there may be: 25 programs of 40000 steps."""
    if version > 1 and dice.random() < 0.1:
        return "eevdf_orders", (), workload(version, programs_of(*[OPERATIONS] * 25))
    return "eevdf_orders", (), workload(version, programs_of(OPERATIONS, OPERATIONS // 2))


def long_program(dice, version):
    """A program of one operation as often as there may be."""
    return "eevdf_orders", (), workload(version, programs_of(OPERATIONS, operation=dice.choice(words_of(version))))


def too_many_places(dice, version):
    count = limit_or_past(dice, PLACES)
    order = "order = [" + "9," + "0," * (count - 1) + "]"
    return "eevdf", ("replay",), workload(version, empty_programs(1) + "\n" + order)


def deeds(dice, version):
    count = limit_or_past(dice, dice.choice((160000, VERSIONS[version].deeds)))
    return "eevdf", ("solo",), workload(version, empty_programs(1) + "\n" + script(count, f"0 {dice.choice(words_of(version))}"))


def many_bytes(dice, version):
    """A text of the greatest length, or one byte more, with a comment for most of it."""
    text = workload(version, empty_programs(1) + "\n" + script(3))
    return "eevdf", ("solo",), text + b"#" * (limit_or_past(dice, BYTES) - len(text))


def many_bytes_through_orders(dice, version):
    """A text that the workbench takes, and for whose length with an order nothing is promised, or one byte too many."""
    text = workload(version, programs_of(1))
    return "eevdf_orders", (), text + b"#" * (limit_or_past(dice, BYTES) - len(text))


SMALL = (cpus, tasks, operations)
LARGE = (too_many_steps, long_order, long_program, too_many_places, deeds, many_bytes, many_bytes_through_orders)


def draw(dice, version):
    return dice.choice(SMALL if dice.random() < 0.7 else LARGE)(dice, version)

"""C programs that make the calls: each error, the memory, the stack; plainly built, and with what the compiler can find in them."""

from tools import SANITIZED, TOP, fault_of, run

# What a program links to is looked up before it begins, since that takes stack of its own.
LINKED_AT_ONCE = ("-Wl,-z,now",)


def check_one(tools, name, label, *flags):
    program, fault = tools.compile(f"{name}-{label or 'plain'}", [tools.callers / f"{name}.c"], *flags)
    made = None if fault else run([program])
    tools.checks.look(f"callers/{name}.c{label and ', ' + label}", fault or fault_of(made), made.stdout.strip() if made else "")


def check_checksum(tools):
    """The C program that bench/count counts takes the turns of `measures queue`, and has to come to the checksum that this is stored with."""
    runs = TOP / "checks" / "measures" / "runs"
    _, *words = (runs / "queue.words").read_text().split()
    program, fault = tools.compile("c_queue", [TOP / "bench" / "c_queue.c", tools.malloc_library()])
    made = None if fault else run([program, *words])
    wanted = (runs / "queue.out").read_text()
    fault = fault or fault_of(made)
    other = made and made.stdout != wanted and f"{made.stdout.strip()}, where `measures queue` has {wanted.strip()}"
    tools.checks.look("bench/c_queue.c has the checksum of `measures queue`", fault or other)
    if fault is None:
        alone, beside = (run([program, mix, "64", "2000"]).stdout for mix in ("tick-pick", "fair-tick-pick"))
        tools.checks.look("bench/c_queue.c has one checksum with bounds and without", None if alone == beside else f"{alone} and {beside}")


def check(tools):
    for name in ("errors", "dozes", "memory", "moved", "blocks", "fair"):
        check_one(tools, name, "")
        check_one(tools, name, "sanitized", *SANITIZED)
    check_one(tools, "stack", "", *LINKED_AT_ONCE)
    check_checksum(tools)

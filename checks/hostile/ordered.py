"""What `eevdf_orders` is sent. Its faults go to standard error."""

from runner import Printed
from text import MOST_BYTES, NOT_TOML, Text, fault, filled, given, numbered, padded
from workloads import OPERATIONS, TASK, programs

LONGEST = programs(b"pick", OPERATIONS, 25) + TASK
# the same, and a CPU that posts once, which is one step
LONGER = programs(b"pick", OPERATIONS, 25).replace(b"],]\n", b"],['post 0']]\n") + TASK
REBASES = programs(b"rebase", OPERATIONS, 25, 3) + TASK
SHORT = b"version = 1\nprogram = [[]]" + TASK


def refused(answer):
    return Printed(b"", answer.status, answer.out)


def put_in(text, order):
    """A text with an order in front of it, in lines of 32 places each."""
    lines = [order[at:at + 32] for at in range(0, len(order), 32)]
    return b"order = [\n" + b"".join(b", ".join(b"%d" % caller for caller in line) + b",\n" for line in lines) + b"]\n" + text


def sent(name, make, answer):
    return Text(name, make, answer, (), "eevdf_orders")


ORDERED = (
    sent("newlines to be ordered", filled(b"\n"), refused(fault("missing version"))),
    sent("brackets to be ordered", filled(b"["), refused(NOT_TOML)),
    sent("a million keys to be ordered", numbered(b"k%d = 1\n", 1000000), refused(fault("missing version"))),
    sent("arrays to be ordered", given(b"x = " + b"[" * 100000 + b"]" * 100000), refused(NOT_TOML)),
    sent("bytes past the limit to be ordered", filled(b"\n", size=MOST_BYTES + 1),
         refused(fault("workload longer than 16777216 bytes"))),
    sent("the longest programs to be ordered", given(programs(b"pick", OPERATIONS, 64) + TASK),
         refused(fault("order longer than 1000000"))),
    sent("programs of one place more than an order has", given(LONGER), refused(fault("order longer than 1000000"))),
    sent("programs of the longest order", given(LONGEST), Printed(put_in(LONGEST, list(range(25)) * (4 * OPERATIONS)))),
    sent("ends of more steps than an order has places", given(programs(b"end 0", OPERATIONS, 64, 3) + TASK),
         refused(fault("order longer than 1000000"))),
    sent("rebases of the longest order", given(REBASES), Printed(put_in(REBASES, list(range(25)) * (4 * OPERATIONS)))),
    sent("a begin away from home to be ordered", given(programs(b"begin 0 0 100000", OPERATIONS, 2, 3) + TASK),
         refused(fault("bad begin at program 1 at 0"))),
    sent("a workload up to the limit to be ordered", padded(SHORT), Printed(put_in(padded(SHORT)(), []))),
)

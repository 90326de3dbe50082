"""Words of a command, more and longer ones than anybody types."""

from runner import Printed
from text import Text, given

USAGE = Printed(b"usage: eevdf solo|replay|run [--history] [--times] [solo: --strict] [FILE]\n", 2)
NOTHING = given(b"")

WORDS = (
    Text("fifty thousand words", NOTHING, USAGE, ("solo",) * 50000),
    Text("a flag again and again", NOTHING, USAGE, ("solo", *["--history"] * 50000)),
    Text("long words", NOTHING, USAGE, ("s" * 131000,) * 10),
)

"""Workloads with deeds that are refused, and with parts that a command doesn't do: what is said of them on standard error. What is printed
and the status are as without, but under `--strict`, where the first deed that is refused is a fault."""

from dataclasses import dataclass

from marked import BEGIN, END
from unread import said_of_each, unmarked

TOP = "version = 3\nprogram = [[], []]\n"
TASKS = "[[task]]\n[[task]]\n[[task]]\nhome = 1\n"


@dataclass(frozen=True)
class Refused:
    """A workload and what is said of its deeds."""

    name: str
    text: bytes
    said: str
    # the place in the script of the first of them
    first: int | None = 0


def refused(name, script, *lines, more=""):
    """A script whose marked deeds are refused, each with its line; and what is said of more of them."""
    text = f"{TOP}script = [{script}]\n{TASKS}"
    first = script.split(BEGIN)[0].count('",') if lines else None
    return Refused(name, unmarked(text).encode(), said_of_each(text, lines) + more, first)


def many(count):
    return ", ".join(f'{BEGIN}"0 sleep 0"{END}' for _ in range(count))


TEN = ("0 sleep 0: not running",) * 10
# A tick may bring a virtual time beyond this only by a refusal.
BOUND = 2**60

REFUSED = (
    refused("a sleep of a task that doesn't run", '"0 pick",\n«"0 sleep 1"»,\n"0 tick 5"', "0 sleep 1: not running"),
    refused("a sleep on an idle CPU", '«"1 sleep 2"»', "1 sleep 2: not running"),
    refused("a wake of a task that is awake", '«"0 wake 0 from 1"»', "0 wake 0 from 1: awake"),
    refused("a begin of a task that is awake", '«"0 begin 1 0 3000000"»', "0 begin 1 0 3000000: awake"),
    refused("deeds on a task that is elsewhere", '«"1 renice 0 5"», «"1 end 1"», "1 pick", «"1 set 0 0 3000000"»', "1 renice 0 5: not here",
            "1 end 1: not here", "1 set 0 0 3000000: not here"),
    refused("a yield where nobody runs", '«"0 yield"», "0 pick", "0 yield"', "0 yield: idle"),
    refused("idle time, and pulls that take no task", '"0 tick 5", "1 pull 0", "0 pull 1", "1 pick", "1 sleep 2", "1 pick", "1 tick 9", "0 pull 1"'),
    refused("ten deeds", many(10), *TEN),
    refused("a deed written with an escape", '«"0 sl\\u0065ep 1"»', "0 sleep 1: not running"),
)
# Ten are told one by one, and how many more there are.
MORE = (
    refused("eleven deeds", f"{many(10)}, {unmarked(many(1))}", *TEN, more="1 more deed is refused\n"),
    refused("twenty deeds", f"{many(10)}, {unmarked(many(10))}", *TEN, more="10 more deeds are refused\n"),
)

# Beyond so many bytes a workload isn't read again: the place in the script stands for that in the text.
LONG = f'{TOP}script = ["0 pick", "0 sleep 1"] # {"-" * 2**16}\n{TASKS}'
OF_LONG = Refused("a deed of a long text", LONG.encode(), "script at 1: 0 sleep 1: not running\n", 1)


def near_the_bound():
    """A task so far from 0 that a tick is out of range."""
    start = BOUND - 3000000
    script = f'"0 pick", {BEGIN}"0 tick 1000000000"{END}'
    lines = ["0 tick 1000000000: range"]
    text = f'version = 1\nprogram = [[]]\nscript = [{script}]\n[[task]]\nstart = {start}\n'
    return Refused("a tick out of range", unmarked(text).encode(), said_of_each(text, lines), 1)


def with_all_notes():
    """A deed that is refused beside a key that nothing reads and a program that isn't done."""
    text = 'version = 3\nprogram = [["pick"], []]\nscript = [«"0 sleep 0"»]\n[[task]]\nniec = 5\n'
    of_key = said_of_each(text.replace(BEGIN, "").replace(END, "").replace("niec", f"{BEGIN}niec{END}"),
                          ['nothing reads the key "niec" of a task; the nearest that is known is nice'])
    undone = "not done: the programs, which `eevdf run` does; solo does the script\n"
    return Refused("a deed beside all else that is told", unmarked(text).encode(),
                   of_key + said_of_each(text, ["0 sleep 0: not running"]) + undone)


OF_SCRIPTS = (*REFUSED, *MORE, OF_LONG, near_the_bound())

ONE_TASK = "[[task]]\n"
SCRIPT, ORDER = 'script = ["0 pick"]\n', "order = [0, 0, 0, 0]\n"
EMPTY, PROGRAM = "program = [[]]\n", 'program = [["pick"]]\n'
IN_ORDER = "not done: the programs in their order, which `eevdf replay` plays; solo does the script\n"

# For each command the parts of a workload, and what is said of what it doesn't do.
UNDONE = (
    ("solo", EMPTY + SCRIPT, ""),
    ("solo", PROGRAM + SCRIPT, "not done: the programs, which `eevdf run` does; solo does the script\n"),
    ("solo", PROGRAM + SCRIPT + ORDER, IN_ORDER),
    ("solo", f"order = []\n{EMPTY}{SCRIPT}", IN_ORDER),
    ("run", PROGRAM, ""),
    ("run", EMPTY + SCRIPT, "not done: the script, which `eevdf solo` does; run does the programs\n"),
    ("run", PROGRAM + ORDER, "not done: the order, which `eevdf replay` plays; run does the programs in none\n"),
    ("run", PROGRAM + ORDER + SCRIPT,
     "not done: the script, which `eevdf solo` does, and the order, which `eevdf replay` plays; run does the programs\n"),
    ("replay", PROGRAM + ORDER, ""),
    ("replay", PROGRAM + ORDER + SCRIPT, "not done: the script, which `eevdf solo` does; replay plays the order\n"),
)
NOT_ORDERED = "not ordered: the script, which `eevdf solo` does as it stands; the order is of the programs\n"


def with_parts(parts):
    return f"version = 1\n{parts}{ONE_TASK}".encode()

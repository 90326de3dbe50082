"""Workloads with keys that nothing reads, and what is said of each key, in its place between the marks. All is printed as without them."""

from dataclasses import dataclass

from marked import BEGIN, END, Case, said_of

TOP = 'version = 1\nprogram = [[]]\nscript = ["0 pick"]\n'
# What is printed of each of the workloads is printed of this one.
PLAIN = f"{TOP}[[task]]\n"

OF_WORKLOADS = "keys of a workload are version, program, order, script, task"
OF_TASKS = "keys of a task are home, nice, slice, start, asleep"
NEAREST = "the nearest that is known is"
# The keys that are told at most, and what is said of the one after them.
MOST = 10
NOT_TOLD = "nothing reads this key either; ten are told at most, and there may be more"


@dataclass(frozen=True)
class Unread:
    name: str
    text: bytes
    said: str


def unmarked(text):
    return text.replace(BEGIN, "").replace(END, "")


def said_of_each(text, messages):
    """What is said of each marked place of a text, in order."""
    pieces = text.split(BEGIN)
    said = ""
    for place, message in enumerate(messages, 1):
        before, behind = "".join(pieces[:place]), "".join(pieces[place:])
        marked, rest = behind.split(END, 1)
        said += said_of(f"{before.replace(END, '')}{BEGIN}{marked}{END}{rest.replace(END, '')}", message)
    return said


def unread(name, text, *messages):
    return Unread(name, unmarked(text).encode(), said_of_each(text, messages))


UNREAD = (
    unread("two letters in the other order", f"{PLAIN}«niec» = 5\n", f'nothing reads the key "niec" of a task; {NEAREST} nice'),
    unread("a letter too many", f"{PLAIN}home = 0\n«slices» = 100000\n", f'nothing reads the key "slices" of a task; {NEAREST} slice'),
    unread("a letter too few", f"{PLAIN}«sleep» = true\n", f'nothing reads the key "sleep" of a task; {NEAREST} asleep'),
    unread("a key of a task like none", f"{PLAIN}«cpus» = [0]\n", f'nothing reads the key "cpus" of a task; {OF_TASKS}'),
    unread("a key in quotes", f'{PLAIN}«"Nice"» = 5 # nice\n', f'nothing reads the key "Nice" of a task; {NEAREST} nice'),
    unread("a key of a workload", f"«orders» = [0]\n{PLAIN}", f'nothing reads the key "orders"; {NEAREST} order'),
    unread("a key of a workload like none", f"«cpus» = 4\n{PLAIN}", f'nothing reads the key "cpus"; {OF_WORKLOADS}'),
    unread("a script below a task", f'{PLAIN}«script» = ["0 pick"]\n',
           'nothing reads "script" as a key of a task; it belongs to the workload, before the first [[task]]'),
    unread("a key of an inline task", f"{TOP}task = [{{ home = 0, «niec» = 5 }}]\n", f'nothing reads the key "niec" of a task; {NEAREST} nice'),
    unread("a table", f"{PLAIN}[«machine»]\ncpus = 4\n", 'nothing reads the table "machine"; each table of a workload is a [[task]]'),
    unread("a key behind a string that looks like one", f"{PLAIN}home = 0 # niec = 3\n«note» = '''\nniec = 3\n'''\n",
           f'nothing reads the key "note" of a task; {OF_TASKS}'),
    unread("two keys", f"«version2» = 2\n{PLAIN}«Home» = 0\n", f'nothing reads the key "version2"; {NEAREST} version',
           f'nothing reads the key "Home" of a task; {NEAREST} home'),
    unread("ten keys", PLAIN + "".join(f"«key{place}» = 1\n" for place in range(MOST)),
           *(f'nothing reads the key "key{place}" of a task; {OF_TASKS}' for place in range(MOST))),
    unread("more keys than are told", PLAIN + "".join(f"«key{place}» = 1\n" for place in range(MOST)) + "«more» = 1\nand_more = 1\n",
           *(f'nothing reads the key "key{place}" of a task; {OF_TASKS}' for place in range(MOST)), NOT_TOLD),
    unread("more keys of inline tasks than are told",
           f"{TOP}task = [{{ {', '.join(f'«key{place}» = 1' for place in range(MOST))}, «more» = 1, and_more = 1 }}]\n",
           *(f'nothing reads the key "key{place}" of a task; {OF_TASKS}' for place in range(MOST)), NOT_TOLD),
    unread("a key with a dot in it", f"{PLAIN}«cpus».first = 0\n", f'nothing reads the key "cpus" of a task; {OF_TASKS}'),
    unread("a key whose parts have lines of their own", f"{PLAIN}«cpus».first = 0\ncpus.last = 1\n[task.cpus.more]\nnice = 5\n",
           f'nothing reads the key "cpus" of a task; {OF_TASKS}'),
    unread("a table whose parts have headers of their own", f"{PLAIN}[«machine»]\ncpus = 4\n[machine.more]\ncpus = 4\n",
           'nothing reads the table "machine"; each table of a workload is a [[task]]'),
    unread("a key in capitals", f"{PLAIN}«NICE» = 5\n", f'nothing reads the key "NICE" of a task; {NEAREST} nice'),
    unread("a table in a task", f"{PLAIN}[task.«niec»]\nnice = 5\n", f'nothing reads the key "niec" of a task; {NEAREST} nice'),
)

# A key that is missing, and one that nothing reads and that may be it.
MISSING = 'version = 1\nprogram = [[]]\n«scripts» = ["0 pick"]\n[[task]]\n'
NO_SCRIPT = 'a script is done, and the workload has none: `script = ["0 pick", ..]` before the first [[task]]\n'
SAME = "version = 1\nprogram = [[]]\n[[task]]\n«niec» = 5\n[[task]]\n«niec» = 5\n"
OF_MISSING = (
    Case("a key that is missing and one like it", unmarked(MISSING).encode(), "fault: missing script\n",
         NO_SCRIPT + said_of(MISSING, f'nothing reads the key "scripts"; {NEAREST} script')),
    Case("a key that is missing and the same one of two tasks", unmarked(SAME).encode(), "fault: missing script\n",
         NO_SCRIPT + said_of_each(SAME, 2 * (f'nothing reads the key "niec" of a task; {NEAREST} nice',))),
)

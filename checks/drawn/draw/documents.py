"""From a setup, an order and a script to a document, a nest of dictionaries and lists, and what can be wrong in it."""

import datetime
from copy import deepcopy

from plain.machine import Task
from plain.numbers import BOUND
from plain.report import text_of

PLAIN_TASK = Task()


def table_of_task(dice, task):
    """The keys of a task, in any order; one that has its default is mostly left out."""
    values = {"home": task.home, "nice": task.nice, "slice": task.length, "start": task.start, "asleep": task.asleep}
    usual = {"home": PLAIN_TASK.home, "nice": PLAIN_TASK.nice, "slice": PLAIN_TASK.length,
             "start": PLAIN_TASK.start, "asleep": PLAIN_TASK.asleep}
    kept = [key for key, value in values.items() if value != usual[key] or dice.random() < 0.2]
    dice.shuffle(kept)
    return {key: values[key] for key in kept}


def document(dice, version, setup, order=None, script=None):
    parts = {
        "version": version,
        "task": [table_of_task(dice, task) for task in setup.tasks],
        "program": [[text_of(operation) for operation in program] for program in setup.programs],
    }
    if order is not None:
        parts["order"] = order
    if script is not None:
        parts["script"] = [f"{cpu} {text_of(deed)}" for cpu, deed in script]
    return parts


# What can be wrong in it.

ODD_NUMBERS = (-1, 0, 1, 2, 3, 4, 15, 16, 17, 18, 19, 20, 21, -19, -20, -21, 63, 64, 65, 1023, 1024, 99999, 100000,
               100000000, 100000001, BOUND - 1, BOUND, BOUND + 1, -BOUND, -BOUND - 1, 2**63 - 1, -(2**63), 2**63, 2**64)
DATES = (datetime.date(1979, 5, 27), datetime.time(7, 32, 0), datetime.datetime(1979, 5, 27, 7, 32, 0))
ODD_VALUES = (True, False, 0.0, 1.0, -2.5, "", "0", "1", "pick", "0 pick", [], [0], ["pick"], [[]], {}, {"home": 0},
              *DATES)
ODD_WORDS = (
    "", " ", "0", "pick ", " pick", "Pick", "pick\t", "pick\n", "picks", "pi", "pick 0", "yield", "drain", "0 drain",
    "stop", "tick", "tick ", "tick 0", "tick 1", "tick 01", "tick +5", "tick -5", "tick  5", "tick 5 ", "tick 5 5",
    "tick 1000000000",
    "tick 1000000001", "tick 4294967296", "tick 9223372036854775808", "tick 18446744073709551616", "tick 18446744073709551617",
    "tick 1" + "0" * 40, "tick \u0661", "tick \uff11", "tick 5\u00a0", "tick 0x5", "tick 5.0", "tick 1_0",
    "sleep", "sleep 0", "sleep 1023", "sleep 1024", "sleep 00", "post 0", "post 1023", "post 1024", "0 post 0",
    "pull", "pull 0", "pull 1", "pull 15", "pull 16", "pull 63", "pull 64", "pull 01",
    "wake 0", "wake 0 from 0", "0 wake 0 from 0", "0 wake 0", "0 wake 0 from", "0 wake 0 from 15", "0 wake 0 from 16",
    "0 wake 0 from 63", "0 wake 0 from 64", "0 wake 1023 from 0", "0 wake 1024 from 0", "0 wake 0  from 0", "0 wake 0 of 0",
    "renice 0 0", "renice 0 19", "renice 0 20", "renice 0 -0", "renice 0 -1", "renice 0 -20", "renice 0 -21", "renice 0 +1",
    "renice 0", "renice 1023 1", "renice 1024 1", "renice 0 01", "renice 0 -01", "renice 0 --1", "renice -1 1",
    "renice 0 18446744073709551615", "renice 0 -18446744073709551615",
    "begin", "begin 0", "begin 0 0", "begin 0 0 100000", "begin 0 -20 100000000", "begin 0 19 99999", "begin 0 0 100000001",
    "begin 0 0 0100000", "begin 0 -0 100000", "begin 1023 0 100000", "begin 1024 0 100000", "begin 0 0 100000 0", "begin 0 20 100000",
    "begin 0 0 -100000", "begin 0 0 18446744073709551616", "end", "end 0", "end 1023", "end 1024", "end 00", "end -1", "end 0 0",
    "set", "set 0", "set 0 0", "set 0 0 100000", "set 0 -20 100000000", "set 0 19 99999", "set 0 -21 100000", "set 0 0 100000001",
    "set 0  0 100000", "set 0 0  100000", "set 0 +1 100000", "set 1023 0 100000", "set 1024 0 100000", "set 0 100000 0",
    "rebase", "rebase ", " rebase", "rebase 0", "rebased", "Rebase", "reset", "ends",
    "doze", "doze 0", "doze 1023", "doze 1024", "doze 00", "doze -1", "doze 0 0", "doze  0", "dozes 0", "Doze 0", "doze 18446744073709551616",
    "0 pick", "1 pick", "15 pick", "16 pick", "63 pick", "64 pick", "00 pick", "+0 pick", "-0 pick", "0  pick", "0\tpick",
    "0pick", "pick 0", "0 tick 1", "0 tick 0", "0 tick 1000000000", "0 tick 1000000001", "0 pull 0", "0 pull 1", "1 pull 0",
    "1 pull 1", "0 sleep 0", "0 sleep 1023", "0 sleep 1024", "1 wake 0 from 0", "0 renice 0 5", "0 renice 0 -0",
    "0 renice 0 20", "0 renice 0 -20", "15 renice 0 -21", "0 begin 0 0 100000", "1 begin 0 0 100000", "0 begin 1 0 100000",
    "0 end 0", "15 end 1023", "0 end 1024", "0 set 0 0 100000", "1 set 0 19 100000000", "0 set 0 0 99999", "0 rebase", "63 rebase",
    "0 doze 0", "1 doze 0", "15 doze 1023", "0 doze 1024", "64 doze 0", "0 doze", "0 doze 0 from 0",
    "64 rebase", "0 rebase 0", "18446744073709551616 pick", "0 0 pick", "0 pick 0",
)


def places(value, way=()):
    """The ways to all values in a document, itself aside."""
    members = value.items() if isinstance(value, dict) else enumerate(value) if isinstance(value, list) else ()
    found = []
    for key, member in members:
        found.append((*way, key))
        found += places(member, (*way, key))
    return found


def holder_of(document, way):
    for key in way[:-1]:
        document = document[key]
    return document


def place(dice, document):
    """The way to a value; a top one is as likely as all others together."""
    ways = places(document)
    top = [way for way in ways if len(way) == 1]
    return dice.choice(top if dice.random() < 0.3 else ways) if ways else None


def odd_value(dice, value):
    share = dice.random()
    if share < 0.35 or isinstance(value, bool):
        return deepcopy(dice.choice(ODD_VALUES))
    if isinstance(value, str) or share < 0.45:
        return odd_words(dice, value)
    return dice.choice(ODD_NUMBERS)


def odd_words(dice, value):
    """Other words, or the same ones with a number changed."""
    words = value.split(" ") if isinstance(value, str) else []
    numbers = [at for at, word in enumerate(words) if word.lstrip("-").isdigit()]
    if not numbers or dice.random() < 0.5:
        return dice.choice(ODD_WORDS)
    words[dice.choice(numbers)] = str(dice.choice(ODD_NUMBERS))
    return " ".join(words)


def odd_task_key(dice, document):
    """Gives a task a key whose value may be wrong."""
    tables = [table for table in document.get("task", []) if isinstance(table, dict)]
    if tables:
        table = dice.choice(tables)
        key = dice.choice(("home", "nice", "slice", "start", "asleep"))
        table[key] = odd_value(dice, table.get(key, 0))


def spoil_value(dice, document):
    way = place(dice, document)
    if way is not None:
        holder = holder_of(document, way)
        holder[way[-1]] = odd_value(dice, holder[way[-1]])


def spoil_by_absence(dice, document):
    way = place(dice, document)
    if way is not None:
        del holder_of(document, way)[way[-1]]


def spoil_by_doubling(dice, document):
    """Puts a member of an array into it once more, at any place."""
    arrays = [key for key in ("task", "program", "order", "script") if isinstance(document.get(key), list)]
    arrays = [key for key in arrays if document[key]]
    if arrays:
        members = document[dice.choice(arrays)]
        members.insert(dice.randrange(len(members) + 1), deepcopy(dice.choice(members)))


def spoil(dice, document):
    """Puts one to three things wrong; now and then none of them matters."""
    for _ in range(dice.choice((1, 1, 1, 2, 3))):
        if isinstance(document.get("task", []), list) and dice.random() < 0.3:
            odd_task_key(dice, document)
        else:
            dice.choice((spoil_value, spoil_value, spoil_by_absence, spoil_by_doubling))(dice, document)


IGNORED_VALUES = (0, -5, 2**63 - 1, 1.5, float("inf"), True, "text", "\u00e9\u4e2d", "", [], [1, [2, ["three"]]],
                  {}, {"version": 3}, *DATES)
IGNORED_KEYS = ("note", "Version", "tasks", "programs", "orders", "scripts", "versio", "a key", "\u00fc", "", "note.more",
                "home")


def add_ignored(dice, document):
    """Adds keys that the workbench doesn't know, to the document and to tasks."""
    tables = [document, *(table for table in document["task"] if isinstance(table, dict))]
    for _ in range(dice.choice((1, 1, 2, 4))):
        key = dice.choice(IGNORED_KEYS)
        table = dice.choice(tables)
        if table is document or key != "home":
            table[key] = deepcopy(dice.choice(IGNORED_VALUES))


def shuffled(dice, document):
    keys = list(document)
    dice.shuffle(keys)
    return {key: document[key] for key in keys}

"""Draws cases: the words of a command and the bytes that it reads."""

from dataclasses import dataclass, replace

from draw import documents, large, machines, orders
from draw.damage import damaged, is_read_alike
from draw.texts import text_of_document
from plain.document import MARK
from plain.limits import VERSIONS


@dataclass(frozen=True)
class Case:
    """`program` is eevdf, or eevdf_orders with eevdf behind it. `deeds` are those that are done, and those of a drain aside."""

    kind: str
    program: str
    words: tuple
    data: bytes
    deeds: tuple = ()


def with_mark(dice, data):
    return MARK + data if dice.random() < 0.03 else data


def deeds_of(setup):
    """The operations of all programs."""
    return tuple(operation for program in setup.programs for operation in program)


def text_of(dice, document):
    if dice.random() < 0.15:
        documents.add_ignored(dice, document)
    return with_mark(dice, text_of_document(dice, documents.shuffled(dice, document)))


# What stands behind a command, and how often.
FLAGS = {(): 45, ("--times",): 15, ("--history",): 30, ("--history", "--times"): 10}


def command(dice, name):
    return (name, *dice.choices(list(FLAGS), FLAGS.values())[0])


RUN = ("run", "--history")


def any_command(dice):
    return RUN if dice.random() < 0.2 else command(dice, dice.choice(("solo", "replay")))


def solo(dice, version):
    setup, script = machines.setup(dice, version)
    order = orders.whole_order(dice, setup) if dice.random() < 0.1 else None
    document = documents.document(dice, version, setup, order, script)
    return Case("solo", "eevdf", command(dice, "solo"), text_of(dice, document), tuple(deed for _, deed in script))


def document_in_order(dice, version, setup, order, script):
    return documents.document(dice, version, setup, order, script if dice.random() < 0.1 else None)


def replay(dice, version):
    setup, script = machines.setup(dice, version)
    document = document_in_order(dice, version, setup, orders.whole_order(dice, setup), script)
    return Case("replay", "eevdf", command(dice, "replay"), text_of(dice, document), deeds_of(setup))


def run(dice, version):
    setup, script = machines.setup(dice, version)
    order = orders.whole_order(dice, setup) if dice.random() < 0.1 else None
    document = documents.document(dice, version, setup, order, script if dice.random() < 0.1 else None)
    return Case("run", "eevdf", RUN, text_of(dice, document), deeds_of(setup))


def broken(dice, version):
    setup, script = machines.setup(dice, version)
    document = document_in_order(dice, version, setup, orders.broken_order(dice, setup), script)
    return Case("broken order", "eevdf", command(dice, "replay"), text_of(dice, document))


def any_document(dice, version):
    """A lawful document, with an order or a script or both or neither."""
    setup, script = machines.setup(dice, version)
    order = orders.whole_order(dice, setup) if dice.random() < 0.5 else None
    return documents.document(dice, version, setup, order, script if dice.random() < 0.6 else None)


def values(dice, version):
    document = any_document(dice, version)
    if dice.random() < 0.2:
        document["version"] = dice.choice([other for other in VERSIONS if other != version])
    documents.spoil(dice, document)
    data = with_mark(dice, text_of_document(dice, documents.shuffled(dice, document)))
    return Case("values", "eevdf", any_command(dice), data)


def damaged_text(dice, document):
    """Damaged bytes that both readers are known to read alike, or None."""
    data = damaged(dice, text_of(dice, document))
    return data if is_read_alike(data) else None


def damage(dice, version):
    data = None
    while data is None:
        data = damaged_text(dice, any_document(dice, version))
    return Case("bytes", "eevdf", any_command(dice), data)


SEEDS = ("0", "1", "+5", "4294967296", "9223372036854775808", "18446744073709551615")


def seed_words(dice):
    share = dice.random()
    if share < 0.3:
        return ()
    return ("--seed", dice.choice(SEEDS) if share < 0.4 else str(dice.randrange(2**64)))


def ordered(dice, version):
    """A workload into which an order is put."""
    setup, script = machines.setup(dice, version)
    document = documents.document(dice, version, setup, None, script if dice.random() < 0.1 else None)
    return Case("ordered", "eevdf_orders", seed_words(dice), text_of(dice, document), deeds_of(setup))


def refused(dice, version):
    """A workload into which an order may not be put."""
    case = dice.choice((solo, replay, values, damage))(dice, version)
    return replace(case, kind="ordered or refused", program="eevdf_orders", words=seed_words(dice))


def limits(dice, version):
    program, words, data = large.draw(dice, version)
    return Case("limits", program, words, data)


KINDS = {solo: 26, replay: 18, run: 18, broken: 10, values: 22, damage: 14, ordered: 12, refused: 5, limits: 0.6}

# How often each version is drawn.
SHARES = {1: 1, 2: 1, 3: 1, 4: 1}

# What the cases of these kinds are called.
NAMES = ("solo", "replay", "run", "broken order", "values", "bytes", "ordered", "ordered or refused", "limits")


def draw(dice, number):
    """The case of a number from 0 on. The first ones are one of each kind, so that none stays away."""
    kinds = list(KINDS)
    kind = kinds[number] if number < len(kinds) else dice.choices(kinds, list(KINDS.values()))[0]
    return kind(dice, dice.choices(list(SHARES), list(SHARES.values()))[0])

"""A workload with an order put in: "A workload with an order" of docs/formats.md."""

from plain.document import MARK
from plain.generator import Generator
from plain.steps import Player, count_of_steps

LINE = 32


def made_order(setup, seed):
    """The order of a seed, or in turn where there is none."""
    generator = None if seed is None else Generator(seed)
    player, order, caller = Player(setup), [], setup.cpus() - 1
    for _ in range(count_of_steps(setup)):
        caller = (caller + 1 if generator is None else generator.word()) % setup.cpus()
        while player.refusal(caller) is not None:
            caller = (caller + 1) % setup.cpus()
        player.step(caller)
        order.append(caller)
    return order


def order_text(order):
    lines = [", ".join(map(str, order[at:at + LINE])) + ",\n" for at in range(0, len(order), LINE)]
    return f"order = [\n{''.join(lines)}]\n".encode()


def ordered_text(data, order):
    """The bytes of a workload with an order as its first key."""
    mark = MARK if data.startswith(MARK) else b""
    return mark + order_text(order) + data[len(mark):]

"""Draws orders: lawful and complete ones by the plain player, and broken ones made of them."""

from plain.steps import Player, count_of_steps


def next_caller(dice, player, last, patience):
    """A caller that may step: mostly the last one again, where it has patience."""
    able = player.may_step()
    if last in able and dice.random() < patience:
        return last
    return dice.choice(able)


def whole_order(dice, setup):
    """A lawful and complete order."""
    player, order = Player(setup), []
    patience = dice.choice((0.0, 0.3, 0.8, 0.97))
    for _ in range(count_of_steps(setup)):
        caller = next_caller(dice, player, order[-1] if order else None, patience)
        player.step(caller)
        order.append(caller)
    return order


def without_some(dice, order):
    return order[:dice.randrange(len(order) + 1)]


def with_more(dice, setup, order):
    return order + [dice.randrange(setup.cpus())]


def with_nobody(dice, setup, order):
    at = dice.randrange(len(order) + 1)
    return order[:at] + [dice.choice((setup.cpus(), 64, 2**32, 2**63 - 1))] + order[at:]


def with_two_swapped(dice, order):
    if len(order) < 2:
        return order
    at, swapped = dice.randrange(len(order) - 1), list(order)
    swapped[at], swapped[at + 1] = swapped[at + 1], swapped[at]
    return swapped


def with_another(dice, setup, order):
    changed = list(order)
    if changed:
        changed[dice.randrange(len(changed))] = dice.randrange(setup.cpus())
    return changed


def blocked_order(dice, setup):
    """Steps that may be done, and then a caller that waits for a lock, where one does."""
    player, order = Player(setup), []
    for _ in range(count_of_steps(setup)):
        waiting = [caller for caller in range(setup.cpus()) if (player.refusal(caller) or "").startswith("blocked")]
        if waiting and dice.random() < 0.2:
            return order + [dice.choice(waiting)]
        caller = dice.choice(player.may_step())
        player.step(caller)
        order.append(caller)
    return order


def broken_order(dice, setup):
    """An order that mostly has a fault."""
    order = whole_order(dice, setup)
    return dice.choice((
        lambda: without_some(dice, order),
        lambda: with_more(dice, setup, order),
        lambda: with_nobody(dice, setup, order),
        lambda: with_two_swapped(dice, order),
        lambda: with_another(dice, setup, order),
        lambda: blocked_order(dice, setup),
    ))()

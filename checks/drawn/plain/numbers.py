"""Weights, charges and placements: "Numbers" of docs/model.md."""

BOUND = 2**60

WEIGHTS = [
    88761, 71755, 56483, 46273, 36291,
    29154, 23254, 18705, 14949, 11916,
    9548, 7620, 6100, 4904, 3906,
    3121, 2501, 1991, 1586, 1277,
    1024, 820, 655, 526, 423,
    335, 272, 215, 172, 137,
    110, 87, 70, 56, 45,
    36, 29, 23, 18, 15,
]


def is_in_range(time):
    return -BOUND <= time <= BOUND


def weight_of(nice):
    return WEIGHTS[nice + 20]


def charge_of(nanoseconds, weight):
    return nanoseconds * 1024 // weight


def lag_limit_of(length, weight):
    return charge_of(2 * length, weight)


def limited(lag, length, weight):
    limit = lag_limit_of(length, weight)
    return max(-limit, min(limit, lag))


def placement_of(virtual_time, total, lag, weight):
    return virtual_time - lag * (total + weight) // total

"""What ends a command without a report."""


class Fault(Exception):
    """A workload or an order is refused, with the words behind `fault: `."""


def missing(key):
    return Fault(f"missing {key}")


def bad_value(key):
    return Fault(f"bad value at {key}")

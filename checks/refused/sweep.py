"""Counts up until a run meets no refused request."""

# So many runs are looked at before it is asked whether one of them met no refusal.
AT_ONCE = 32

# More requests than any run makes.
MOST = 20000

# So many faults of a workload or a command are said.
FAULTS_SAID = 5


def sweep(pool, run, kind, look):
    """Looks at the runs of which request 1, 2, .. of a kind is refused, up to the first that meets none, and gives how many met one.

    `run(n)` runs with the n-th request refused, `look(n, run)` looks at a run."""
    for first in range(1, MOST, AT_ONCE):
        numbers = range(first, first + AT_ONCE)
        for number, result in zip(numbers, pool.map(run, numbers)):
            look(number, result)
            if not result.met(kind, number):
                return number - 1
    raise RuntimeError(f"more than {MOST} requests")


def first_of(faults):
    """The first faults, and how many there are more."""
    more = len(faults) - FAULTS_SAID
    return "\n".join([*faults[:FAULTS_SAID], *[f"and {more} more"] * (more > 0)])

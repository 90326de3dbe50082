"""Runs of the programs by threads: "Threads" of docs/model.md.

The threads may come in any order, so a workload has many runs. Here is whether the programs can have come to a history, and
what it leaves.
"""

from collections import defaultdict

from plain.machine import Outcome, one_thread


def posts_of(setup):
    """The tasks that each program posts, by sender and home."""
    posts = defaultdict(list)
    for sender, program in enumerate(setup.programs):
        for operation in program:
            if operation[0] == "post":
                posts[sender, setup.tasks[operation[1]].home].append(operation[1])
    return posts


def wakes_of(script):
    """The tasks of the wakes that were done, by sender and home."""
    wakes = defaultdict(list)
    for home, deed in script:
        if deed[0] == "wake":
            wakes[deed[2], home].append(deed[1])
    return wakes


def requests_left(setup, script):
    """The requests that weren't drained, or None where the wakes aren't the first requests that were posted."""
    posts, wakes = posts_of(setup), wakes_of(script)
    if any(posts[pair][:len(tasks)] != tasks for pair, tasks in wakes.items()):
        return None
    return {pair: tasks[len(wakes[pair]):] for pair, tasks in posts.items()}


def drained(deeds, cpu, has_own):
    """How many of the deeds one drain can have done, or None where it has left out a request of its own CPU."""
    count, last, found_own = 0, -1, False
    while count < len(deeds) and deeds[count][0] == "wake" and deeds[count][2] > last:
        last = deeds[count][2]
        if last == cpu:
            if not has_own:
                break
            found_own = True
        count += 1
    return count if found_own == has_own else None


def follows(setup, cpu, deeds):
    """Whether the deeds of a CPU are its program's operations, in order and each once."""
    own = 0
    for operation in setup.programs[cpu]:
        if operation[0] == "post":
            own += setup.tasks[operation[1]].home == cpu
        elif operation[0] == "drain":
            count = drained(deeds, cpu, own > 0)
            if count is None:
                return False
            own -= own > 0
            deeds = deeds[count:]
        elif deeds[:1] == [operation]:
            deeds = deeds[1:]
        else:
            return False
    return not deeds


def run(setup, script):
    """The outcome of the run with this history, or None where the programs have no such run."""
    left = requests_left(setup, script)
    if left is None:
        return None
    for cpu in range(setup.cpus()):
        if not follows(setup, cpu, [deed for on, deed in script if on == cpu]):
            return None
    alone = one_thread(setup, script)
    return Outcome(alone.lines, alone.queues, left)

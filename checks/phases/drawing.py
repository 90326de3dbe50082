"""Draws workloads of phases."""

# A task has two seconds of its request left when it runs for four, beside a CPU that does something each 300 ms.
LONG_REQUEST = '''version = 1
[machine]
cpus = 2
lasts = "9s"
pull = false
[[task]]
name = "yields"
count = 2
home = 0
slice = "100ms"
phases = [{ loop = 20, phases = ["yield", { run = "1us" }] }, { run = "4s" }]
[[task]]
name = "beside"
home = 1
phases = [{ run = "300ms" }, { sleep = "300ms" }]
'''

# Each task waits more than a hundred times, so that a wait in a hundred is left out of the p99.
MANY_WAITS = '''version = 1
seed = 5
[machine]
lasts = "400ms"
[[task]]
name = "a"
count = 3
phases = [{ run = "1ns..3ms" }, { sleep = "1ns..900us" }, { nice = 3 }, { run = "1us..1ms" }, { nice = -4 }]
[[task]]
name = "b"
nice = 7
slice = "300us"
phases = [{ run = "10us..90us" }, { sleep = "1us..2ms" }]
'''

# A resume is kept for `none`, and one for `pair`, which the first of the two takes.
UNRESUMED = '''version = 1
[machine]
cpus = 2
lasts = "10ms"
[[task]]
name = "wakes"
home = 0
phases = [{ run = "1ms" }, { resume = "three" }, { resume = "none" }, { resume = "pair" }, { sleep = "1s" }]
[[task]]
name = "three"
count = 3
home = 1
phases = [{ run = "100us" }, "suspend"]
[[task]]
name = "none"
home = 1
begins = "2ms"
phases = ["suspend", { run = "1s" }]
[[task]]
name = "pair"
count = 2
home = 0
begins = "3ms"
phases = [{ run = "100us" }, "suspend", { run = "100us" }, "end"]
'''
UNRESUMED_SAID = b"""three: 3 tasks wait to be resumed at the end
pair: 1 task waits to be resumed at the end
"""

LENGTHS = ["37us", "100us", "250us", "1ms", "1500us", "2ms", "3ms", "7ms", "999999ns"]
RANGES = ["100us..900us", "1ms..4ms", "1ns..2ms", "3ms..3ms"]


def length(random):
    return random.choice(LENGTHS + RANGES)


def timed(random):
    word = random.choice(["run", "run", "run", "sleep", "sleep", "timer"])
    return f'{{ {word} = "{random.choice(LENGTHS) if word == "timer" else length(random)}" }}'


def timeless(random, names):
    resume = f'{{ resume = "{random.choice(names)}" }}'
    return random.choice(['"suspend"', '"yield"', f"{{ nice = {random.randint(-20, 19)} }}", resume, resume, resume])


def phases(random, names, depth=0):
    parts = [timed(random)]
    for _ in range(random.randint(0, 3)):
        kind = random.random()
        if kind < 0.4:
            parts.append(timed(random))
        elif kind < 0.8 or depth == 3:
            parts.append(timeless(random, names))
        else:
            parts.append(f"{{ loop = {random.randint(1, 3)}, phases = [{phases(random, names, depth + 1)}] }}")
    if depth == 0 and random.random() < 0.1:
        parts.append('"end"')
    random.shuffle(parts)
    return ", ".join(parts)


def task(random, name, names, cpus):
    lines = ["[[task]]", f'name = "{name}"']
    arrive = random.random() < 0.25
    if arrive:
        lines.append(f'every = "{length(random)}"')
        lines.append(f"at_once = {random.randint(1, 5)}")
        if random.random() < 0.5:
            lines.append(f"count = {random.randint(1, 20)}")
    elif random.random() < 0.5:
        lines.append(f"count = {random.randint(1, 5)}")
    if random.random() < 0.5:
        lines.append(f"home = {random.randrange(cpus)}")
    if random.random() < 0.5:
        lines.append(f"nice = {random.randint(-20, 19)}")
    if random.random() < 0.3:
        lines.append(f'slice = "{random.choice(["100us", "500us", "1ms", "10ms", "100ms"])}"')
    if random.random() < 0.2:
        lines.append(f'begins = "{random.choice(LENGTHS)}"')
    end = ', "end"' if arrive else ""
    lines.append(f"phases = [{phases(random, names)}{end}]")
    return lines


def draw_long(random):
    """The text of a workload whose tasks yield so often that more than a second of a request is left, beside tasks of other CPUs."""
    cpus = random.randint(1, 3)
    lines = ["version = 1", f"seed = {random.randrange(1 << 63)}", "[machine]", f"cpus = {cpus}", 'lasts = "9s"']
    if random.random() < 0.3:
        lines.append('preempt = "tick"')
    if random.random() < 0.2:
        lines.append('tick = "1700ms"')
    if random.random() < 0.7:
        lines.append("pull = false")
    loop = random.randint(10, 40)
    for name in ("yields", "rests")[:random.randint(1, 2)]:
        yields = f'{{ loop = {loop}, phases = ["yield", {{ run = "1us" }}] }}'
        lines += ["[[task]]", f'name = "{name}"', f"count = {random.randint(2, 3)}", "home = 0", 'slice = "100ms"',
                  f"nice = {random.randint(-20, 19)}", f'phases = [{yields}, {{ run = "2s..6s" }}]']
    lines += ["[[task]]", 'name = "beside"', f"count = {cpus}", 'phases = [{ run = "10ms..90ms" }, { sleep = "10ms..900ms" }]']
    return "\n".join(lines) + "\n"


def draw(random):
    """The text of a workload of phases without a fault."""
    if random.random() < 0.1:
        return draw_long(random)
    cpus = random.choice([1, 1, 2, 2, 3, 4, 7])
    names = [f"t{number}" for number in range(random.randint(1, 5))]
    lines = ["version = 1", f"seed = {random.randrange(1 << 63)}", "[machine]", f"cpus = {cpus}",
             f'lasts = "{random.choice(["10ms", "25ms", "60ms"])}"']
    if random.random() < 0.4:
        lines.append(f'tick = "{random.choice(["1ms", "4ms", "333us"])}"')
    if random.random() < 0.4:
        lines.append('preempt = "tick"')
    if random.random() < 0.2:
        lines.append("pull = false")
    if random.random() < 0.3:
        lines.append('sleep = "doze"')
    for name in names:
        lines += task(random, name, names, cpus)
    return "\n".join(lines) + "\n"

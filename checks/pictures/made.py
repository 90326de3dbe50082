"""Workloads to be drawn: small ones from a seed, and large ones."""

from random import Random


def task_text(home, nice, length, start, asleep):
    return f"[[task]]\nhome = {home}\nnice = {nice}\nslice = {length}\nstart = {start}\nasleep = {str(asleep).lower()}\n"


def workload(cpus, tasks, script):
    """A workload of version 4 without programs."""
    deeds = "".join(f'"{deed}",\n' for deed in script)
    return f"version = 4\nprogram = [{'[], ' * cpus}]\nscript = [\n{deeds}]\n{''.join(tasks)}".encode()


def drawn_deed(dice, cpus, homes):
    """Picks and ticks come more often; deeds that name a task name any, so some of them are refused."""
    cpu, task = dice.randrange(cpus), dice.randrange(len(homes))
    kind = dice.choice(("pick", "pick", "pick", "tick", "tick", "tick", "tick", "sleep", "wake", "wake", "wake", "pull", "renice", "yield",
                        "begin", "end", "set", "rebase", "doze", "doze"))
    given = f"{task} {dice.randrange(-20, 20)} {dice.randrange(100000, 9000000)}"
    if kind == "tick":
        return f"{cpu} tick {dice.choice((1, 1000, 250000, dice.randrange(1, 5000000)))}"
    if kind in ("sleep", "doze", "end"):
        return f"{cpu} {kind} {task}"
    if kind == "begin":
        return f"{homes[task]} begin {given}"
    if kind == "set":
        return f"{cpu} set {given}"
    if kind == "wake":
        return f"{homes[task]} wake {task} from {dice.randrange(cpus)}"
    if kind == "renice":
        return f"{cpu} renice {task} {dice.randrange(-20, 20)}"
    if kind == "pull" and cpus > 1:
        return f"{cpu} pull {dice.choice([other for other in range(cpus) if other != cpu])}"
    return f"{cpu} {kind}" if kind in ("yield", "rebase") else f"{cpu} pick"


def drawn(seed):
    """1 to 6 CPUs, 1 to 12 tasks and up to 300 deeds."""
    dice = Random(seed)
    cpus = dice.randrange(1, 7)
    homes = [dice.randrange(cpus) for _ in range(dice.randrange(1, 13))]
    tasks = [task_text(home, dice.choice((0, 0, 5, dice.randrange(-20, 20))), dice.choice((3000000, dice.randrange(100000, 9000000))),
                       dice.choice((0, 0, dice.randrange(-1000000, 1000000))), dice.random() < 0.2) for home in homes]
    return workload(cpus, tasks, [drawn_deed(dice, cpus, homes) for _ in range(dice.randrange(300))])


def late_requests():
    """Task 0 runs for 10 ms where its slice is 1 ms, while task 1 waits."""
    tasks = [task_text(0, 0, 1000000, 0, False) for _ in range(2)]
    return workload(1, tasks, ["0 pick", "0 tick 10000000", "0 pick", "0 tick 1000000", "0 pick", "0 tick 1000000"])


def late_yield():
    """The request of task 0 is longer by a yield, so it isn't late when task 1 has run for 3 ms."""
    tasks = [task_text(0, 0, 1000000, 0, False) for _ in range(2)]
    return workload(1, tasks, ["0 pick", "0 tick 500000", "0 yield", "0 pick", "0 tick 3000000"])


def empty():
    """A machine on which nobody is runnable and nothing is done."""
    return workload(1, [task_text(0, 0, 3000000, 0, True)], [])


def alone():
    """40 CPUs, each with one task, of each level, which runs for a nanosecond."""
    tasks = [task_text(cpu, cpu - 20, 3000000, 0, False) for cpu in range(40)]
    return workload(40, tasks, [deed for cpu in range(40) for deed in (f"{cpu} pick", f"{cpu} tick 1")])


def widest():
    """64 CPUs with 1024 tasks, each of which is picked and runs."""
    tasks = [task_text(task % 64, task % 40 - 20, 3000000, 0, False) for task in range(1024)]
    rounds = [deed for at in range(6) for cpu in range(64) for deed in (f"{cpu} pick", f"{cpu} tick {1000000 + at}")]
    return workload(64, tasks, rounds)


def longest(deeds=640000):
    """So many deeds on two CPUs with 32 tasks: turns, sleeps, wakes and pulls."""
    tasks = [task_text(task % 2, task % 5, 3000000, 0, False) for task in range(32)]
    script = []
    for at in range(deeds // 8):
        task = at % 32
        script += [f"0 pick", f"0 tick {100000 + at % 7}", "1 pick", "1 tick 90000", f"0 sleep {task}", f"1 sleep {task}",
                   f"{task % 2} wake {task} from {1 - at % 2}", f"{at % 2} pull {1 - at % 2}"]
    return workload(2, tasks, script)


def dense():
    """3000 short stretches on 3 CPUs, each as long as a slice. CPU 2 is the slower one to go on: where it pulls, it waits for CPU 0, which
    gets a task back."""
    tasks = [task_text(task % 3, 0, 100000, 0, False) for task in range(9)]
    script = []
    for at in range(1000):
        for cpu, length in enumerate((100000, 110000 + at % 13, 70000 + at % 3)):
            script += [f"{cpu} pick", f"{cpu} tick {length}"]
        if at % 40 == 20:
            script += leave(2, range(9)) + leave(2, range(9)) + ["2 pull 0"]
            script += [f"{task % 3} wake {task} from 0" for task in range(9)] + ["0 pull 2"]
    return workload(3, tasks, script)


def leave(cpu, tasks):
    """Whoever a pick lets run falls asleep, if it is one of these."""
    return [f"{cpu} pick", *(f"{cpu} sleep {task}" for task in tasks)]


def fullest():
    """Hardly a picture is larger: of 64 CPUs, with about 1200 stretches, 16 curves with points in each part of the time, and pulls wherever
    marks have room. In each group of four CPUs six tasks are at home on the first one and two on the second one. The others pull some of
    them, all run for a while, and go home."""
    tasks = [task_text(task // 8 * 4 + task % 8 // 6, 0, 100000, 0, False) for task in range(128)]
    return workload(64, tasks, [deed for _ in range(8) for part in (pulls_of, runs_of, ways_home_of) for first in range(0, 64, 4)
                                for deed in part(first)])


def pulls_of(first):
    return [f"{first + cpu} pull {first + source}" for cpu, source in ((1, 0), (2, 1), (3, 0)) for _ in range(2)]


def runs_of(first):
    return [deed for cpu in range(first, first + 4) for _ in range(2) for deed in (f"{cpu} pick", *ticks_of(first, cpu, 32))]


def ticks_of(first, cpu, count):
    """The tasks of the first two groups have curves, to which each tick adds a point."""
    return [f"{cpu} tick 5000000"] * count if first < 8 else [f"{cpu} tick {5000000 * count}"]


def ways_home_of(first):
    own = range(2 * first, 2 * first + 8)
    asleep = [deed for cpu in range(first, first + 4) for _ in range(2) for deed in leave(cpu, own)]
    woken = [f"{first + task % 8 // 6} wake {task} from {first + 3}" for task in own]
    return [*asleep, *woken, f"{first} pick", *(tick for cpu in range(first, first + 4) for tick in ticks_of(first, cpu, 64))]


def yields():
    """Task 0 yields, and so does task 1."""
    tasks = [task_text(0, 0, 3000000, 0, False) for _ in range(2)]
    return workload(1, tasks, ["0 pick", "0 tick 4000000", "0 yield", "0 pick", "0 tick 1000000", "0 yield"])


def ends():
    """Stretches that end for each reason. Task 2 wakes 3 microseconds before it runs."""
    tasks = [task_text(0, 0, 3000000, 0, False), task_text(0, 0, 3000000, 0, False), task_text(0, 0, 3000000, 0, True),
             task_text(1, 0, 3000000, 0, False)]
    turn = ["0 pick", "0 tick 4000000"]
    script = [*turn, "0 yield", *turn, *turn, *turn, "1 pick", "1 tick 30000000", "0 pull 1", "0 tick 1000", "0 wake 2 from 0", "0 tick 2000",
              "0 sleep 0", "0 pick", "0 tick 1000", "0 end 1", "0 pick", "0 tick 1000"]
    return workload(2, tasks, script)


def three_turns():
    """Tasks 0, 1 and 0 run for 4 ms each, and task 1 falls asleep when it has run."""
    tasks = [task_text(0, 0, 3000000, 0, False) for _ in range(2)]
    return workload(1, tasks, ["0 pick", "0 tick 4000000", "0 pick", "0 tick 4000000", "0 sleep 1", "0 pick", "0 tick 4000000"])


def late_wake():
    """CPU 0 runs for 5 ms, and only then wakes a task of CPU 1, which runs for 1 ms."""
    tasks = [task_text(0, 0, 3000000, 0, False), task_text(1, 0, 3000000, 0, True)]
    return workload(2, tasks, ["0 pick", "0 tick 5000000", "1 wake 1 from 0", "1 pick", "1 tick 1000000"])


def late_pull():
    """CPU 1 pulls when CPU 0 is at 1000 ns and itself at 5000 ns."""
    tasks = [task_text(0, 0, 3000000, 0, False) for _ in range(3)]
    return workload(2, tasks, ["0 pick", "0 tick 1000", "1 tick 5000", "1 pull 0", "1 pick", "1 tick 1000"])


def crowd():
    """30 tasks on one CPU."""
    return workload(1, [task_text(0, 0, 3000000, 0, False) for _ in range(30)], ["0 pick", "0 tick 1000000"])


def late_runner():
    """30 tasks on one CPU, of which the last one alone runs, and the others wake then."""
    tasks = [task_text(0, 0, 3000000, 0, True) for _ in range(29)] + [task_text(0, 0, 3000000, 0, False)]
    return workload(1, tasks, ["0 pick", "0 tick 1000000", *(f"0 wake {task} from 0" for task in range(29))])


def sleeper():
    """Task 0 runs on CPU 0 and task 2 on CPU 1; task 1 sleeps."""
    tasks = [task_text(0, 0, 3000000, 0, False), task_text(0, 0, 3000000, 0, True), task_text(1, 0, 3000000, 0, False)]
    return workload(2, tasks, ["0 pick", "0 tick 1000000", "1 pick", "1 tick 1000000"])

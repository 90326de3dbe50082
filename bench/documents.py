#!/usr/bin/env -S python3 -B
"""documents.py NAME [SIZE [CPUS]]: prints the workload of this name, which `bench/count` runs programs on. Each has tasks of mixed nice
levels and slices, an eighth of them asleep at first. SIZE and CPUS, from 2 to 64, ask for another size than the usual one.
- solo: 1024 tasks on 16 CPUs, and a script of 20000 deeds of all kinds;
- replay: 1024 tasks on 16 CPUs, and programs of all kinds of operations that come to 20000 steps, without an order;
- replay-many-cpus: the same on 64 CPUs with 80000 steps, where a drain alone has 130;
- run: 1024 tasks on 16 CPUs, and for each a program of 1000 operations of all kinds;
- run-one-cpu: 512 tasks on one CPU, and its program of 10000 operations.
No proof speaks of any of it."""

import sys
from dataclasses import dataclass, field


@dataclass
class Machine:
    """Tasks on CPUs: task t has its home on CPU t % cpus. What is drawn comes from a generator of its own, so that it is the same with
    every Python."""

    tasks: int
    cpus: int
    state: int = 12345
    nice: list[int] = field(default_factory=list)
    # by CPU, the tasks that are told to sleep and to wake: heavy ones, since they run most
    heavy: list[list[int]] = field(default_factory=list)

    def __post_init__(self):
        self.heavy = [[] for _ in range(self.cpus)]
        for task in range(self.tasks):
            self.nice.append(self.draw(40) - 20)
            if self.nice[task] < -15 or task < self.cpus:
                self.heavy[task % self.cpus].append(task)

    def draw(self, below):
        """A number from 0 to one less than this."""
        self.state = (self.state * 1103515245 + 12345) % 2**31
        return (self.state >> 8) % below

    def heavy_of(self, cpu):
        return self.heavy[cpu][self.draw(len(self.heavy[cpu]))]

    def at_home(self, cpu):
        """A task whose home is this CPU."""
        return cpu + self.cpus * self.draw((self.tasks - 1 - cpu) // self.cpus + 1)

    def other(self, cpu):
        """Another CPU."""
        return (cpu + 1 + self.draw(self.cpus - 1)) % self.cpus

    def tables(self):
        """The lines of the tasks."""
        for task in range(self.tasks):
            yield "[[task]]"
            yield f"home = {task % self.cpus}"
            yield f"nice = {self.nice[task]}"
            yield f"slice = {100000 + self.draw(9900000)}"
            if self.draw(8) == 0:
                yield "asleep = true"


def deed(machine):
    """A deed of a script."""
    cpu, kind = machine.draw(machine.cpus), machine.draw(100)
    if kind < 30:
        act = "pick"
    elif kind < 35:
        act = f"renice {machine.at_home(cpu)} {machine.draw(40) - 20}"
    elif kind < 60:
        act = f"tick {1 + machine.draw(4000000)}"
    elif kind < 65:
        act = "yield"
    elif kind < 85:
        act = f"sleep {machine.heavy_of(cpu)}"
    elif kind < 95 or machine.cpus == 1:
        act = f"wake {machine.heavy_of(cpu)} from {machine.draw(machine.cpus)}"
    else:
        act = f"pull {machine.other(cpu)}"
    return f"{cpu} {act}"


def played_operation(machine, cpu):
    """An operation of a program that is played by steps, and how many steps it has."""
    kind = machine.draw(100)
    if kind < 25:
        return "pick", 4
    if kind < 47:
        return f"tick {1 + machine.draw(4000000)}", 4
    if kind < 49:
        return f"renice {machine.at_home(cpu)} {machine.draw(40) - 20}", 4
    if kind < 54:
        return "yield", 4
    home = cpu if machine.draw(2) else machine.draw(machine.cpus)
    task = machine.heavy_of(home)
    if kind < 64:
        return f"sleep {task}", 5 if home == cpu else 7
    if kind < 86:
        return f"pull {machine.other(cpu)}", 7
    if kind < 92:
        return f"post {machine.draw(machine.tasks)}", 1
    return "drain", 2 * machine.cpus + 2


def threaded_operation(machine, cpu):
    """An operation of a program that a thread runs."""
    kind = machine.draw(100)
    if kind < 30:
        return "pick"
    if kind < 55:
        return f"tick {1 + machine.draw(4000000)}"
    if kind < 60:
        return f"renice {machine.at_home(cpu)} {machine.draw(40) - 20}"
    if kind < 65:
        return "yield"
    if kind < 75:
        return f"sleep {machine.heavy_of(cpu)}"
    if kind < 80 and machine.cpus > 1:
        return f"pull {machine.other(cpu)}"
    if kind < 90:
        return f"post {machine.heavy_of(cpu)}"
    return "drain"


def played_program(machine, cpu, steps):
    """A program of so many steps."""
    while steps > 0:
        operation, length = played_operation(machine, cpu)
        if length > steps:
            operation, length = "post 0", 1
        steps -= length
        yield operation


def text(machine, programs, script=None):
    """A workload of version 2, which has changes of nice levels."""
    lines = ["version = 2", "program = ["]
    for program in programs:
        lines += ["[", *(f'"{operation}",' for operation in program), "],"]
    lines.append("]")
    if script is not None:
        lines += ["script = [", *(f'"{deed}",' for deed in script), "]"]
    return "\n".join([*lines, *machine.tables(), ""])


def solo(tasks, deeds, cpus):
    machine = Machine(tasks, cpus)
    return text(machine, [[]] * cpus, [deed(machine) for _ in range(deeds)])


def replay(tasks, steps, cpus):
    machine = Machine(tasks, cpus)
    return text(machine, [[*played_program(machine, cpu, steps // cpus)] for cpu in range(cpus)])


def run(tasks, operations, cpus):
    machine = Machine(tasks, cpus)
    return text(machine, [[threaded_operation(machine, cpu) for _ in range(operations)] for cpu in range(cpus)])


# By name: how it is made, of how many tasks, and its usual size and number of CPUs.
DOCUMENTS = {
    "solo": (solo, 1024, 20000, 16),
    "replay": (replay, 1024, 20000, 16),
    "replay-many-cpus": (replay, 1024, 80000, 64),
    "run": (run, 1024, 1000, 16),
    "run-one-cpu": (run, 512, 10000, 1),
}


def document(name, *sizes):
    """The text of the document of this name, of this size and with so many CPUs where they are given."""
    make, tasks, *usual = DOCUMENTS[name]
    return make(tasks, *sizes, *usual[len(sizes):])


def main():
    name, *sizes = sys.argv[1:] or [""]
    are_numbers = all(size.isdecimal() and int(size) for size in sizes)
    if name not in DOCUMENTS or not are_numbers or len(sizes) > 2 or sizes[1:] and not 2 <= int(sizes[1]) <= 64:
        sys.exit(f"usage: documents.py {'|'.join(DOCUMENTS)} [SIZE [CPUS]]")
    print(document(name, *map(int, sizes)), end="")


if __name__ == "__main__":
    main()

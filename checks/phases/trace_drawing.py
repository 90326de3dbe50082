"""Draws traces: what happens on a few CPUs, in the forms of both tools, with lines that are missing here and there."""

NAMES = ["bash", "kworker/0:1-eve", "Web Content", "a:7 [120]", "prev_comm=x", "x pid=3", "x prev_pid=4 prev", "p=q;r",
         "größe", "", "ab ==> c", "-", "[0]"]
SLEEPING = ["S", "S", "D", "I", "T", "t", "D|K", "P"]
RUNNABLE = ["R", "R+", "R", "R|K"]
DEAD = ["X", "Z", "x"]
PRIORITIES = [120] * 8 + [100, 110, 125, 139, 140, 99, 49, 0, -1]
OTHERS = ["# tracer: nop", "cpus=4", "", "   ", "  bash  23 [000]  1.5: sched:sched_stat_runtime: comm=bash pid=23 runtime=1 [ns]",
          "  bash  23 [000]  9.5: sched:sched_waking: comm=bash pid=23 prio=120 target_cpu=000", "# a [0] 1.5: sched_switch: nothing",
          "version = 7", "CPU:0 [LOST 3 EVENTS]"]


class Told:
    """A task of the machine."""

    def __init__(self, random, number):
        self.number = number
        self.name = random.choice(NAMES)
        self.priority = random.choice(PRIORITIES)

    def by_keys(self, keys):
        return f"{keys}comm={self.name} {keys}pid={self.number} {keys}prio={self.priority}"

    def short(self):
        return f"{self.name}:{self.number} [{self.priority}]"


class Machine:
    def __init__(self, random):
        self.random = random
        self.cpus = random.randint(1, 4)
        self.tasks = [Told(random, number) for number in random.sample(range(1, 1 << 22), random.randint(1, 9))]
        self.idle = Told(random, 0)
        self.running = [self.idle] * self.cpus
        self.digits = random.choice([6, 9])
        self.moment = random.randrange(10 ** 14) // 10 ** (9 - self.digits) * 10 ** (9 - self.digits)
        self.is_perf = random.random() < 0.5
        self.is_short = random.random() < 0.5

    def line(self, cpu, event, by_keys, short):
        """A line as one of the tools prints it."""
        random, task = self.random, self.running[cpu]
        behind = short if self.is_short else by_keys
        seconds, part = divmod(self.moment // 10 ** (9 - self.digits), 10 ** self.digits)
        time = f"{seconds}.{part:0{self.digits}}:"
        if self.is_perf:
            return f"{task.name:>16} {task.number:5} [{cpu:03}] {time:>14}       sched:{event}: {behind}"
        flags = random.choice(["", " d..2.", " dNh3."])
        return f"{task.name:>16}-{task.number:<5} [{cpu:03}]{flags} {time:>14} {event + ':':<21} {behind}"

    def switch(self):
        random = self.random
        cpu = random.randrange(self.cpus)
        leaves = self.running[cpu] if random.random() < 0.9 else random.choice(self.tasks)
        comes = random.choice([self.idle, *self.tasks, *self.tasks])
        if " ==> " in comes.name or comes is leaves:
            comes = self.idle if leaves is not self.idle else self.tasks[0]
        if " ==> " in comes.name:
            return None
        state = random.choice(random.choice([SLEEPING, SLEEPING, RUNNABLE, RUNNABLE, DEAD if random.random() < 0.2 else SLEEPING]))
        state = "R" if leaves is self.idle else state
        line = self.line(cpu, "sched_switch", f"{leaves.by_keys('prev_')} prev_state={state} ==> {comes.by_keys('next_')}",
                         f"{leaves.short()} {state} ==> {comes.short()}")
        self.running[cpu] = comes
        return line

    def wakeup(self):
        random = self.random
        task, target = random.choice(self.tasks), random.randrange(self.cpus)
        success = random.choice(["", " success=1", " success=0"])
        lost = random.choice([success, success, "<CANT FIND FIELD success>0"])
        return self.line(random.randrange(self.cpus), random.choice(["sched_wakeup", "sched_wakeup", "sched_wakeup_new"]),
                         f"{task.by_keys('')}{success} target_cpu={target:03}", f"{task.short()}{lost} CPU:{target:03}")

    def lines(self, number):
        random = self.random
        for _line in range(number):
            self.moment += random.choice([0, 1000, random.randrange(3000000), random.randrange(300000)])
            if random.random() < 0.1:
                random.choice(self.tasks).priority = random.choice(PRIORITIES)
            line = random.choice([self.switch, self.switch, self.wakeup, lambda: random.choice(OTHERS)])()
            if line is not None and random.random() < 0.95:
                yield line


def draw_trace(random):
    """A trace in which there is a task."""
    machine = Machine(random)
    end = random.choice(["\n", "\n", "\r\n"])
    lines = [*machine.lines(random.randint(1, 120)), machine.wakeup()]
    return end.join(lines) + random.choice(["", end])

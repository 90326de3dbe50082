"""Workloads of phases that are made to take long or much memory. Each with the status that it gets, and how its error begins."""


def workload(machine, *tasks):
    return f"version = 1\n[machine]\n{machine}\n" + "".join(f"[[task]]\n{task}\n" for task in tasks)


TOO_LONG = b"fault: script longer than 16777216 bytes; these are the first deeds\n"
TOO_MANY = b"fault: script of more than 640000 deeds; these are the first\n"
LOOPS = "{ loop = 1000000000, phases = [" * 8 + '{ run = "1ns" }, "yield"' + "] }" * 8
PING = 'name = "ping"\nphases = [{ resume = "pong" }, "suspend", { run = "1ns" }]'
PONG = 'name = "pong"\nphases = [{ resume = "ping" }, "suspend", { run = "1ns" }]'
RESUMES = '{ resume = "b" }, ' * 999
BESIDE = 'name = "b"\ncount = 1023\nbegins = "1s"\nphases = [{ run = "1ms" }]'

HOSTILE = {
    "a timer of 1 ns": (workload('lasts = "1000000s"', 'name = "a"\nphases = [{ timer = "1ns" }]'), 1, TOO_LONG),
    "runs of 1 ns": (workload('lasts = "1000000s"', 'name = "a"\ncount = 2\nphases = [{ run = "1ns" }, { sleep = "1ns" }]'), 1,
                     TOO_LONG),
    "loops in loops": (workload('lasts = "1000000s"', f'name = "a"\nphases = [{LOOPS}]'), 1, TOO_MANY),
    "a clock of 1 ns": (workload('lasts = "1s"\ntick = "1ns"', 'name = "a"\nphases = [{ run = "1s" }]'), 1, TOO_LONG),
    "tasks that wake one another": (workload('lasts = "1000000s"', PING, PONG), 1, TOO_LONG),
    "1024 tasks on 64 CPUs": (workload('cpus = 64\nlasts = "1000000s"',
                                       'name = "a"\ncount = 1024\nphases = [{ run = "1us..90us" }, { sleep = "1us..90us" }]'), 1,
                              TOO_LONG),
    "the longest time": (workload('lasts = "1000000s"', 'name = "a"\nphases = [{ sleep = "1000000s" }, { timer = "1000000s" }]'), 1,
                         TOO_LONG),
    "40000 names": ('version = 1\ntask = [' + ", ".join(f'{{ name = "a{number}" }}' for number in range(40000)) + ']\n'
                     '[machine]\nlasts = "1ms"\n', 1, b"fault: task 1024: more than 1024 tasks\n"),
    "999 resumes each nanosecond, and nobody suspended": (
        workload('lasts = "20us"', f'name = "a"\nphases = [{RESUMES}{{ run = "1ns" }}]', BESIDE), 0, b""),
    "more tasks that arrive than can end": (
        workload('cpus = 2\nlasts = "1000000s"', 'name = "a"\nevery = "1ns"\nat_once = 1024\nphases = [{ run = "1ns" }, "end"]'), 1, TOO_LONG),
    "tasks that end as soon as they begin": (
        workload('lasts = "1000000s"', 'name = "a"\nevery = "1ns"\nat_once = 1024\nphases = ["end"]'), 1, TOO_LONG),
    "1024 names of which tasks arrive": (workload('lasts = "1000000s"', *(
        f'name = "a{number}"\nevery = "1ns..1000000s"\nat_once = 1\nphases = [{{ run = "1ns" }}, "end"]' for number in range(1024))), 1,
                                         TOO_LONG),
    "arrivals at the ends of time": (
        workload('lasts = "1000000s"', 'name = "a"\nevery = "1000000s"\nat_once = 2\nbegins = "1000000s"\nphases = ["end"]',
                 'name = "b"\nphases = [{ sleep = "1000000s" }]'), 1, TOO_LONG),
    "out of range": (workload('lasts = "1000000s"\ntick = "1000000s"', 'name = "a"\nnice = 19\nphases = [{ run = "1000000s" }]'), 1,
                     TOO_LONG),
}

# Each of a million tasks takes the one number, since it ends before the next one arrives.
MANY_TASKS = workload('lasts = "2s"', 'name = "a"\nevery = "2us"\nat_once = 1024\ncount = 1000000\nphases = [{ run = "1us" }, "end"]')
ROWS_OF_MANY_TASKS = ["a: 1000000000, 50.00 %, 50.00 %; 1000000, 0, 0, 0; 0, 0, 0; 0; 0",
                      "arrivals: begun, late, ended; stay mean ns, p99 ns, longest ns", "a: 1000000, 0, 1000000; 1000, 1000, 1000"]

# It has 6 deeds in each 2 us.
MANY_DEEDS = workload('lasts = "400ms"', 'name = "a"\nphases = [{ run = "1us" }, { sleep = "1us" }]')
ROWS_OF_MANY = ["a: 200000000, 50.00 %, 50.00 %; 200000, 0, 0, 0; 0, 0, 0; 200000; 0"]

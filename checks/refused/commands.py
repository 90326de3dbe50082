"""The built programs `eevdf` and `eevdf_orders`: what they print when a request is refused."""

import tomllib
from dataclasses import dataclass
from math import ceil

from runner import Printed, TooSlow, stored
from sweep import first_of, sweep

# The programs, their words and the workloads that they are run on. Where a workload has a file of what is printed, or several
# since its threads come in an order of their own, this is compared too.
CASES = [
    ("eevdf", ["solo"], "two-tasks"),
    ("eevdf", ["solo", "--history"], "two-tasks"),
    ("eevdf", ["solo", "--strict"], "two-tasks"),
    ("eevdf", ["replay"], "two-tasks"),
    ("eevdf", ["run"], "two-tasks"),
    ("eevdf", ["solo"], "posts"),
    ("eevdf", ["replay"], "posts"),
    ("eevdf", ["replay", "--history"], "posts"),
    ("eevdf", ["replay", "--times", "--history"], "posts"),
    ("eevdf", ["run"], "posts"),
    ("eevdf", ["run", "--history"], "posts"),
    ("eevdf", ["solo"], "pull"),
    ("eevdf", ["solo", "--history"], "pull"),
    ("eevdf", ["solo", "--times"], "pull"),
    ("eevdf", ["run"], "pull"),
    ("eevdf", ["run"], "program"),
    ("eevdf", ["run", "--history"], "program"),
    ("eevdf", ["solo"], "renice"),
    ("eevdf", ["solo", "--history"], "renice"),
    ("eevdf", ["replay"], "renice"),
    ("eevdf", ["replay", "--history"], "renice"),
    ("eevdf", ["run"], "renice"),
    ("eevdf", ["run", "--history"], "renice"),
    ("eevdf", ["solo", "--history"], "each-operation"),
    ("eevdf", ["replay", "--history"], "each-operation"),
    ("eevdf", ["run", "--history"], "each-operation"),
    ("eevdf", ["solo", "--history"], "coming-and-going"),
    ("eevdf", ["replay", "--history"], "coming-and-going"),
    ("eevdf", ["run", "--history"], "coming-and-going"),
    ("eevdf", ["solo"], "bad-value"),
    ("eevdf", [], "two-tasks"),
    ("eevdf", ["stop"], "two-tasks"),
    ("eevdf_orders", [], "program"),
    ("eevdf_orders", ["--seed", "7"], "program"),
    ("eevdf_orders", ["--seed", "7"], "two-tasks"),
    ("eevdf_orders", [], "posts"),
    ("eevdf_orders", ["--seed", "7"], "pull"),
    ("eevdf_orders", [], "two-cpus"),
    ("eevdf_orders", ["--seed", "7"], "two-cpus"),
    ("eevdf_orders", ["--seed", "7"], "bad-value"),
]

SHORT_READ = 16
SHORT_WRITE = 10

# What is refused, each by a sweep of its own: one request, or (`..`) it and all that come after it.
SWEEPS = ["memory", "memory..", "threads", "reads", "writes", "writes.."]


@dataclass
class Case:
    """A program with its words and workload, and what it prints when nothing is refused."""

    refusals: object
    name: str
    words: list
    workload: object
    reports: list
    faults: list
    # how many requests for memory it makes then
    memory: int = 0

    def __str__(self):
        return " ".join([self.name, *self.words, "<", self.workload.name])

    def run(self, **refused):
        return self.refusals.run(self.name, self.words, self.workload, **refused)

    def fault(self, line, written=b""):
        """What is printed with a fault line: by eevdf on standard output, by eevdf_orders on standard error."""
        line = f"fault: {line}\n".encode()
        return Printed(written + line, 3) if self.name == "eevdf" else Printed(written, 3, line)

    def want(self, what, printed, wanted):
        if printed not in wanted:
            self.faults.append(f"{self}: {what}: {printed}")

    def reports_success(self):
        return all(report.status == 0 for report in self.reports)

    def requests(self):
        """How many requests of each kind the program makes where nothing is refused, from the least number to the greatest. Where its
        threads may come in another order, its report is longer or shorter, and it may ask for memory once more or less."""
        text = self.workload.read_bytes()
        orders = len(self.reports) - 1
        is_run = self.words[:1] == ["run"] and self.reports_success()
        threads = len(tomllib.loads(text.decode())["program"]) if is_run else 0
        # the last read finds the end; words that the program doesn't know have status 2, and nothing is read then
        reads = ceil(len(text) / SHORT_READ) + 1 if all(report.status != 2 for report in self.reports) else 0
        writes = [ceil(len(report.out) / SHORT_WRITE) for report in self.reports]
        return {
            "memory": (self.memory - orders, self.memory + orders),
            "threads": (threads, threads),
            "reads": (reads, reads),
            "writes": (min(writes), max(writes)),
        }


def open_case(refusals, name, words, workload):
    """A case with the reports that its files have, or else the one that is printed with nothing refused."""
    case = Case(refusals, name, words, workload, [], [])
    ample = case.run()
    stem = ".".join([workload.stem, "".join(words)])
    files = sorted(workload.parent.glob(f"{stem}.out")) + sorted(workload.parent.glob(f"{stem}.*.out"))
    if name == "eevdf" and files:
        case.reports = [stored(file) for file in files]
        case.want("nothing refused", ample.printed, case.reports)
    else:
        case.reports = [ample.printed]
    if ample.counts is None or ample.counts.memory == 0 or ample.printed.status not in (0, 1, 2):
        case.faults.append(f"{case}: nothing refused: {ample.printed}, {ample.counts}")
    else:
        case.memory = ample.counts.memory
    return case


def refuse(case, pool, kind, variable, wanted, **more):
    """Refuses the n-th request of a kind, as a variable of refuse.c says, and gives how many runs met a refusal. `wanted(n)` is what may be
    printed then."""

    def look(number, run):
        case.want(f"{variable} {number}", run.printed, wanted(number) if run.met(kind, number) else case.reports)

    return sweep(pool, lambda number: case.run(**{variable: number}, **more), kind, look)


def written(report, number):
    """What of a report is written before the n-th write, where each takes a few bytes."""
    return report.out[: (number - 1) * SHORT_WRITE]


def sweep_all(case, pool):
    """How many requests each sweep met."""
    threads = [case.fault("thread")] if case.words[:1] == ["run"] else []
    without_memory = [*case.reports, case.fault("memory"), *threads]
    met = {
        "memory": refuse(case, pool, "memory", "refuse_memory", lambda _: without_memory),
        "memory..": refuse(case, pool, "memory", "refuse_memory_from", lambda _: without_memory),
        "threads": refuse(case, pool, "threads", "refuse_thread", lambda _: [case.fault("thread")]),
        "reads": refuse(case, pool, "reads", "refuse_read", lambda _: [case.fault("reading")], short_read=SHORT_READ),
    }
    # what writes a fault line or how the words are used isn't asked whether it succeeds
    if case.reports_success():
        met["writes"] = refuse(
            case, pool, "writes", "refuse_write",
            lambda n: [case.fault("writing", written(report, n)) for report in case.reports], short_write=SHORT_WRITE,
        )
        met["writes.."] = refuse(
            case, pool, "writes", "refuse_write_from",
            lambda n: [Printed(written(report, n), 3) for report in case.reports], short_write=SHORT_WRITE,
        )
    return met


def look_at_met(case, met):
    """Each sweep has to meet each request that the program makes."""
    requests = case.requests()
    for sweep_name, count in met.items():
        least, most = requests[sweep_name.removesuffix("..")]
        if not least <= count <= most:
            wanted = least if least == most else f"{least} to {most}"
            case.faults.append(f"{case}: the sweep of {sweep_name} met {count} requests, and not {wanted}")


def check(checks, refusals, pool, workloads):
    """Looks at all cases, and says how many requests each sweep met."""
    print("".join(f"{sweep_name:>10}" for sweep_name in SWEEPS) + "  command")
    for name, words, workload in CASES:
        with checks.unless_slow(" ".join([name, *words, "<", workload])):
            case = open_case(refusals, name, words, workloads / f"{workload}.toml")
            try:
                met = sweep_all(case, pool)
                look_at_met(case, met)
                print("".join(f"{met.get(sweep_name, '-'):>10}" for sweep_name in SWEEPS) + f"  {case}", flush=True)
            except TooSlow:
                if not case.faults:
                    raise
            checks.look(case, first_of(case.faults))

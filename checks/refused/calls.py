"""The library's calls, which the program `refused_calls` makes one after the other.

A request is named by its call and by its number in that call. Its number in the whole run won't do: the report of a run by threads takes a
request more or less, as the threads come in turn, and so all later ones have other numbers from run to run."""

import re
from collections import Counter
from dataclasses import dataclass, field

from known import Requests, known_requests
from runner import stored
from sweep import first_of

WORKLOADS = ["two-tasks", "posts", "pull", "program", "renice", "each-operation"]

# How often something is opened by whose calls no memory is asked for: two queues at once, a Solo, a Player and a Fleet.
OPENED = 4

CALLED, REFUSED, LAST = "== ", "-- refused", "end"
OPEN, CLOSED = "-- opened", "-- closed"


@dataclass
class Call:
    """A call with what it answered, and how often it was refused."""

    name: str
    answer: str = ""
    refusals: int = 0


@dataclass
class Sweep:
    """The runs of `refused_calls` on a workload."""

    refusals: object
    workload: object
    # by call: the requests that are known
    known: dict
    # the calls of the run with nothing refused, in order, and how many requests each of them made there
    ample: list = field(default_factory=list)
    requests: list = field(default_factory=list)
    # by call: the requests that were refused and answered so, and those that it did without
    refused: Counter = field(default_factory=Counter)
    without: Counter = field(default_factory=Counter)
    faults: list = field(default_factory=list)

    def run(self, place, number):
        """Refuses a request of the call at a place, of which 1 is the first; or none (0 and 0)."""
        return self.refusals.run("refused_calls", [], self.workload, refuse_call=place, refuse_memory=number)

    def is_whole(self, what, run):
        """Whether a run came to its end, and asked for memory only where it may."""
        if run.printed.status != 0 or run.printed.errors or run.counts is None:
            self.faults.append(f"{what}: {run.printed}")
            return False
        requests = requests_between(run)
        if requests != [0] * OPENED:
            self.faults.append(f"{what}: {requests} requests for memory after opening")
        return True

    def look_at_ample(self):
        """Looks at the run with nothing refused, with which the others are compared."""
        run = self.run(0, 0)
        if not self.is_whole("nothing refused", run):
            return
        *self.ample, end = calls_of(run.printed.out.decode())
        self.requests = requests_of(run)
        if end.name != LAST or any(call.refusals for call in self.ample):
            self.faults.append(f"nothing refused: {run.printed}")
        if sum(self.requests) != run.counts.memory:
            self.faults.append(f"{run.counts.memory} requests for memory, and {sum(self.requests)} by calls")
        asked = Counter()
        for call, requests in zip(self.ample, self.requests, strict=True):
            asked[call.name] += requests
        for name in {**self.known, **asked}:
            self.look_at_asked(name, asked)

    def look_at_asked(self, name, asked):
        """A call makes as many requests as are known."""
        known = self.known.get(name)
        if known is None:
            self.faults.append(f"{name} has no known number of requests")
        elif name not in asked:
            self.faults.append(f"{name} isn't made")
        elif not known.allows(asked[name] - known.without, known.without):
            self.faults.append(f"{name} asks for memory {asked[name]} times, and not {known}")

    def each_request(self):
        """The requests of each call, and for each call one more that it doesn't make."""
        return [(place, number) for place, requests in enumerate(self.requests, 1) for number in range(1, requests + 2)]

    def look(self, place, number, run):
        """Looks at a run in which a request of the call at a place is refused, if the call makes so many."""
        name = self.ample[place - 1].name
        what = f"{name}, request {number}"
        if not self.is_whole(what, run):
            return
        *calls, _ = calls_of(run.printed.out.decode())
        self.compare(what, calls)
        told = [at for at, call in enumerate(calls, 1) for _ in range(call.refusals)]
        if told not in ([], [place]) or len(told) > run.counts.refused:
            self.faults.append(f"{what}: {run.counts.refused} were refused, and told by the calls {told}")
        self.refused[name] += len(told)
        self.without[name] += run.counts.refused - len(told)
        if run.counts.refused != int(number <= self.requests[place - 1]) and not self.may_vary(place):
            self.faults.append(f"{what}: {run.counts.refused} were refused, where it makes {self.requests[place - 1]}")

    def may_vary(self, place):
        """Whether the call at a place may make more requests in one run than in another, since it may print a longer report."""
        return len(self.other_answers(place, self.ample[place - 1].name)) > 1

    def compare(self, what, calls):
        """A refused call that is made once more answers what it answers with ample memory."""
        if [call.name for call in calls] != [call.name for call in self.ample]:
            self.faults.append(f"{what}: other calls: {[call.name for call in calls]}")
            return
        for place, (call, ample) in enumerate(zip(calls, self.ample), 1):
            if call.answer not in [ample.answer, *self.other_answers(place, call.name)]:
                self.faults.append(f"{what}: {call.name}: {call.answer!r} and not {ample.answer!r}")

    def look_at_refusals(self):
        """Each request that is known was refused, and was answered as is known."""
        for name, known in self.known.items():
            met = Requests(self.refused[name], self.without[name])
            if not known.allows(met.refused, met.without):
                self.faults.append(f"{name}: of its requests {met} were refused, and not {known}")

    def met(self, name):
        """The requests of a call that were refused, in the form of requests.txt."""
        return Requests(self.refused[name], self.without[name], self.known[name].is_least)

    def other_answers(self, place, name):
        """What the call at a place may print besides, where it is a run by threads and these may come in another order."""
        if name in ("run_text", "engine run"):
            pattern = f"{self.workload.stem}.run.*.out"
        elif place > 1 and self.ample[place - 2].name == "run_all":
            pattern = f"{self.workload.stem}.run--history.*.out"
        else:
            return []
        files = [*self.workload.parent.glob(pattern), *self.workload.parent.glob(pattern.replace(".*", ""))]
        return [stored(file).out.decode() for file in files]


def calls_of(text):
    """The calls that a run made, in order, each with the answer that followed."""
    calls = []
    for line in text.splitlines(keepends=True):
        if line.startswith(CALLED):
            calls.append(Call(line.removeprefix(CALLED).rstrip("\n")))
        elif line.startswith(REFUSED):
            calls[-1].refusals += 1
        else:
            calls[-1].answer += line
    return calls


def requests_before(run, line):
    """How many requests for memory came before each line that begins so. Such a line is a write of its own."""
    requests = {}
    place = 0
    for write in run.writes:
        requests[place] = write.memory
        place += write.length
    return [requests[match.start()] for match in re.finditer(f"^{line}", run.printed.out.decode(), re.MULTILINE)]


def requests_between(run):
    """How many requests for memory each of what was opened made before it was closed."""
    return [end - begin for begin, end in zip(requests_before(run, OPEN), requests_before(run, CLOSED), strict=True)]


def requests_of(run):
    """How many requests for memory came from each call to the next call, and after the last one to the end."""
    begun = requests_before(run, CALLED)
    return [after - before for before, after in zip(begun, begun[1:])]


def say_refusals(cases):
    """A line for each call: how many of its requests were refused on each workload, in the form of requests.txt."""
    print("".join(f"{case.workload.stem:>16}" for case in cases) + "  call")
    for name in dict.fromkeys(name for case in cases for name in case.known):
        print("".join(f"{case.met(name)!s:>16}" for case in cases) + f"  {name}", flush=True)


def check(checks, refusals, pool, workloads):
    """Looks at all workloads, and says how often each call was refused."""
    files = [workloads / f"{name}.toml" for name in WORKLOADS]
    cases = [Sweep(refusals, file, known_requests(file)) for file in files]
    for case in cases:
        with checks.unless_slow(f"the rest of refused_calls < {case.workload.name}"):
            case.look_at_ample()
            if not case.faults:
                requests = case.each_request()
                for request, run in zip(requests, pool.map(lambda request: case.run(*request), requests)):
                    case.look(*request, run)
                case.look_at_refusals()
    say_refusals(cases)
    for case in cases:
        checks.look(f"refused_calls < {case.workload.name}", first_of(case.faults))

"""Whether a trace shows a timeline."""

import json
from collections import defaultdict

from model import before, kept
from plain.report import text_of
from shown import Shown
from svg import Wrong, expect
from turns import is_in, rests_of, turns_of

# The processes: tracks and loads of CPUs, counters of lags, and tracks of tasks.
CPUS, LAGS, TASKS = 1, 2, 3


def nanoseconds(event, key):
    return round(1000 * event[key])


def check_order(events):
    """Times ascend on each track and each counter."""
    last = defaultdict(float)
    for event in events:
        track = (event["pid"], event["name"] if event["ph"] == "C" else event["tid"])
        if event["ts"] < last[track]:
            raise Wrong(f"{event} after {last[track]}")
        last[track] = event["ts"]


def check_flows(events):
    """Each arrow begins once and ends once, not earlier, and a slice begins where it does. Gives both ends of each."""
    ends = defaultdict(dict)
    for event in events:
        if event["ph"] in "sf":
            if event["ph"] in ends[event["id"]]:
                raise Wrong(f"{event} is there twice")
            ends[event["id"]][event["ph"]] = event
    slices = {(event["tid"], event["ts"]) for event in events if event["ph"] == "X" and event["pid"] == CPUS}
    for number, both in ends.items():
        expect(f"the ends of arrow {number}", sorted(both), ["f", "s"])
        if both["s"]["ts"] > both["f"]["ts"]:
            raise Wrong(f"arrow {number} ends before it begins")
        for event in both.values():
            if (event["tid"], event["ts"]) not in slices:
                raise Wrong(f"no slice is where {event} is")
        expect(f"what arrow {number} ends at", both["f"].get("bp"), "e")
    return [tuple((both[end]["tid"], nanoseconds(both[end], "ts")) for end in "sf") for both in ends.values()]


def check_processes(events):
    """Lags stand by their own process, what tasks do by that of the tasks, and all else by that of the CPUs."""
    for event in events:
        is_lag = event["ph"] == "C" and event["name"].startswith("lag ")
        of_task = event["name"] in ("waits", "sleeps") or event["name"].startswith("runs ")
        expect(f"the process of {event}", event["pid"], LAGS if is_lag else TASKS if of_task else CPUS)


def check_names(events, cpus, tasks):
    """The processes and the tracks of these CPUs and of so many tasks have their names, and their places."""
    processes = [(CPUS, "CPUs"), (TASKS, "tasks"), (LAGS, "lags")]
    wanted = [("process", process, 0, name, place) for place, (process, name) in enumerate(processes, 1)]
    wanted += [("thread", CPUS, cpu, f"CPU {cpu}", cpu) for cpu in cpus]
    wanted += [("thread", TASKS, task, f"task {task}", task) for task in range(tasks)]
    wanted = [row for kind, process, track, name, place in wanted
              for row in ((f"{kind}_name", process, track, {"name": name}), (f"{kind}_sort_index", process, track, {"sort_index": place}))]
    expect("the names", [(event["name"], event["pid"], event["tid"], event["args"]) for event in events], wanted)


def events_in(text, cpus, tasks):
    """The events of a trace of these CPUs and of so many tasks but for the names, with what holds of each trace."""
    trace = json.loads(text)
    expect("the unit", trace["displayTimeUnit"], "ns")
    names = [event for event in trace["traceEvents"] if event["ph"] == "M"]
    events = [event for event in trace["traceEvents"] if event["ph"] != "M"]
    expect("the kinds of events", {event["ph"] for event in events} - set("XCsf"), set())
    check_names(names, cpus, tasks)
    check_order(events)
    check_processes(events)
    return events


def is_of_another(moment):
    return moment.answer.startswith("pulled") or moment.answer == "woken" and moment.deed[2] != moment.cpu


def without_none(**values):
    return {key: value for key, value in values.items() if value is not None}


def done_of(timeline):
    """The slices of deeds that charged nobody: an idle tick is as long as it took."""
    for moment, task, lag in zip(timeline.moments, timeline.concerned, timeline.lags_after):
        if moment.charged() is None:
            args = without_none(deed=f"{moment.cpu} {text_of(moment.deed)}", answer=moment.answer, task=task,
                                sender=moment.deed[2] if moment.deed[0] == "wake" else None, lag=lag)
            yield CPUS, moment.cpu, moment.text(), moment.begin, moment.end - moment.begin, args


def ran_of(timeline):
    """The slices of stretches, on the tracks of CPUs and of tasks, with the lag after the last tick of each."""
    ends = {(moment.cpu, moment.end): lag for moment, lag in zip(timeline.moments, timeline.lags_after) if moment.charged() is not None}
    for turn in turns_of(timeline):
        length, lag = turn.end - turn.begin, ends[turn.cpu, turn.end]
        args = without_none(task=turn.task, waited_ns=turn.waited, delay_ns=turn.delay, why=turn.why, lag=lag)
        yield CPUS, turn.cpu, f"task {turn.task}", turn.begin, length, args
        yield TASKS, turn.task, f"runs on CPU {turn.cpu}", turn.begin, length, {"task": turn.task, "cpu": turn.cpu}


def crossing_in(timeline, window, cpus):
    """The deeds of two of these CPUs that were done in this time, and began in it on the other one, each with that."""
    for moment in timeline.moments:
        if is_of_another(moment):
            giver = moment.deed[1 if moment.deed[0] == "pull" else 2]
            if {moment.cpu, giver} <= set(cpus) and is_in(window, moment.begin, moment.begin) and is_in(window, moment.other, moment.other):
                yield moment, giver


def slices_of(timeline, crossing):
    given = [(CPUS, giver, f"other end of {moment.text()}", moment.other, 0, {"cpu": moment.cpu}) for moment, giver in crossing]
    rests = [(TASKS, task, "sleeps" if sleeps else "waits", begin, end - begin, {"task": task}) for task, sleeps, begin, end in rests_of(timeline)]
    return [*ran_of(timeline), *done_of(timeline), *given, *rests]


def check_trace(text, timeline, window=None, cpus=None):
    """Raises Wrong where the trace of a timeline, or of a part of its time or some of its CPUs, isn't as docs/pictures.md says."""
    window, cpus = window or (0, timeline.end()), cpus or range(timeline.setup.cpus())
    events = events_in(text, cpus, len(timeline.setup.tasks))
    crossing = list(crossing_in(timeline, window, cpus))
    arrows = [((giver, moment.other), (moment.cpu, moment.begin)) for moment, giver in crossing]
    expect("the arrows", sorted(check_flows(events)), sorted(arrows))
    slices = [(event["pid"], event["tid"], event["name"], nanoseconds(event, "ts"), nanoseconds(event, "dur"), event["args"])
              for event in events if event["ph"] == "X"]
    wanted = [row for row in slices_of(timeline, crossing) if is_shown(row, window, cpus)]
    expect("the slices", sorted(slices, key=str), sorted(wanted, key=str))
    check_counters(events, timeline, window, cpus)


def is_shown(row, window, cpus):
    """Whether a slice is in this time, and on one of these CPUs if it is on any."""
    process, track, _, begin, length, args = row
    cpu = track if process == CPUS else args.get("cpu", cpus[0])
    return cpu in cpus and is_in(window, begin, begin + length)


def counted(events, name, value):
    return [(nanoseconds(event, "ts"), event["args"][value]) for event in events if event["name"] == name]


def check_unknown_trace(text, cpus, tasks):
    """What holds of the trace of a history that isn't known."""
    check_flows(events_in(text, range(cpus), tasks))


def check_counters(events, timeline, window, cpus):
    """Each load is there as it changes, and of the lags those that a picture has. What a counter had before the time is there as that
    begins."""
    begin, end = window
    for cpu, loads in enumerate(timeline.loads):
        earlier = [(begin, load) for time, load in loads[1:] if time < begin][-1:]
        wanted = earlier + [(time, load) for time, load in loads[1:] if begin <= time <= end] if cpu in cpus else []
        expect(f"the loads of CPU {cpu}", counted(events, f"load of CPU {cpu}", "load"), wanted)
    lags = {event["name"] for event in events if event["name"].startswith("lag ")}
    curves = Shown(timeline, window, cpus).curves
    wanted = {f"lag of task {task}": lags_of(timeline.points[task], begin, end) for task in curves}
    wanted = {name: points for name, points in wanted.items() if points}
    expect("the counters of lags", lags, set(wanted))
    for name, points in wanted.items():
        expect(name, counted(events, name, "lag"), points)


def lags_of(points, begin, end):
    earlier = before(points, begin, end)
    return ([] if earlier is None else [(begin, earlier[1])]) + list(kept(points, begin, end))

#!/usr/bin/env python3
"""check.py [SEED]: looks at what the built program `eevdf_timeline` draws and counts, beside a plain model of it (model.py), for the
workloads of examples/, for small ones that are drawn from seeds, and for large ones, within bounds of time and memory; at the words and
the workloads that it refuses; and whether the pictures of docs/images/ are those that it draws. With --make it draws these anew. The
last line is 'N passed, M failed'."""

import json
import re
import sys
import tempfile
from pathlib import Path
from random import Random

sys.dont_write_bytecode = True
HERE = Path(__file__).resolve().parent
sys.path[:0] = [str(HERE), str(HERE.parent), str(HERE.parent / "drawn")]

import made
from browser import check_in_browser
from draw import cases
from events import CPUS, check_trace, check_unknown_trace
from figures import check_json, check_rows, check_table
from large import check_large
from model import Timeline
from pages import check_page, check_whole, picture_in
from phased import FOLDER, check_moments, script_of
from pictured import check_picture, check_task_picture, check_unknown
from plain.fault import Fault
from plain.made_order import made_order
from plain.steps import play
from plain.workbench import replay
from plain.workload import read_workload
from program import SOURCES, Pictures, is_well, stored_workloads
from race import check_race
from refusals import check_refusals
from runner import TOP, status_of
from stretch_table import check_stretch_table
from svg import Wrong, expect

# How many small workloads are drawn of each kind.
DRAWN = 40

# How many of the deeds of the longest workload are compared with the model, which is a scan.
COMPARED = 2400

# Names of files that would end a script or begin a tag, a comment or an entity.
HOSTILE_NAMES = ("a</script><script>alert(1)</script>.toml", "<!--.toml", "\"'&lt;&<b onclick=alert(1)>.toml", "two\nlines\\u003c.toml")

# The pictures of docs/, and the workload and words of each.
PICTURES = {"pull.svg": ("examples/pull.toml", ()), "interleaving.svg": ("examples/interleaving.toml", ("--replay",)),
            "doze.svg": ("examples/doze.toml", ()), "race.svg": ("examples/interleaving.toml", ("--replay", "--race", "--to", "60"))}

# The examples of phases, and the words of the picture of each: what part of a long time it has.
PICTURES |= {f"phases-{name}.svg": (f"examples/phases/{name}.toml", words) for name, words in {
    "web-server": (), "build-machine": ("--to", "20000000"), "audio": (), "pool": ("--from", "8000000", "--to", "24000000"),
    "pipeline": ("--to", "4000000"), "napping-hog": (), "hog-by-sleeps": ("--to", "100000000"), "hog-by-dozes": ("--to", "100000000"),
}.items()}


def check_all(checks, data, script, words=()):
    """Looks at all outputs, and gives how many stretches the picture joins in boxes."""
    timeline = Timeline(read_workload(data).setup, script)
    picture = checks.written(words, data)
    joined = check_picture(picture, timeline)
    check_task_picture(checks.written((*words, "--rows", "tasks"), data), timeline)
    check_trace(checks.written((*words, "--perfetto"), data), timeline)
    table = checks.written((*words, "--table"), data)
    check_stretch_table(table, timeline)
    figures, text = checks.written((*words, "--stats", "--json"), data), checks.written((*words, "--stats"), data)
    check_json(figures, timeline)
    check_table(text, json.loads(figures))
    page = checks.written((*words, "--html"), data)
    if words == SOURCES["run"]:
        # what CPUs do that have nothing of one another comes in another order in each run
        check_picture(picture_in(page), timeline)
    else:
        check_page(page, timeline, picture, table, text)
    return joined


def check_script(checks, data):
    check_all(checks, data, read_workload(data).script)


def script_of_replay(data):
    return [(cpu, deed) for cpu, deed, _ in replay(read_workload(data)).lines]


def check_stored_workloads(checks):
    for path, data, command in stored_workloads("examples/*.toml"):
        if not is_well(path):
            continue
        if command == "solo":
            checks.attempt(path.name, check_script, checks, data)
        elif command == "replay":
            checks.attempt(path.name, check_all, checks, data, script_of_replay(data), SOURCES[command])
            checks.attempt(f"the race of {path.name}", check_races, checks, data)
        else:
            checks.attempt(path.name, check_run, checks, data)
    for path, data, command in stored_workloads("checks/cases/programs/*.toml"):
        if is_well(path) and command == "run":
            checks.attempt(path.name, check_run, checks, data)


def check_phases(checks):
    for path in sorted(FOLDER.glob("*.toml")):
        checks.attempt(f"the schedule of {path.name}", check_phased, checks, path)


def check_phased(checks, path):
    data = script_of(checks, path)
    check_moments(data)
    check_script(checks, data)


def check_run(checks, data):
    """Programs that threads run. Where no CPU has anything of another, the threads' order changes nothing of a CPU. Else each output shows
    a history of its own."""
    words, setup = SOURCES["run"], read_workload(data).setup
    if any(operation[0] in ("post", "drain", "pull") for program in setup.programs for operation in program):
        check_unknown(checks.written(words, data), setup.cpus())
        check_unknown_trace(checks.written((*words, "--perfetto"), data), setup.cpus(), len(setup.tasks))
        check_rows(json.loads(checks.written((*words, "--stats", "--json"), data))["tasks"])
    else:
        outcome, _ = play(setup, made_order(setup, 0))
        check_all(checks, data, [(cpu, deed) for cpu, deed, _ in outcome.lines], words)


def check_drawn(checks, first):
    for seed in range(first, first + DRAWN):
        data = made.drawn(seed)
        checks.attempt(f"seed {seed}", check_script, checks, data)
        checks.attempt(f"a window of seed {seed}", check_window, checks, data)
        checks.attempt(f"an order of seed {seed}", check_order, checks, cases.replay(Random(seed), 3).data)


def check_window(checks, data):
    """The middle third of the time, on every second CPU."""
    setup, script = read_workload(data).setup, read_workload(data).script
    timeline = Timeline(setup, script)
    begin, end = timeline.end() // 3, max(2 * timeline.end() // 3, timeline.end() // 3 + 1)
    cpus = list(range(0, timeline.setup.cpus(), 2))
    words = ("--from", str(begin), "--to", str(end), "--cpu", ",".join(map(str, cpus)))
    picture, table = checks.written(words, data), checks.written((*words, "--table"), data)
    check_picture(picture, timeline, (begin, end), cpus)
    check_stretch_table(table, timeline, (begin, end), cpus)
    figures = checks.written(("--stats", *words), data)
    check_table(figures, json.loads(checks.written(("--stats", "--json", *words), data)))
    check_json(checks.written(("--stats", "--json", *words[:4]), data), Timeline(setup, script, (begin, end)))
    whole = ("--from", "0", "--to", str(max(1, timeline.end())))
    expect("the figures of all of the time", checks.written(("--stats", *whole), data), checks.written(("--stats",), data))
    check_page(checks.written((*words, "--html"), data), timeline, picture, table, figures, (begin, end), cpus)
    check_trace(checks.written((*words, "--perfetto"), data), timeline, (begin, end), cpus)
    check_task_picture(checks.written((*words[:4], "--rows=tasks"), data), timeline, (begin, end))


def check_widths(checks):
    """Pictures as wide as they are asked for, of lanes and of rows, the least and the greatest among them."""
    for data in (made.dense(), made.crowd(), made.late_pull()):
        timeline = Timeline(read_workload(data).setup, read_workload(data).script)
        for page in (320, 390, 768, 1280, 10000):
            words = ("--width", str(page))
            picture = checks.written(words, data)
            check_picture(picture, timeline, page=page)
            check_task_picture(checks.written((*words, "--rows", "tasks"), data), timeline, page=page)
            expect("the picture of a page", picture_in(checks.written((*words, "--html"), data)), picture)
        expect("the width without a word", checks.written(("--width", "1000"), data), checks.written((), data))


def check_order(checks, data):
    try:
        script = script_of_replay(data)
    except Fault:
        return
    check_all(checks, data, script, SOURCES["replay"])
    check_races(checks, data)


def check_races(checks, data):
    """The race of an order: from its beginning on, its last places, and a few in its middle."""
    workload = read_workload(data)
    count = len(workload.order)
    for first, end in ((0, None), (max(0, count - 50), None), (count // 3, count // 3 + 20), (count, count + 5)):
        words = ("--from", str(first)) if end is None else ("--from", str(first), "--to", str(end))
        check_race(checks.written(("--replay", "--race", *words), data), workload, first, end)
    if checks.written(("--replay", "--race"), data) != checks.written(("--replay", "--race", "--from", "0"), data):
        raise Wrong("another race from its beginning on")


def check_dense(checks):
    """Of 3000 stretches most are joined, and so are those of most of the time."""
    data = made.dense()
    timeline = Timeline(read_workload(data).setup, read_workload(data).script)
    begin, end = timeline.end() // 10, 9 * timeline.end() // 10
    part = checks.written(("--from", str(begin), "--to", str(end)), data)
    joined = check_all(checks, data, read_workload(data).script), check_picture(part, timeline, (begin, end))
    if min(joined) < 2000:
        raise Wrong(f"too few stretches are joined: {joined}")


def check_choices(checks):
    """What is chosen of a workload is drawn, and nothing else."""
    data = (TOP / "examples/pull.toml").read_bytes()
    whole, one = checks.written((), data), checks.written(("--cpu", "1", "--task", "2"), data)
    if not (one.count(b"class=\"l\"") == 1 < whole.count(b"class=\"l\"")):
        raise Wrong("the lanes of one CPU")
    expect("the curve of one task", re.findall(rb"lag of task \d+", one), [b"lag of task 2"])
    rows = json.loads(checks.written(("--stats", "--json", "--cpu", "1", "--task", "2,0"), data))
    expect("the rows", ([row["task"] for row in rows["tasks"]], [row["cpu"] for row in rows["cpus"]]), ([0, 2], [1]))
    timeline = Timeline(read_workload(data).setup, read_workload(data).script)
    check_picture(checks.written(("--from", "500001", "--to", "600000"), data), timeline, (500001, 600000))
    events = checks.events(("--cpu", "1"), data)
    expect("the tracks of one CPU", {event["tid"] for event in events if event["ph"] == "X" and event["pid"] == CPUS}, {1})
    expect("its arrows", [event for event in events if event["ph"] in "sf"], [])


def check_yields(checks):
    """A yield is of the task that ran."""
    for task, count in ((0, 1), (1, 1)):
        events = checks.events(("--task", str(task)), made.yields())
        expect(f"the yields of task {task}", [event["name"] for event in events].count("0 yield: yielded"), count)


def check_late_pull(checks):
    """An arrow that begins before the time that is drawn isn't drawn."""
    whole = checks.events((), made.late_pull())
    part = checks.events(("--from", "2000"), made.late_pull())
    expect("the ends of arrows", [len([event for event in events if event["ph"] in "sf"]) for events in (whole, part)], [2, 0])
    expect("what is before the time", [event for event in part if event["ph"] != "M" and event["ts"] + event.get("dur", 0) < 2], [])


def check_ends(checks):
    """What is said of each stretch of a workload in which each reason for an end is there."""
    check_script(checks, made.ends())
    rows = [row.split() for row in checks.written(("--table",), made.ends()).decode().splitlines()[1:]]
    expect("why stretches ended", {row[-1] for row in rows}, {"yielded", "preempted", "gap", "slept", "ended", "-"})
    expect("how long it was from a wake", [row[4] for row in rows if row[4] != "-"], ["3000"])


def check_edges(checks):
    """What only touches the time isn't in it, and what is partly in it is told whole. Counters have from the beginning on what they had
    before."""
    data = made.three_turns()
    timeline = Timeline(read_workload(data).setup, read_workload(data).script)
    for begin, end in ((4000000, 8000000), (5000000, 7000000)):
        words = ("--from", str(begin), "--to", str(end))
        rows = [row.split() for row in checks.written((*words, "--table"), data).decode().splitlines()[1:]]
        expect("the stretches", rows, [["4000000", "0", "1", "4000000", "-", "4000000", "slept"]])
        picture = checks.written(words, data)
        expect("the boxes", re.findall(rb"<title>(task .*?)</title>", picture), [b"task 1 on CPU 0, 4000000 ns, from 4000000 ns to 8000000 ns"])
        if b"too short" in picture:
            raise Wrong("a sleep that isn't in the time")
        check_picture(picture, timeline, (begin, end))
        check_trace(checks.written((*words, "--perfetto"), data), timeline, (begin, end))
        rows = json.loads(checks.written((*words, "--stats", "--json"), data))
        said = [tuple(row[key] for key in ("ran_ns", "waited_ns", "share_permille", "weight_share_permille")) for row in rows["tasks"]]
        expect("what is counted of the tasks", said, [(0, end - begin, 0, 500), (end - begin, 0, 1000, 500)])
        expect("what the CPU charged", rows["cpus"][0]["charged_ns"], end - begin)
        loads = [event for event in checks.events(words, data) if event["name"] == "load of CPU 0"]
        expect("the load at first", (loads[0]["ts"], loads[0]["args"]), (begin / 1000, {"load": 2048}))


def check_hostile_name(checks, name):
    """The name of a file is told as it is, and is no part of the page but a text."""
    data = (TOP / "examples/pull.toml").read_bytes()
    others = [checks.written(words, data) for words in ((), ("--table",), ("--stats",))]
    with tempfile.TemporaryDirectory() as folder:
        file = Path(folder, name)
        file.parent.mkdir(parents=True, exist_ok=True)
        file.write_bytes(data)
        check_whole(checks.written(("--html", str(file)), b""), *others, str(file))


def check_late_wake(checks):
    """Nothing that a wake brings about is drawn before what its sender had done by then."""
    data = made.late_wake()
    check_script(checks, data)
    events = checks.events((), data)
    ran = {event["name"]: (event["ts"], event["dur"]) for event in events if event["ph"] == "X" and event["name"].startswith("task ")}
    late = [(event["name"], event["tid"], event["ts"], event["dur"]) for event in events if event["name"] in ("waits", "sleeps")]
    expect("what the woken task did before", late, [("sleeps", 1, 0, 5000)])
    expect("when the tasks ran", ran, {"task 0": (0, 5000), "task 1": (5000, 1000)})
    expect("the arrow", [(event["ph"], event["tid"], event["ts"]) for event in events if event["ph"] in "sf"], [("s", 0, 5000), ("f", 1, 5000)])


def check_late_requests(checks):
    """How late requests are, and how late they can be, of all of the time and of its end, before which the request of task 1 was later."""
    cases = ((made.late_requests(), (), [(0, 10000000), (4000000, 10000000)]),
             (made.late_requests(), ("--from", "11500000"), [(0, 10000000), (3500000, 10000000)]),
             (made.late_requests(), ("--to", "9999999"), [(0, 0), (0, 0)]),
             (made.late_yield(), (), [(0, 3000000), (0, 3000000)]))
    for data, words, wanted in cases:
        rows = json.loads(checks.written(("--stats", "--json", *words), data))["tasks"]
        expect(f"how late requests are with {words}", [(row["late_ns"], row["late_bound_ns"]) for row in rows], wanted)
    for data in (made.late_requests(), made.late_yield()):
        check_script(checks, data)


def check_alone(checks):
    """A task that is alone has all of the time, and its weight gives it all, if that is one nanosecond too."""
    rows = json.loads(checks.written(("--stats", "--json"), made.alone()))["tasks"]
    expect("the shares", {(row["share_permille"], row["weight_share_permille"]) for row in rows}, {(1000, 1000)})
    check_script(checks, made.alone())


def check_crowd(checks):
    """Of more chosen tasks 16 have curves, those that run first, and the picture says so."""
    names = ",".join(map(str, range(5, 30)))
    text = checks.written(("--task", names), made.crowd())
    expect("the curves", re.findall(rb"lag of task (\d+)", text), [b"%d" % task for task in range(5, 21)])
    if b"the first 16 of 25 tasks by time run" not in text:
        raise Wrong("no word of the tasks without a curve")
    late = checks.written(("--task", names), made.late_runner())
    expect("the curves of those that ran", re.findall(rb"lag of task (\d+)", late), [b"%d" % task for task in (*range(5, 20), 29)])


def check_sleeper(checks):
    """A task that sleeps all the time isn't shown, nor one of a CPU that isn't chosen."""
    data = made.sleeper()
    for words, wanted, count in (((), [b"0", b"2"], b"2 of 3"), (("--cpu", "1"), [b"2"], b"1 of 3")):
        text = checks.written(words, data)
        expect("the curves", re.findall(rb"lag of task (\d+)", text), wanted)
        expect("how many tasks are shown", re.findall(rb"tasks (\d+ of \d+),", text), [count])


def check_made(checks):
    for name, check in (("choices", check_choices), ("yields of tasks", check_yields), ("an early arrow", check_late_pull), ("a late wake", check_late_wake),
                        ("why stretches end", check_ends), ("the edges of a time", check_edges), ("late requests", check_late_requests),
                        ("a task alone of each level", check_alone), ("30 tasks", check_crowd), ("a task that sleeps", check_sleeper),
                        ("3000 stretches", check_dense), ("widths", check_widths)):
        checks.attempt(name, check, checks)
    checks.attempt("an empty machine", check_script, checks, made.empty())
    for name in HOSTILE_NAMES:
        checks.attempt(f"a file named {name}", check_hostile_name, checks, name)
    check_in_browser(checks)
    checks.attempt(f"{COMPARED} deeds", check_script, checks, made.longest(COMPARED))


def picture_of(checks, name):
    """The picture of docs/images/ of this name, as the program draws it now."""
    path, words = TOP / PICTURES[name][0], PICTURES[name][1]
    return checks.written(words, script_of(checks, path) if path.parent == FOLDER else path.read_bytes())


def check_stored(checks, name):
    expect(f"docs/images/{name}", (TOP / "docs/images" / name).read_bytes(), picture_of(checks, name))


def make_pictures(checks):
    for name in PICTURES:
        (TOP / "docs/images" / name).write_bytes(picture_of(checks, name))


def main():
    checks = Pictures()
    if sys.argv[1:] == ["--make"]:
        make_pictures(checks)
        return 0
    check_stored_workloads(checks)
    check_phases(checks)
    check_drawn(checks, int(sys.argv[1]) if sys.argv[1:] else 1)
    check_made(checks)
    check_large(checks)
    check_refusals(checks)
    for name in PICTURES:
        checks.attempt(name, check_stored, checks, name)
    return checks.end()


if __name__ == "__main__":
    sys.exit(status_of(main))

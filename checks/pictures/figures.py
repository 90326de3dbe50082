"""Whether a table of figures shows a timeline."""

import json
import re

from model import figures_of
from svg import Wrong, expect

TASK_HEADINGS = ("task", "ran ns", "share", "weight", "greatest lag ns", "least lag ns", "late ns", "bound ns", "picks", "preempted",
                 "wakes", "mean wake ns", "p99 wake ns", "greatest wake ns", "from ns", "waited ns", "migrations")
CPU_HEADINGS = ("cpu", "charged ns", "load", "idle ticks", "idle ns", "pulls in", "pulls out")


def is_within(share, least, greatest):
    return share == least or None not in (share, least) and least <= share <= greatest


def check_json(text, timeline):
    said, wanted = json.loads(text), figures_of(timeline)
    for row, right in zip(said["tasks"], wanted["tasks"], strict=True):
        share, bounds = row.pop("weight_share_permille"), right.pop("weight_share_permille")
        if not is_within(share, *bounds):
            raise Wrong(f"the weight's share {share} of {row}, and not {bounds}")
    expect("the figures", said, wanted)


def cell(value, is_share):
    if value is None:
        return "-"
    return f"{value // 10}.{value % 10}" if is_share else str(value)


def check_table(text, figures):
    """The table has the figures of the JSON in columns that end as their headings do."""
    tasks, cpus = text.decode().split("\n\n")
    for part, kind, headings in ((tasks, "tasks", TASK_HEADINGS), (cpus, "cpus", CPU_HEADINGS)):
        head, *rows = part.splitlines()
        expect("the headings", head.split(), " ".join(headings).split())
        columns = [found.end() for found in re.finditer("|".join(sorted(headings, key=len, reverse=True)), head)]
        wanted = [[cell(value, key.endswith("permille")) for key, value in row.items()] for row in figures[kind]]
        expect("the table", [row.split() for row in rows], wanted)
        for row in rows:
            expect(f"where the columns of {row!r} end", [found.end() for found in re.finditer(r"\S+", row)], columns)


def check_sums(text, data):
    """What holds of the figures of any script without a refused tick: all nanoseconds of a CPU's ticks were charged or idle, what was
    charged was charged to tasks, and what came in by pulls went out by them."""
    figures, ticks = json.loads(text), re.findall(rb'"(\d+) tick (\d+)"', data)
    for row in figures["cpus"]:
        given = sum(int(ns) for cpu, ns in ticks if int(cpu) == row["cpu"])
        expect(f"the nanoseconds of CPU {row['cpu']}", row["charged_ns"] + row["idle_ns"], given)
    for one, other in (("ran_ns", "charged_ns"), ("pulls_in", "pulls_out")):
        rows = figures["tasks" if one == "ran_ns" else "cpus"]
        expect(f"the sum of {one}", sum(row[one] for row in rows), sum(row[other] for row in figures["cpus"]))
    check_rows(figures["tasks"])


def check_rows(rows):
    """What holds of the figures of any task; what isn't counted is null."""
    for row in rows:
        said = {key: value or 0 for key, value in row.items()}
        if max(said["wake_mean_ns"], said["wake_p99_ns"]) > said["wake_greatest_ns"] or said["least_lag_ns"] > said["greatest_lag_ns"]:
            raise Wrong(f"the row {row}")
        if said["late_ns"] > said["late_bound_ns"]:
            raise Wrong(f"a request that is later than it can be: {row}")
        if max(said["share_permille"], said["weight_share_permille"]) > 1000:
            raise Wrong(f"the shares of {row}")

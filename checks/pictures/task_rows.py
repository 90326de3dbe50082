"""Whether a picture with a row for each task shows what the tasks did."""

import re

from lanes import lanes_of
from svg import FILLS, HEIGHT, Wrong, expect, read, tenths, title_of
from turns import is_in, rests_of

BOX = re.compile(r"task (\d+) (?:runs on CPU (\d+)|(waits|sleeps)), from (\d+) ns to (\d+) ns")
# Of more boxes than these the narrow ones are left out.
MOST_BOXES = 1200
# The class of the box of a rest, and how far it is below the top of its row; a box so wide has the number of its CPU.
RESTS, ROOM = {"waits": ("v", 80), "sleeps": ("u", 160)}, 220


def shown(timeline, begin, end):
    """(task, CPU or None, what the task does, begin, end) of each stretch and each rest that is in this time."""
    ran = [(task, cpu, "runs", first, last) for cpu, task, first, last in timeline.stretches]
    rested = [(task, None, "sleeps" if sleeps else "waits", first, last) for task, sleeps, first, last in rests_of(timeline)]
    return [row for row in ran + rested if is_in((begin, end), *row[3:])]


def box_of(picture, rows, row):
    """The class, the places and the number of a box."""
    task, cpu, does, begin, end = row
    kind, below = (f"b t{task % FILLS}", 0) if does == "runs" else RESTS[does]
    left, width = picture.place(begin), picture.place(end) - picture.place(begin)
    number = str(cpu) if does == "runs" and width >= ROOM else None
    return row, kind, left, rows[task] + below, width, HEIGHT - below, number


def drawn_of(part, after):
    task, cpu, rest, begin, end = read(BOX, title_of(part))
    number = after.text if after is not None and after.get("class") == "n" else None
    if number and tenths(after.get("x")) != tenths(part.get("x")) + tenths(part.get("width")) // 2:
        raise Wrong(f"the number in {title_of(part)}")
    row = int(task), None if cpu is None else int(cpu), rest or "runs", int(begin), int(end)
    return row, part.get("class"), *(tenths(part.get(key)) for key in ("x", "y", "width", "height")), number


def check_rows(picture, timeline, bottom):
    """Each task has its row, and each time in which it runs, waits or sleeps its box there, but for those that are counted as too narrow."""
    rows = lanes_of(picture, "task ")
    expect("the rows", list(rows), list(range(len(timeline.setup.tasks))))
    boxes = [box_of(picture, rows, row) for row in shown(timeline, picture.begin, picture.end)]
    least = picture.width * len(rows) // MOST_BOXES if len(boxes) > MOST_BOXES else 0
    wanted = [box for box in boxes if box[4] >= least]
    parts = zip(picture.parts, [*picture.parts[1:], None])
    said = [drawn_of(part, after) for part, after in parts if part.tag.endswith("rect") and title_of(part)]
    expect("the boxes", sorted(said, key=str), sorted(wanted, key=str))
    expect("boxes that aren't drawn", picture.count(r"(\d+) box(?:es)? (?:is|are) too narrow"), len(boxes) - len(wanted))
    if max(rows.values()) + HEIGHT > bottom:
        raise Wrong(f"a row below {bottom}")

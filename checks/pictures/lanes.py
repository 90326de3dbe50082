"""Whether the lanes of a picture show what their CPUs did: boxes, marks and arrows."""

import math
import re
from collections import defaultdict
from dataclasses import dataclass

from svg import FILLS, HEIGHT, LEFT, SVG, Wrong, expect, read, tenths, title_of

BOX = re.compile(r"(task|\d+) (\d+|stretches) on CPU (\d+), (\d+) ns, from (\d+) ns to (\d+) ns")
ARROW = re.compile(r"M(\S+) (\S+)L(\S+) (\S+)")
# The head of an arrow, in tenths: how long it is, how wide half of it, and how far its tip is before the end of the line.
LONG, HALF_HEAD, AHEAD = 60, 30, 15
MARKER = {"viewBox": "0 0 6 6", "refX": "4.5", "refY": "3", "markerWidth": "6", "markerHeight": "6", "markerUnits": "userSpaceOnUse",
          "orient": "auto"}
HEAD_SHAPE = "M0 0L6 3L0 6Z"

# How high and wide a mark is, and how wide a digit of a box's number; a box so wide has its number.
MARK, DIGIT, WIDE = 90, 65, 400


@dataclass(frozen=True)
class Box:
    cpu: int
    left: int
    right: int
    count: int
    task: int | None
    begin: int
    end: int
    charged: int


def lanes_of(picture, of="CPU "):
    """The top of each CPU's lane, or of each task's, beside which its name stands. The lanes are in the order of their numbers and apart."""
    names = [(tenths(text.get("y")), text) for text in picture.named("text", "c") if text.text.startswith(of)]
    lanes, bottom = {}, 0
    for rect in picture.named("rect", "l"):
        top = tenths(rect.get("y"))
        expect("a lane", (tenths(rect.get("x")), tenths(rect.get("width")), tenths(rect.get("height"))), (LEFT, picture.width, HEIGHT))
        if top < bottom:
            raise Wrong(f"a lane at {top} in the one before it")
        beside = [text for y, text in names if top < y < top + HEIGHT and tenths(text.get("x")) < LEFT]
        expect(f"how many names are beside the lane at {top}", len(beside), 1)
        lanes[int(beside[0].text.removeprefix(of))] = top
        bottom = top + HEIGHT
    expect("how many lanes have names", len(lanes), len(names))
    expect("the order of the lanes", list(lanes), sorted(lanes))
    return lanes


def boxes_of(picture, lanes):
    """The boxes of each lane from left to right."""
    boxes, numbers = defaultdict(list), 0
    for part, after in zip(picture.parts, [*picture.parts[1:], None]):
        if part.tag == SVG + "rect" and title_of(part):
            box = box_of(part)
            expect(f"the lane of {box}", (tenths(part.get("y")), tenths(part.get("height"))), (lanes[box.cpu], HEIGHT))
            boxes[box.cpu].append(box)
            if after is not None and after.get("class") == "n":
                numbers += 1
                check_number(after, box, lanes[box.cpu])
            elif box.count == 1 and box.right - box.left >= WIDE:
                raise Wrong(f"no number in {box}")
    expect("the numbers that follow their boxes", numbers, len(picture.named("text", "n")))
    for cpu, row in boxes.items():
        check_row(cpu, row, LEFT + picture.width)
    return boxes


def box_of(rect):
    first, second, cpu, charged, begin, end = read(BOX, title_of(rect))
    is_single = first == "task"
    if is_single == (second == "stretches"):
        raise Wrong(f"the title {title_of(rect)}")
    task, count = (int(second), 1) if is_single else (None, int(first))
    expect(f"the fill of {title_of(rect)}", rect.get("class"), f"b t{task % FILLS}" if is_single else "b m")
    left = tenths(rect.get("x"))
    return Box(int(cpu), left, left + tenths(rect.get("width")), count, task, int(begin), int(end), int(charged))


def check_number(text, box, top):
    """A task's number stands in the middle of its box, which has room for it."""
    expect(f"the number in {box}", (text.text, tenths(text.get("x"))), (str(box.task), box.left + (box.right - box.left) // 2))
    if not top < tenths(text.get("y")) < top + HEIGHT or box.right - box.left < DIGIT * len(text.text):
        raise Wrong(f"the number of {box} isn't in it")


def check_row(cpu, boxes, edge):
    """The boxes of a lane overlap neither in their places nor in their times, and are as long as what was charged."""
    right, end = LEFT, 0
    for box in boxes:
        if not right <= box.left <= box.right <= edge or not end <= box.begin < box.end:
            raise Wrong(f"{box}, where the one before ends at {right}, {end} ns")
        if not 0 < box.charged <= box.end - box.begin or box.count == 1 and box.charged != box.end - box.begin:
            raise Wrong(f"the length of {box} of CPU {cpu}")
        right, end = box.right, box.end


def check_boxes(picture, view, lanes):
    """Each box has the next stretches of its lane, as many as it says."""
    boxes = boxes_of(picture, lanes)
    for cpu in view.cpus:
        wanted = [Box(cpu, picture.place(group[0][2]), picture.place(group[-1][3]), len(group), group[0][1] if len(group) == 1 else None,
                      group[0][2], group[-1][3], sum(end - begin for *_, begin, end in group)) for group in view.groups(cpu)]
        expect(f"how many boxes CPU {cpu} has", len(boxes[cpu]), len(wanted))
        for said, right in zip(boxes[cpu], wanted):
            expect("a box", said, right)
    joined = sum(box.count for row in boxes.values() for box in row if box.count > 1)
    expect("stretches in boxes of several", picture.count(r"(\d+) stretches are in grey"), joined)
    return joined


def on_each_cpu(marks):
    """Those of each CPU in their order: what CPUs do may come in any order where threads do it."""
    return sorted(marks, key=lambda mark: int(mark[2].split()[0]))


def check_marks(picture, view, lanes, bottom):
    """Each mark that has room is there once, in its row below its CPU's boxes, and no other."""
    marks = list(view.marks(picture.place))
    drawn = [mark for mark in marks if mark.row is not None]
    expect("marks left out", picture.count(r"(\d+) marks? ha(?:ve|s) no room"), len(marks) - len(drawn))
    uses = [use for use in picture.uses() if title_of(use)]
    said = on_each_cpu((use.get("href")[1:], tenths(use.get("x")), title_of(use), tenths(use.get("y"))) for use in uses)
    wanted = on_each_cpu((mark.sign, picture.place(mark.moment.begin), mark.title(), mark) for mark in drawn)
    expect("how many marks there are", len(said), len(wanted))
    rows = {}
    for (*mark, y), (*right, model) in zip(said, wanted):
        expect("a mark", mark, right)
        below = y - lanes[model.moment.cpu]
        expect(f"how far row {model.row} of {mark} is below the lane", below, rows.setdefault(model.row, below))
    check_rows(rows, picture, lanes, bottom, {mark.moment.cpu: mark.row for mark in sorted(drawn, key=lambda mark: mark.row)})
    check_arrows(picture, drawn, lanes, rows)


def check_rows(rows, picture, lanes, bottom, last_rows):
    """The rows stand below the boxes and one below the other, and the last one of a lane above the next lane."""
    last = HEIGHT - MARK // 2
    for row in sorted(rows):
        if rows[row] < last + MARK:
            raise Wrong(f"row {row} of marks is {rows[row]} below the top of its lane, and what is above it {last}")
        last = rows[row]
    tops = [*lanes.values(), bottom]
    for cpu, row in last_rows.items():
        after = tops[list(lanes).index(cpu) + 1]
        if lanes[cpu] + rows[row] + MARK // 2 > after:
            raise Wrong(f"the marks of CPU {cpu} reach below {after}")


def check_arrows(picture, drawn, lanes, rows):
    """Each pull from a lane has an arrow, from the source's boxes to the mark, and so has each wake by another CPU from the boxes of that.
    Those to marks at one place begin beside one another."""
    wanted, last, shift = [], None, 0
    for mark in drawn:
        other = {"pull": 1, "wake": 2}.get(mark.sign)
        if other is None or mark.moment.deed[other] == mark.moment.cpu:
            continue
        moment, source, end = mark.moment, mark.moment.deed[other], picture.place(mark.moment.begin)
        shift = (shift + 50) % 200 if end == last else 0
        last = end
        if source in lanes:
            middle = lanes[moment.cpu] + rows[mark.row]
            start = lanes[source] + (HEIGHT if lanes[source] < middle else 0)
            wanted.append(({"pull": "p", "wake": "q"}[mark.sign], mark.title(), picture.place(moment.other) + shift, start, end, middle))
    arrows = [path for kind in "pq" for path in picture.named("path", kind) if title_of(path)]
    arrows.sort(key=picture.parts.index)
    expect("how many arrows there are", len(arrows), len(wanted))
    for arrow, (kind, title, *ends, middle) in zip(arrows, wanted):
        *said, tip = map(tenths, read(ARROW, arrow.get("d")))
        expect("an arrow", (arrow.get("class"), title_of(arrow), *said), (kind, title, *ends))
        start = ends[1]
        if not min(start, middle) <= tip <= max(start, middle) or abs(middle - tip) > MARK:
            raise Wrong(f"the arrow of {title} ends at {tip}, and its mark is at {middle}")
    marks = [(tenths(use.get("x")), tenths(use.get("y"))) for use in picture.uses() if title_of(use)]
    for arrow in arrows:
        check_head(arrow, marks)
    for marker in picture.root.iter(SVG + "marker"):
        expect("the head of an arrow", {key: value for key, value in marker.items() if key != "id"}, MARKER)
        expect("its shape", [path.get("d") for path in marker], [HEAD_SHAPE])


def check_head(arrow, marks):
    """The head of an arrow lies over no mark."""
    begin, start, end, tip = map(tenths, read(ARROW, arrow.get("d")))
    length = math.hypot(end - begin, tip - start) or 1
    along, across = ((end - begin) / length, (tip - start) / length), ((start - tip) / length, (end - begin) / length)
    corners = [(end + far * along[0] + side * across[0], tip + far * along[1] + side * across[1])
               for far, side in ((AHEAD, 0), (AHEAD - LONG, HALF_HEAD), (AHEAD - LONG, -HALF_HEAD))]
    left, right = min(x for x, _ in corners), max(x for x, _ in corners)
    top, bottom = min(y for _, y in corners), max(y for _, y in corners)
    for x, y in marks:
        if abs(x - end) < 2 * MARK and left < x + MARK // 2 and x - MARK // 2 < right and top < y + MARK // 2 and y - MARK // 2 < bottom:
            raise Wrong(f"the head of the arrow of {title_of(arrow)} is over the mark at {x}, {y}")

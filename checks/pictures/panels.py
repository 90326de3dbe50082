"""Whether the axes and the panels of a picture show the times and the lags."""

import re

from svg import FILLS, LEFT, Wrong, expect, read, tenths, title_of

# How high the half of a panel is, and how wide a sleep is that is drawn, in tenths.
HALF, LEAST_SLEEP = 240, 30

LINE = re.compile(r"M(\S+) (\S+)V(\S+)")
LABEL = re.compile(r"(\d+) (ns|µs|ms|s)")
FRAME = re.compile(r"M(\S+) (\S+)H(\S+)M(\S+) (\S+)H(\S+)")
# How wide half a letter of a label is, and how far behind its line the last label ends, so that it has room.
HALF_LETTER, BEHIND = 32, 180
UNITS = {"ns": 1, "µs": 1000, "ms": 1000000, "s": 1000000000}


def check_axes(picture):
    """Each label says the time of its line, and each line is where its time is. Gives the top and the bottom of each axis."""
    axes = {}
    for path, text in zip(picture.named("path", "g"), picture.named("text", "a"), strict=True):
        place, top, bottom = map(tenths, read(LINE, path.get("d")))
        number, unit = read(LABEL, text.text)
        time = int(number) * UNITS[unit]
        expect(f"the place of {text.text}", (place, place_of(picture, text)), (picture.place(time), place))
        if not (picture.begin <= time <= picture.end and bottom < tenths(text.get("y")) < bottom + 200):
            raise Wrong(f"the label {text.text}")
        axes.setdefault((top, bottom), []).append(time)
    for times in axes.values():
        check_steps(picture, times)
    return list(axes)


def place_of(picture, label):
    """Where the line of a label is: in its middle, or before its end where it has no room on the right."""
    place, is_last = tenths(label.get("x")), label.get("class") == "a r"
    if place + (0 if is_last else HALF_LETTER * len(label.text)) > 10 * picture.page:
        raise Wrong(f"{label.text} isn't in the picture")
    return place - BEHIND if is_last else place


def check_steps(picture, times):
    """The times are one step apart, and neither few nor many."""
    steps = {after - before for before, after in zip(times, times[1:])}
    most = max(3, picture.width // 1000)
    if len(steps) > 1 or not (most * 2 // 5 if picture.end - picture.begin > 10 else 1) <= len(times) <= most + 2:
        raise Wrong(f"an axis with {times}")


def level(top, lag, height):
    """Where a lag stands in a panel: towards the line of 0."""
    far = abs(lag) * HALF // height
    return top + HALF + (far if lag < 0 else -far)


def panels_of(picture):
    """The top of each panel, of which the half above the line of 0 is shaded."""
    tops = []
    for rect, path in zip(picture.named("rect", "e"), picture.named("path", "z"), strict=True):
        top = tenths(rect.get("y"))
        expect("a shaded half", tuple(tenths(rect.get(key)) for key in ("x", "width", "height")), (LEFT, picture.width, HALF))
        expect(f"the lines of the panel at {top}", tuple(map(tenths, read(FRAME, path.get("d")))),
               (LEFT, top + HALF, LEFT + picture.width, LEFT, top + 2 * HALF, LEFT + picture.width))
        if tops and top < tops[-1] + 2 * HALF:
            raise Wrong(f"a panel at {top} in the one before it")
        tops.append(top)
    return tops


def check_panels(picture, view, above):
    """Each task has its panel, with the fill and the number of the task and the ends of its scale, and its curve goes through its lags."""
    tops = panels_of(picture)
    expect("the number of panels", len(tops), len(view.curves))
    if tops and tops[0] < above:
        raise Wrong(f"a panel at {tops[0]} above {above}")
    swatches = [rect for rect in picture.named("rect", "b") if not title_of(rect) and tenths(rect.get("y")) >= above]
    names = [text for text in picture.named("text", "c") if text.text.isdigit()]
    ends = iter(picture.named("text", "y"))
    for top, task, swatch, name in zip(tops, view.curves, swatches, names, strict=True):
        expect(f"the fill and the number of task {task}", (swatch.get("class"), name.text), (f"b t{task % FILLS}", str(task)))
        middle = tenths(swatch.get("y")) + tenths(swatch.get("height")) // 2
        expect(f"the middle of the fill of task {task}", middle, top + HALF)
        for text, place in ((name, HALF), (next(ends), 0), (next(ends), HALF), (next(ends), 2 * HALF)):
            if not -30 <= tenths(text.get("y")) - top - place <= 90 or tenths(text.get("x")) >= LEFT:
                raise Wrong(f"{text.text} isn't beside the panel of task {task}")
    expect("the ends of scales that are left", list(ends), [])
    check_curves(picture, view, tops)
    check_sleeps(picture, view, tops)


def check_curves(picture, view, tops):
    """Each curve goes from edge to edge through its lags."""
    curves, ends = picture.named("path", "k"), picture.named("text", "y")
    expect("the curves", [title_of(curve) for curve in curves], [f"lag of task {task}" for task in view.curves])
    for at, (curve, top, (task, points)) in enumerate(zip(curves, tops, view.curves.items())):
        points = [view.before[task] or points[0], *points]
        height = max([1, *(abs(lag) for _, lag in points)])
        expect(f"the scale of task {task}", [text.text for text in ends[3 * at:3 * at + 3]], [f"{height} ns", "0", f"-{height} ns"])
        wanted = [(picture.place(time), level(top, lag, height)) for time, lag in (*points, (view.end, points[-1][1]))]
        said = [tuple(map(tenths, point.split())) for point in re.split("[ML]", curve.get("d"))[1:]]
        expect(f"the lags of task {task}", said, wanted)


def check_sleeps(picture, view, tops):
    """Each time in which a task sleeps covers its panel, if it is wide enough, and the heading counts the others."""
    places = [(task, picture.place(begin), picture.place(end) - picture.place(begin)) for task, begin, end in view.sleeps]
    top_of = dict(zip(view.curves, tops))
    wanted = sorted((top_of[task], place, width, 2 * HALF) for task, place, width in places if width >= LEAST_SLEEP)
    rects = [rect for rect in picture.named("rect", "u") if tops and tenths(rect.get("y")) >= tops[0]]
    said = sorted(tuple(tenths(rect.get(key)) for key in ("y", "x", "width", "height")) for rect in rects)
    expect("where tasks sleep", said, wanted)
    expect("sleeps that aren't drawn", picture.count(r"(\d+) sleeps? (?:is|are) too short"), len(places) - len(wanted))

"""Whether the picture of an order's steps shows them, each at its place, and below them what one thread answers that does the deeds of
their commits one after the other."""

import re
from dataclasses import dataclass
from xml.etree import ElementTree

from plain.machine import one_thread
from plain.report import text_of
from plain.steps import Player, steps_of
from svg import LETTER, SVG, Wrong, check_alone, expect, read, tenths, title_of

# So many places are drawn at most.
MOST_PLACES = 96
# The class of the box of a step that adds no line.
KINDS = {"acquire": "x", "release": "x", "post": "o"}
ARROW = re.compile(r"M(\S+) (\S+)V(\S+)H(\S+)")


@dataclass(frozen=True)
class Step:
    place: int
    caller: int
    # the operation of which it is a part: its place in the caller's program, and its words
    operation: tuple
    name: str
    # the place in the history of the line that it adds, or None
    line: int | None


def played(setup, order):
    """The steps of an order, and the deeds that they commit."""
    player = Player(setup)
    parts = [[(number, text_of(operation)) for number, operation in enumerate(program) for _ in steps_of(setup, cpu, operation)]
             for cpu, program in enumerate(setup.programs)]
    steps = []
    for place, caller in enumerate(order):
        word, operand = player.next_step(caller)
        operation, lines = parts[caller][player.counters[caller]], len(player.lines)
        player.step(caller)
        name = f"{word} {operand}" if word in ("acquire", "release", "take", "settle", "post") else word
        steps.append(Step(place, caller, operation, name, lines if len(player.lines) > lines else None))
    return steps, [(cpu, deed) for cpu, deed, _ in player.lines]


class Race:
    """What has to be drawn of an order: of the places from one on those before another, as many as are drawn at most."""

    def __init__(self, workload, first, end):
        self.setup, self.order = workload.setup, workload.order
        steps, deeds = played(self.setup, self.order)
        self.first = min(first, len(steps))
        self.end = min(len(steps) if end is None else end, len(steps), self.first + MOST_PLACES)
        self.lines = [f"{cpu} {text_of(deed)}: {answer}" for cpu, deed, answer in one_thread(self.setup, deeds).lines]
        self.steps = steps[self.first:self.end]
        self.callers = sorted({step.caller for step in self.steps})
        spans = {}
        for step in steps:
            spans.setdefault((step.caller, step.operation), []).append(step.place)
        self.spans = [(caller, operation[1], places[0], places[-1]) for (caller, operation), places in spans.items()
                      if places[0] < self.end and self.first <= places[-1]]

    def title(self, step):
        line = "" if step.line is None else f"; {self.lines[step.line]}"
        return f"CPU {step.caller} {step.operation[1]}: {step.name}, place {step.place}{line}"


def named(root, tag, kind):
    return [part for part in root if part.tag == SVG + tag and (part.get("class") or "").split(" ")[0] == kind]


def box(rect):
    return tuple(tenths(rect.get(key)) for key in ("x", "y", "width", "height"))


def check_race(text, workload, first=0, end=None):
    """Raises Wrong where the picture shows anything else of these places."""
    root, race = ElementTree.fromstring(text), Race(workload, first, end)
    check_alone(text, root)
    check_words(root, race)
    boxes = check_steps(root, race)
    check_spans(root, race, boxes)
    check_history(root, race, boxes)
    check_room(root)


def check_words(root, race):
    count, steps = race.setup.cpus(), len(race.order)
    expect("the title", title_of(root), f"A race of {count} {'caller' if count == 1 else 'callers'}")
    expect("the head", [part.text for part in named(root, "text", "h")],
           [f"Callers {count}, steps {steps}, lines {len(race.lines)}: whose step came when, and the one thread's history that it equals"])
    notes = " ".join(part.text for part in named(root, "text", "s"))
    said = re.search(r"Of the (\d+) places those from (\d+) on and before (\d+) are drawn; --from and --to choose others", notes)
    expect("which places are said to be drawn", said and tuple(map(int, said.groups())),
           None if len(race.steps) == steps else (steps, race.first, race.end))
    said = re.search(r"(\d+) callers? (?:has|have) no step here", notes)
    expect("how many callers are said to be left out", int(said[1]) if said else 0, count - len(race.callers))
    expect("the names of the rows", [part.text for part in named(root, "text", "n")], [f"CPU {caller}" for caller in race.callers])


def check_steps(root, race):
    """Each step has its box in its caller's row, at its place, with its name in it. Gives the boxes by their places."""
    parts = [(part, after) for part, after in zip(root, [*root[1:], None]) if part.get("class", "").startswith("b ") and title_of(part)]
    expect("the steps", [title_of(part) for part, _ in parts], [race.title(step) for step in race.steps])
    boxes = {}
    for (part, after), step in zip(parts, race.steps):
        kind = KINDS.get(step.name.split()[0], "j") if step.line is None else "c"
        expect(f"the kind and the name of {race.title(step)}", (part.get("class"), after.text), (f"b {kind}", step.name))
        boxes[step.place] = box(part)
    if boxes:
        left, _, width, height = boxes[race.first]
        tops = sorted({y for _, y, _, _ in boxes.values()})
        expect("the number of rows", len(tops), len(race.callers))
        for step in race.steps:
            place = left + (step.place - race.first) * width
            expect(f"where {race.title(step)} is", boxes[step.place], (place, tops[race.callers.index(step.caller)], width, height))
        if any(below - above < height for above, below in zip(tops, tops[1:])) or width < 120:
            raise Wrong(f"rows at {tops} of boxes that are {width} wide and {height} high")
    return boxes


def check_spans(root, race, boxes):
    """Behind the boxes of an operation is a band, from its first step to its last one or to an edge."""
    if not boxes:
        return
    left, _, width, _ = boxes[race.first]
    top_of = {step.caller: boxes[step.place][1] for step in race.steps}
    wanted = []
    for caller, operation, first, last in race.spans:
        begin, end = max(first, race.first), min(last + 1, race.end)
        if caller in top_of:
            title = f"CPU {caller} {operation}, places {first} to {last}"
            wanted.append((title, left + (begin - race.first) * width, (end - begin) * width, caller))
    bands = [(part, box(part)) for part in named(root, "rect", "l") if title_of(part)]
    callers = {title: caller for title, _, _, caller in wanted}
    expect("the bands", sorted((title_of(part), x, wide) for part, (x, _, wide, _) in bands), sorted(row[:3] for row in wanted))
    for part, (_, y, _, height) in bands:
        top = top_of[callers[title_of(part)]]
        if not y <= top < top + boxes[race.first][3] <= y + height:
            raise Wrong(f"the band {title_of(part)} from {y} on, and a row at {top}")


def check_history(root, race, boxes):
    """Below the rows stand the lines that are added, in order, each with an arrow from its step. Nothing crosses: an arrow that begins
    further to the right ends further down, behind its text."""
    steps = [step for step in race.steps if step.line is not None]
    texts, arrows = named(root, "text", "d"), named(root, "path", "k")
    lines = [race.lines[step.line] for step in steps]
    expect("the lines", [part.text for part in texts], lines)
    expect("what the arrows say", [title_of(part) for part in arrows], lines)
    last = max((y + height for _, y, _, height in boxes.values()), default=0)
    for step, part, arrow in zip(steps, texts, arrows):
        x, y, level, end = map(tenths, read(ARROW, arrow.get("d")))
        left, top, width, height = boxes[step.place]
        expect(f"where the arrow of {part.text} begins", (x, y), (left + width // 2, top + height))
        base = tenths(part.get("y"))
        if not (last < level and base - 80 <= level <= base and tenths(part.get("x")) + 10 * LETTER * len(part.text) <= end <= x):
            raise Wrong(f"the arrow of {part.text}, at {base}, goes to {end} {level}")
        last = base + 10
    if texts and tenths(texts[-1].get("y")) > tenths(root.get("height")):
        raise Wrong("a line below the picture")


def check_room(root):
    """Nothing is beside the picture."""
    width = tenths(root.get("width"))
    for part in root:
        if part.tag == SVG + "rect" and tenths(part.get("x") or "0") + tenths(part.get("width")) > width:
            raise Wrong(f"{part.attrib} in a picture that is {width} wide")
        if part.tag == SVG + "text" and part.get("class") == "s" and tenths(part.get("x")) + 10 * LETTER * len(part.text.strip()) > width:
            raise Wrong(f"{part.text} hasn't room in a line")

"""A picture as it is read, with what holds of each, whatever it shows."""

import re
from xml.etree import ElementTree

SVG = "{http://www.w3.org/2000/svg}"
ELEMENTS = {"svg", "title", "style", "defs", "pattern", "marker", "rect", "path", "text", "use"}

# How wide a picture is where no word says, in units, a letter of a note at most, and how wide what is beside the lanes.
PAGE, LETTER, BESIDE = 1000, 7, 110

# Lengths and places are in tenths of a unit: the left edge of the lanes and the height of each.
LEFT, HEIGHT = 900, 240
FILLS = 28
# The words of the legend for each sign, and for each class of arrows and boxes; with rows of tasks there are others.
LEGEND = {"pick": "pick", "same": "pick of the same", "wake": "wake", "sleep": "sleep", "pull": "pull", "renice": "renice",
          "yield": "yield", "refused": "refused", "begin": "begin", "end": "end", "set": "set", "rebase": "rebase",
          "nothing": "found nothing", "p": "pulled from", "q": "woken from", "b m": "several stretches", "b o": "task not chosen",
          "u": "task sleeps"}
ROWS_LEGEND = {"b": "runs, on the CPU of the number", "v": "waits", "u": "sleeps"}


class Wrong(Exception):
    """Something that isn't as it has to be."""


def expect(what, said, wanted):
    if said != wanted:
        raise Wrong(f"{what}: {said!r}, and not {wanted!r}"[:2000])


def tenths(number):
    units, _, rest = number.partition(".")
    return 10 * int(units) + int(rest or 0)


def read(pattern, text):
    found = pattern.fullmatch(text)
    if not found:
        raise Wrong(f"{text!r} isn't of the form {pattern.pattern}")
    return found.groups()


def title_of(element):
    found = element.find(SVG + "title")
    return None if found is None else found.text


class Picture:
    """The elements of a picture of the time from a beginning to an end, so wide, whose legend has words of these."""

    def __init__(self, text, begin, end, legend=LEGEND, page=PAGE):
        self.root = ElementTree.fromstring(text)
        self.begin, self.end, self.page, self.width = begin, end, page, 10 * (page - BESIDE)
        expect("the width", (self.root.get("width"), self.root.get("viewBox").split()[2]), (str(page), str(page)))
        expect("the root", self.root.tag, SVG + "svg")
        check_alone(text, self.root)
        self.parts = list(self.root)
        self.notes = " ".join(part.text for part in self.named("text", "s"))
        for part in self.named("text", "s"):
            if int(part.get("x")) + LETTER * len(part.text.strip()) > page:
                raise Wrong(f"{part.text} hasn't room in a line")
        if re.search(r"\b1 \w+ (?:are|have) ", self.notes):
            raise Wrong(f"one of several: {self.notes}")
        self.check_legend(legend)
        check_fills(self.root)
        check_colours(self.root)

    def named(self, tag, kind):
        """The elements of a class: the first word of the attribute."""
        return [part for part in self.parts if part.tag == SVG + tag and (part.get("class") or "").split(" ")[0] == kind]

    def uses(self):
        return [part for part in self.parts if part.tag == SVG + "use"]

    def place(self, time):
        """Where a time stands: at an edge where it isn't drawn."""
        since, length = max(0, min(time, self.end) - self.begin), self.end - self.begin
        return LEFT + (since * self.width // length if length else 0)

    def count(self, pattern):
        found = re.search(pattern, self.notes)
        return int(found[1]) if found else 0

    def check_legend(self, legend):
        """It has each sign, arrow and kind of box that is drawn, once, with its words, and nothing else."""
        axis = next((at for at, part in enumerate(self.parts) if part.get("class") == "g"), 0)
        samples = [(kind_of(part), after.text) for part, after in zip(self.parts[:axis], self.parts[1:]) if kind_of(part)]
        drawn = {kind_of(part) for part in self.parts[axis:] if title_of(part) or part.get("class") == "u"} & set(legend)
        expect("the legend", sorted(samples), sorted((kind, legend[kind]) for kind in drawn))


def kind_of(part):
    """The sign of a mark, or the class of an arrow or a box: `b` where it has a task's fill."""
    if part.tag == SVG + "use":
        return part.get("href")[1:]
    kind = part.get("class") if part.tag in (SVG + "path", SVG + "rect") else None
    return "b" if re.fullmatch(r"b t\d+", kind or "") else kind if kind != "w" else None


def check_alone(text, root):
    """Nothing in it runs, moves or comes from elsewhere, and no text is empty."""
    if b"<!" in text or b"<?" in text:
        raise Wrong("a declaration")
    names = [element.get("id") for element in root.iter() if element.get("id")]
    expect("the names that are there twice", len(names) - len(set(names)), 0)
    for element in root.iter():
        if element.tag.removeprefix(SVG) not in ELEMENTS:
            raise Wrong(f"the element {element.tag}")
        if element.tag in (SVG + "text", SVG + "title") and not element.text:
            raise Wrong("a text without words")
        for key, value in element.attrib.items():
            if key.startswith("on") or key.endswith("href") and value not in ["#" + name for name in names]:
                raise Wrong(f"the attribute {key}={value}")
        check_style(" ".join([*element.attrib.values(), element.text or ""]), names)


def check_style(text, names):
    if "@import" in text or "@font-face" in text or "://" in text:
        raise Wrong(f"something from elsewhere: {text[:200]}")
    for named in re.findall(r"url\(([^)]*)\)", text):
        if named[:1] != "#" or named[1:] not in names:
            raise Wrong(f"url({named})")


def fills_of(root):
    """The colour of each fill, and the lines over it where there are some."""
    patterns = {f"url(#{pattern.get('id')})": tuple(part.get("fill") or part.get("d") for part in pattern)
                for pattern in root.iter(SVG + "pattern")}
    rules = re.findall(r"\.t(\d+)\{fill:([^}]*)\}", root.find(SVG + "style").text)
    return {int(number): patterns.get(fill, (fill,)) for number, fill in rules}


def check_fills(root):
    """All are there, no two are the same, and those of neighbours have different lines."""
    fills = fills_of(root)
    expect("the fills", sorted(fills), list(range(FILLS)))
    expect("how many fills differ", len(set(fills.values())), FILLS)
    for number, (_, *lines) in fills.items():
        if lines == list(fills[(number + 1) % FILLS][1:]):
            raise Wrong(f"fill {number} has the lines of the next one")


def signs_colours(root):
    """The colours of marks and arrows."""
    shapes = [*root.find(SVG + "defs").findall(SVG + "path"), *(path for marker in root.iter(SVG + "marker") for path in marker)]
    rules = re.findall(r"\.[pq]\{[^}]*stroke:(#\w+)", root.find(SVG + "style").text)
    return {shape.get(key) for shape in shapes for key in ("fill", "stroke")} - {None, "none"} | set(rules)


def check_colours(root):
    """No task has the colour of a sign."""
    expect("colours of tasks and of signs", {colour for colour, *_ in fills_of(root).values()} & signs_colours(root), set())

"""Whether a page shows a timeline: it has the picture, the table and the figures that the other outputs have, and its data are the
model's."""

import json
import re
from collections import defaultdict
from html.parser import HTMLParser
from xml.etree import ElementTree

from figures import CPU_HEADINGS, TASK_HEADINGS
from plain.report import text_of
from stretch_table import listed
from svg import Wrong, expect, fills_of

# So many stretches are told and listed.
MOST_LISTED = 5000

# Elements that have no end.
VOID = {"meta", "input"}


class Page(HTMLParser):
    """The texts of a page, by the names of the elements around each, of which each that is begun is ended in its order."""

    def __init__(self, text):
        super().__init__()
        self.open, self.texts, self.tables, self.problems = [], defaultdict(str), [], []
        self.feed(text)
        self.close()
        expect("elements without an end", self.open, [])
        expect("what isn't well-formed", self.problems, [])

    def handle_starttag(self, tag, attrs):
        self.look(attrs)
        if tag == "table":
            self.tables.append([])
        if tag == "tr":
            self.tables[-1].append([])
        if tag in ("td", "th"):
            self.tables[-1][-1].append("")
        if tag not in VOID:
            self.open.append((tag, dict(attrs).get("id") or tag))

    def handle_startendtag(self, tag, attrs):
        self.look(attrs)

    def look(self, attrs):
        """Nothing runs by an attribute or comes from elsewhere."""
        for name, value in attrs:
            if name.startswith("on") or name in ("src", "href", "action", "data") and not value.startswith("#"):
                self.problems.append((name, value))

    def handle_endtag(self, tag):
        if not self.open or self.open.pop()[0] != tag:
            self.problems.append(("end", tag))

    def handle_data(self, data):
        if self.open:
            self.texts[self.open[-1][1]] += data
        if self.open and self.open[-1][0] in ("td", "th"):
            self.tables[-1][-1][-1] += data

    def handle_comment(self, data):
        self.problems.append(("comment", data))

    def data(self):
        return json.loads(self.texts["data"])


def picture_in(text):
    return re.search(rb'<section id="picture"[^>]*>\n(.*?)</section>', text, re.DOTALL)[1]


def without_none(**values):
    return {key: value for key, value in values.items() if value is not None}


def told(timeline, turn):
    """What a page tells of a stretch."""
    ticks = [at for at, moment in enumerate(timeline.moments)
             if moment.cpu == turn.cpu and moment.charged() is not None and turn.begin <= moment.begin < turn.end]
    first, last = ticks[0], timeline.moments[ticks[-1]]
    wakes = [moment for moment in timeline.moments[:first] if moment.answer == "woken" and moment.deed[1] == turn.task]
    return without_none(
        cpu=turn.cpu, task=turn.task, begin_ns=turn.begin, end_ns=turn.end, waited_ns=turn.waited, delay_ns=turn.delay, why=turn.why,
        ticks=len(ticks), deed=f"{last.cpu} {text_of(last.deed)}", answer=last.answer, lag_before=timeline.lags_before[first],
        lag_after=timeline.lags_after[ticks[-1]], woken_from=None if turn.delay is None else wakes[-1].deed[2])


def check_whole(text, picture, table, figures, file=None):
    """Raises Wrong where a page is not well-formed or not by itself, or has another picture, table or figures. Gives it."""
    page = Page(text.decode())
    expect("the title", page.texts["title"].partition("A schedule of")[0], "A schedule" if file is None else f"The schedule of {file}")
    if picture_in(text) != picture:
        raise Wrong("another picture")
    rows = [row.split() for row in table.decode().splitlines()[1:]]
    listed_rows, *figured = page.tables
    expect("the table", listed_rows[1:], rows[:MOST_LISTED])
    for said, part, headings in zip(figured, figures.decode().split("\n\n"), (TASK_HEADINGS, CPU_HEADINGS), strict=True):
        expect("the figures", said, [list(headings), *(row.split() for row in part.splitlines()[1:])])
    check_dark(text)
    data = page.data()
    counts = len(data["stretches"]), data["left_out"]
    expect("how many stretches are told and left out", counts, (len(rows[:MOST_LISTED]), len(rows[MOST_LISTED:])))
    of_all = re.search(r"Of (\d+) stretches the first (\d+) are", page.texts["li"])
    expect("whether it says so", of_all and tuple(map(int, of_all.groups())), (len(rows), MOST_LISTED) if data["left_out"] else None)
    expect("the file", data["file"], file)
    expect("scripts and their ends", (text.count(b"<script"), text.count(b"</script"), text.count(b"<!--")), (2, 2, 0))
    return page


def check_dark(text):
    """The page's own colours, which signs have on a dark ground, are none of a task."""
    style = re.search(r"<style>(.*?)</style>", text.decode(), re.DOTALL)[1]
    tasks = {colour for colour, *_ in fills_of(ElementTree.fromstring(picture_in(text))).values()}
    expect("colours of tasks in the page's style", tasks & set(re.findall(r"#\w+", style)), set())


def check_page(text, timeline, picture, table, figures, window=None, cpus=None):
    """Raises Wrong where a page doesn't show a timeline, or a part of its time on some of its CPUs, beside these other outputs of it."""
    page = check_whole(text, picture, table, figures)
    window, cpus = window or (0, timeline.end()), cpus or range(timeline.setup.cpus())
    data = page.data()
    machine = {key: data[key] for key in ("cpus", "tasks", "from_ns", "to_ns")}
    wanted = {"cpus": timeline.setup.cpus(), "tasks": len(timeline.setup.tasks), "from_ns": window[0], "to_ns": window[1]}
    expect("the machine and the time", machine, wanted)
    expect("the stretches", data["stretches"], [told(timeline, turn) for turn in listed(timeline, window, cpus)])

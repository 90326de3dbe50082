"""What a page does in a browser, where there is one: driven.js points, zooms, moves and searches as a user does."""

import html
import json
import re
import shutil
import tempfile
from pathlib import Path

import made
from runner import run
from svg import Wrong, expect

HERE = Path(__file__).resolve().parent

# The edges of the lanes, in units of the picture where no word says how wide it is, and how far a place may be from where it has to be.
LEFT, WIDTH, NEAR = 90, 890, 0.11

UNITS = {"s": 10**9, "ms": 10**6, "µs": 1000, "ns": 1}

# Of dark pages and light ones: the word that the browser takes, and the ground.
GROUNDS = {"light": (1, "rgb(255, 255, 255)"), "dark": (0, "rgb(22, 22, 22)")}


def driven(chromium, page, ground):
    """What came of it in a browser that wants such a ground."""
    script = f"<script>{(HERE / 'driven.js').read_text()}</script></body>".encode()
    with tempfile.TemporaryDirectory() as folder:
        file = Path(folder, "page.html")
        file.write_bytes(page.replace(b"</body>", script))
        words = [chromium, "--headless", "--no-sandbox", "--disable-gpu", f"--user-data-dir={folder}/profile", "--window-size=1100,1500",
                 "--virtual-time-budget=10000", f"--blink-settings=preferredColorScheme={GROUNDS[ground][0]}", "--dump-dom", file.as_uri()]
        printed = run(words)
    found = re.search(r'<pre id="result">(.*?)</pre>', printed.out.decode(), re.DOTALL)
    if printed.status or not found:
        raise Wrong(f"status {printed.status}: {printed.errors.decode(errors='replace')[-1000:]}")
    return json.loads(html.unescape(found[1]))


def check_places(what, seen, width=WIDTH):
    """Each box that is shown shares time with what is seen, and stands where its times are, cut at the edges."""
    first, last = seen["from"], seen["to"]
    for box in seen["boxes"]:
        left, right = (LEFT + width * (min(max(time, first), last) - first) / (last - first) for time in (box["begin"], box["end"]))
        if not (box["begin"] < last and first < box["end"]) or abs(box["left"] - left) > NEAR or abs(box["width"] - right + left) > NEAR:
            raise Wrong(f"{what}: {box} from {first} to {last}")


def check_near(what, place, wanted):
    if abs(place - wanted) > NEAR:
        raise Wrong(f"{what} is at {place}, and not at {wanted}")


def check_marks(what, seen):
    """A mark, an arrow's tip and a line of an axis stand at their times, and an arrow begins no later, but for how far arrows are beside
    one another."""
    first, last = seen["from"], seen["to"]
    if not seen["marks"] or not seen["arrows"] or not seen["axes"]:
        raise Wrong(f"{what}: no marks, arrows or axes")
    for part in (*seen["marks"], *seen["arrows"]):
        wanted = LEFT + WIDTH * (int(re.search(r", at (\d+) ns$", part["title"])[1]) - first) / (last - first)
        check_near(part["title"], part["places"][-1] if "places" in part else part["place"], wanted)
        if "places" in part and part["places"][0] > wanted + 15 + NEAR:
            raise Wrong(f"{what}: {part} begins too late")
    for line in seen["axes"]:
        number, unit = line["label"].split()
        check_near(line["label"], line["places"][0], LEFT + WIDTH * (int(number) * UNITS[unit] - first) / (last - first))


def check_facts(what, facts, stretch):
    """What is told is that of a stretch of the data."""
    woken = f"from CPU {stretch['woken_from']}, {stretch['delay_ns']} ns before" if "woken_from" in stretch else "not since it ran last"
    expect(what, facts, {
        "task": f"task {stretch['task']} on CPU {stretch['cpu']}",
        "time": f"from {stretch['begin_ns']} ns to {stretch['end_ns']} ns: {stretch['end_ns'] - stretch['begin_ns']} ns",
        "last deed": f"{stretch['deed']}, of {stretch['ticks']} tick{'s' * (stretch['ticks'] != 1)}",
        "answer": stretch["answer"], "lag before": f"{stretch['lag_before']} ns of virtual time",
        "lag after": f"{stretch['lag_after']} ns of virtual time", "woken": woken, "waited": f"{stretch['waited_ns']} ns",
        "ended by": stretch["why"]})


def check_layouts(layouts):
    """In each window the picture isn't scaled down, and its texts are apart and in it; in the widest the figures aren't cut."""
    for layout in layouts:
        expect("the scale and the smallest letters", (layout["scale"], layout["letters"]), (1, 9))
        expect("texts that overlap or aren't in the picture", (layout["overlapping"], layout["outside"]), ([], []))
    expect("by how much the figures are cut", layouts[-1]["cut"], 0)


def at(stretches, cpu, time):
    return next(stretch for stretch in stretches if stretch["cpu"] == cpu and stretch["begin_ns"] <= time < stretch["end_ns"])


def check_search(sought, stretches):
    of_task = [place for place, stretch in enumerate(stretches) if stretch["task"] == 4]
    for answer in sought[:2]:
        expect("the lines of task 4", (answer["rows"], answer["found"]), (of_task, f"{len(of_task)} listed of task 4"))
        expect("whose boxes are bright", set(answer["bright"]), {"task 4"})
        expect("which lines the Tab key reaches", answer["reached"], of_task[:1])
    for answer, found in zip(sought[2:], ("no task: 0 to 8 are known", "")):
        expect("all lines again", (len(answer["rows"]), answer["found"]), (len(stretches), found))


def check_driven(chromium, page, ground):
    said = driven(chromium, page, ground)
    stretches = json.loads(re.search(rb'id="data">(.*?)</script>', page, re.DOTALL)[1])["stretches"]
    expect("errors", said["errors"], [])
    expect("whether it is dark", (said["dark"], said["grounds"]), (ground == "dark", [GROUNDS[ground][1]] * 2))
    check_layouts(said["layouts"])
    for what in ("whole", "zoomed", "moved", "back"):
        check_places(what, said[what])
    pointed, zoomed, whole = said["pointed"], said["zoomed"], said["whole"]
    expect("what is under the pointer", pointed["isBox"], True)
    check_facts("the stretch under the pointer", pointed["facts"], at(stretches, pointed["cpu"], pointed["time"]))
    if abs(zoomed["time"] - pointed["time"]) > 1 or not 15 < (whole["to"] - whole["from"]) / (zoomed["to"] - zoomed["from"]) < 21:
        raise Wrong(f"the wheel zooms from {whole['from']}..{whole['to']} to {zoomed['from']}..{zoomed['to']} at {pointed['time']}")
    shown = sorted((box["cpu"], box["begin"]) for box in zoomed["boxes"] if not box["isCoarse"])
    wanted = sorted((one["cpu"], one["begin_ns"]) for one in stretches if one["begin_ns"] < zoomed["to"] and zoomed["from"] < one["end_ns"])
    expect("the stretches that are seen", shown, wanted)
    moved = said["moved"]["from"] - zoomed["from"]
    if abs(moved - (zoomed["to"] - zoomed["from"]) / 10) > 1:
        raise Wrong(f"moved by {moved}")
    check_zoomed(said, page, zoomed["time"] + moved)
    check_search(said["sought"], stretches)
    expect("how it is again", said["back"], whole)
    check_keys(said, whole, stretches)


def check_zoomed(said, page, time):
    """Marks, arrows and axes move with the boxes, which get numbers; 20 ns is the least, at which the wheel moves nothing."""
    for what in ("whole", "zoomed", "moved", "back"):
        check_marks(what, said[what])
    drawn = [[float(place) for place in found] for found in re.findall(rb'<path class="[pq]" d="M(\S+) \d+L(\S+) \d+"><title>', page)]
    for arrow, places in zip(said["whole"]["arrows"], drawn, strict=True):
        check_near(f"the begin of {arrow}", arrow["places"][0], places[0])
    middles = [box["left"] + box["width"] / 2 for box in said["zoomed"]["boxes"] if not box["isCoarse"] and box["width"] >= 14]
    for number in said["zoomed"]["numbers"]:
        if not any(abs(number - middle) < NEAR for middle in middles):
            raise Wrong(f"a number at {number}")
    expect("numbers in finer boxes", len(said["zoomed"]["numbers"]) > 0, True)
    shortest = said["shortest"]
    if abs(shortest["to"] - shortest["from"] - 20) > 0.01 or abs(shortest["time"] - time) > 1:
        raise Wrong(f"the shortest time is {shortest}, at {time}")


def check_keys(said, whole, stretches):
    """Half of the middle, and half of that; a quarter of it on; and twice as much."""
    length = whole["to"] - whole["from"]
    begin = whole["from"] + length * 3 / 8 + length / 16 - length / 8
    if abs(said["keyed"]["from"] - begin) > 1 or abs(said["keyed"]["to"] - begin - length / 2) > 1:
        raise Wrong(f"after the keys {said['keyed']} of {whole['from']}..{whole['to']}")
    box = whole["boxes"][1]
    expect("which box has the focus", said["focused"]["at"], 1)
    check_facts("the stretch that has the focus", said["focused"]["facts"], at(stretches, box["cpu"], box["begin"]))
    check_facts("the line that has the focus", said["row"], stretches[2])
    expect("whether the focus stays in the picture", said["kept"]["kept"], [True] * 14)
    expect("what is told of the heading", said["nothing"], {"here": "nothing is known"})


def check_untold(chromium, page, width=WIDTH):
    """Of a page that tells the first stretches alone the boxes of the others stay as they are."""
    said = driven(chromium, page, "light")
    expect("errors", said["errors"], [])
    check_layouts(said["layouts"])
    check_places("the end", said["end"], width)
    expect("whether coarse boxes are there, and faded ones", (bool(said["end"]["boxes"]), said["end"]["behind"]), (True, 0))


def check_in_browser(checks):
    chromium = shutil.which("chromium")
    if not chromium:
        checks.skip("pages in a browser", "chromium", "chromium")
        return
    page = checks.written(("--html",), made.dense())
    for ground in GROUNDS:
        checks.attempt(f"a {ground} page in a browser", check_driven, chromium, page, ground)
    part = checks.written(("--html", "--from", "25000000", "--to", "85000000"), made.dense())
    checks.attempt("a page of a part in a browser", check_driven, chromium, part, "light")
    narrow = checks.written(("--html", "--width", "320"), made.longest(32000))
    checks.attempt("a narrow page in a browser", check_untold, chromium, narrow, 210)
    checks.attempt("a page of 7830 stretches in a browser", check_untold, chromium, checks.written(("--html",), made.longest(32000)))

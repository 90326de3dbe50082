"""Large workloads, within bounds of time and memory."""

import json
import os
import pty
import re
import resource
from xml.etree import ElementTree

import made
from events import check_trace
from figures import check_json, check_sums
from model import Timeline
from pages import MOST_LISTED, check_whole
from pictured import check_picture
from plain.workload import read_workload
from program import text_of
from svg import SVG, Wrong, expect
from work import within

# The bounds of a large workload: seconds of processor time (work.py), and bytes of the address space.
SECONDS, BYTES = 5, 1 << 30

# What the pictures of the longest and of the fullest workload have at most, in bytes.
MOST_LONGEST, MOST_FULLEST = 450_000, 600_000
# And the page of the longest one.
MOST_PAGE = 3_000_000


def within_bounds(checks, words, data):
    printed, late = within(SECONDS, checks.programs, "eevdf_timeline", words, data, {resource.RLIMIT_AS: BYTES})
    if late:
        raise Wrong(late)
    return text_of(printed)


def check_widest(checks):
    data = made.widest()
    timeline = Timeline(read_workload(data).setup, read_workload(data).script)
    check_picture(within_bounds(checks, (), data), timeline)
    check_trace(within_bounds(checks, ("--perfetto",), data), timeline)
    check_json(within_bounds(checks, ("--stats", "--json"), data), timeline)
    one = checks.written(("--cpu", "5"), data)
    check_picture(one, timeline, cpus=[5])
    expect("whether marks have no room on one CPU", b"no room" in one, False)


def check_size(text, most):
    if len(text) > most:
        raise Wrong(f"{len(text)} bytes")
    return ElementTree.fromstring(text)


def check_longest_picture(checks, data):
    text = within_bounds(checks, (), data)
    check_size(text, MOST_LONGEST)
    if b"Drawn coarser" not in text:
        raise Wrong("a picture that doesn't say that it is coarser")


def check_longest_trace(checks, data):
    """Of each event the letter alone is kept, since all of them take much memory."""
    trace = json.loads(within_bounds(checks, ("--perfetto",), data), object_hook=lambda event: event.get("ph", event))
    letters = [event for event in trace["traceEvents"] if isinstance(event, str)]
    expect("the letters", set(letters), set("MXCsf"))
    expect("the ends of arrows", letters.count("s"), letters.count("f"))


def check_longest_table(checks, data):
    """A line for each stretch, in order of time."""
    times = [int(line.split()[0]) for line in within_bounds(checks, ("--table",), data).splitlines()[1:]]
    if times != sorted(times) or len(times) < 100000:
        raise Wrong(f"a table of {len(times)} stretches")


def check_longest_page(checks, data):
    """It tells of the first 5000 stretches, and says so."""
    words = [("--html",), (), ("--table",), ("--stats",)]
    text, *others = [within_bounds(checks, more, data) for more in words]
    if len(text) > MOST_PAGE:
        raise Wrong(f"{len(text)} bytes")
    expect("how many stretches are told", len(check_whole(text, *others).data()["stretches"]), MOST_LISTED)


def check_longest_figures(checks, data):
    within_bounds(checks, ("--stats",), data)
    check_sums(within_bounds(checks, ("--stats", "--json"), data), data)


def check_part_of_longest(checks, data):
    """Two milliseconds of it have room for all."""
    text = within_bounds(checks, ("--from", "100000000", "--to", "102000000", "--task", "0,1"), data)
    if b"Drawn coarser" in text or b"no room" in text:
        raise Wrong("a part that is coarse")
    if text.count(b"<title>task ") < 20:
        raise Wrong("a part without its boxes")


def check_fullest(checks):
    """A picture as large as there is hardly a larger one."""
    root = check_size(within_bounds(checks, (), made.fullest()), MOST_FULLEST)
    counts = {tag: len(list(root.iter(SVG + tag))) for tag in ("rect", "use", "path")}
    if counts["rect"] < 1000 or counts["use"] < 1000 or counts["path"] < 700:
        raise Wrong(f"a picture that isn't full: {counts}")


def check_terminal(checks, data):
    """A long run says on a terminal how far it is, in one line that is written over and ends, before it tells which deeds were refused; a
    short one says nothing. A page, which has a picture and figures, says it once."""
    for words in ((), ("--html",)):
        check_progress(*on_terminal(checks, data, words))
    expect("what a short run says", on_terminal(checks, made.empty())[1], b"")


def check_progress(printed, said):
    expect("the status", printed.status, 0)
    refused = rb"(?:script at \d+: [^\r\n]+\r\n){10}\d+ more deeds are refused\r\n"
    lines = re.fullmatch(rb"(?:\reevdf_timeline: \d+ of 640000 deeds)+\r\n" + refused, said)
    done = [int(number) for number in re.findall(rb"(\d+) of", said)]
    if not lines or len(done) < 5 or done != sorted(set(done)) or done[-1] > 640000:
        raise Wrong(f"on the terminal stands {said!r}")


def on_terminal(checks, data, words=()):
    """A run whose standard error is a terminal, with what that shows."""
    screen, terminal = pty.openpty()
    try:
        printed = checks.run(words, data, stderr=terminal)
    finally:
        os.close(terminal)
    with os.fdopen(screen, "rb", buffering=0) as shown:
        said = b""
        try:
            while some := shown.read(4096):
                said += some
        except OSError:
            # the other end is closed
            pass
    return printed, said


def check_large(checks):
    data = made.longest()
    checks.attempt("64 CPUs and 1024 tasks", check_widest, checks)
    checks.attempt("a full picture", check_fullest, checks)
    for check in (check_longest_picture, check_longest_trace, check_longest_table, check_longest_page, check_longest_figures,
                  check_part_of_longest, check_terminal):
        checks.attempt(f"640000 deeds: {check.__name__}", check, checks, data)

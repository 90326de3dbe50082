"""Whether a picture shows a timeline, as docs/pictures.md says."""

from lanes import boxes_of, check_boxes, check_marks, lanes_of
from panels import check_axes, check_panels, panels_of
from svg import PAGE, ROWS_LEGEND, Picture, Wrong, expect, title_of
from task_rows import check_rows
from view import View


def check_picture(text, timeline, window=None, cpus=None, page=PAGE):
    """Raises Wrong where the picture of a timeline, or of a part of its time or some of its CPUs, shows anything else. Gives how many
    stretches are joined in boxes."""
    view = View(timeline, *(window or (0, timeline.end())), cpus or range(timeline.setup.cpus()))
    picture = Picture(text, view.begin, view.end, page=page)
    lanes = lanes_of(picture)
    expect("the lanes", list(lanes), view.cpus)
    axes = check_axes(picture)
    expect("the number of axes", len(axes), 2 if view.curves else 1)
    check_head(picture, timeline, len(view.cpus), len(view.shown.tasks), view.shown.deeds)
    check_around("the lanes", axes[0], min(lanes.values()), max(lanes.values()))
    joined = check_boxes(picture, view, lanes)
    check_marks(picture, view, lanes, axes[0][1])
    check_lags(picture, view, axes)
    return joined


def part(shown, total):
    return f"{total}" if shown == total else f"{shown} of {total}"


def check_head(picture, timeline, cpus, tasks, deeds):
    """The title and the first line count the CPUs, the tasks and the deeds that are shown, and of how many."""
    setup = timeline.setup
    of_cpus, of_tasks = part(cpus, setup.cpus()), part(tasks, len(setup.tasks))
    names = "CPU" if setup.cpus() == 1 else "CPUs", "task" if len(setup.tasks) == 1 else "tasks"
    expect("the title", title_of(picture.root), f"A schedule of {of_cpus} {names[0]} and {of_tasks} {names[1]}")
    expect("the first line", " ".join(text.text for text in picture.named("text", "h")),
           f"CPUs {of_cpus}, tasks {of_tasks}, deeds {part(deeds, len(timeline.moments))}: what ran when, by the time that ticks took")


def check_lags(picture, view, axes):
    """The panels below the first axis, with an axis of their own."""
    check_panels(picture, view, axes[0][1])
    shown = len(view.shown.tasks)
    said = picture.count(r"Lags are those of the first 16 of (\d+) tasks by time run")
    expect("of how many tasks the lags are", said, shown if shown > 16 else 0)
    expect("whether a note says that lags are left out", "Curves keep 4 lags of each 1/220" in picture.notes, view.is_thinned)
    if view.curves:
        tops = panels_of(picture)
        check_around("the panels", axes[1], tops[0], tops[-1])


def check_task_picture(text, timeline, window=None, page=PAGE):
    """Raises Wrong where the picture of what the tasks of a timeline did, or of a part of its time, shows anything else."""
    view = View(timeline, *(window or (0, timeline.end())), range(timeline.setup.cpus()))
    picture = Picture(text, view.begin, view.end, ROWS_LEGEND, page)
    axes = check_axes(picture)
    check_rows(picture, timeline, axes[0][1])
    check_head(picture, timeline, len(view.cpus), len(timeline.setup.tasks), view.shown.deeds)
    check_lags(picture, view, axes)


def check_around(what, axis, first, last):
    if not axis[0] <= first <= last <= axis[1]:
        raise Wrong(f"the axis of {what} goes from {axis[0]} to {axis[1]}")


def check_unknown(text, cpus):
    """What holds of the picture of a history that isn't known: of as many CPUs each has its lane, with boxes apart, and each arrow is
    that of a pull."""
    picture = Picture(text, 0, 1)
    lanes = lanes_of(picture)
    expect("the lanes", list(lanes), list(range(cpus)))
    boxes_of(picture, lanes)
    marks = [title_of(use) for use in picture.uses() if title_of(use) and use.get("href") == "#pull"]
    expect("the arrows", sorted(title_of(path) for path in picture.named("path", "p") if title_of(path)), sorted(marks))

"""What a picture has to show of a timeline: a part of its time, on some of its CPUs."""

from dataclasses import dataclass
from itertools import groupby

from model import Moment, before, kept, shown, signs_of
from shown import Shown
from turns import is_in, rests_of

# Of more stretches than these those are joined that begin in one part of a lane.
MOST_BOXES = 1200


@dataclass(frozen=True)
class Mark:
    moment: Moment
    sign: str
    # the row in which it has room, or None
    row: int | None

    def title(self):
        return f"{self.moment.text()}, at {self.moment.begin} ns"


class View:
    def __init__(self, timeline, begin, end, cpus):
        self.begin, self.end, self.cpus = begin, end, list(cpus)
        self.stretches = sorted((stretch for stretch in timeline.stretches
                                 if stretch[0] in self.cpus and is_in((begin, end), *stretch[2:])),
                                key=lambda stretch: (stretch[0], stretch[2]))
        self.moments = [(moment, sign) for moment, sign in zip(timeline.moments, signs_of(timeline.moments))
                        if moment.cpu in self.cpus and begin <= moment.begin <= end]
        self.shown = Shown(timeline, (begin, end), self.cpus)
        looks = [list(shown(timeline.points[task], begin, end)) for task in self.shown.curves]
        self.curves = {task: list(kept(timeline.points[task], begin, end)) for task in self.shown.curves}
        # the lag with which the time begins, where that is one from before it
        self.before = {task: before(timeline.points[task], begin, end) for task in self.curves}
        self.sleeps = [(task, *times) for task, sleeps, *times in rests_of(timeline)
                       if sleeps and task in self.curves and is_in((begin, end), *times)]
        self.is_thinned = any(len(curve) < len(times) for curve, times in zip(self.curves.values(), looks))

    def groups(self, cpu):
        """The stretches of a lane, those together that are one box."""
        own = [stretch for stretch in self.stretches if stretch[0] == cpu]
        part = (self.end - self.begin) * len(self.cpus) // MOST_BOXES if len(self.stretches) > MOST_BOXES else 0
        return [list(group) for _, group in groupby(own, lambda stretch: stretch[2] // part if part else stretch[2])]

    def rows(self):
        """How many rows of marks a lane has, and how far a mark is at least from the next one in its row."""
        rows = 2 if len(self.moments) > 2000 else min(8, max(2, 24 // len(self.cpus)))
        return rows, max(115, 8 * rows * len(self.cpus))

    def marks(self, place):
        """The marks in the order of the deeds, each in the first row that has room where the mark's place is."""
        rows, gap = self.rows()
        free = {cpu: [0] * rows for cpu in self.cpus}
        for moment, sign in self.moments:
            if sign:
                at = place(moment.begin)
                row = next((row for row in range(rows) if free[moment.cpu][row] <= at), None)
                if row is not None:
                    free[moment.cpu][row] = at + gap
                yield Mark(moment, sign, row)

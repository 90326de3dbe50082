"""How many requests for memory each call of `refused_calls` makes where nothing is refused: some by a rule, the others as requests.txt
has them."""

import re
import tomllib
from dataclasses import dataclass
from pathlib import Path

STORED = Path(__file__).with_name("requests.txt")
CELL = re.compile(r"(\d+)(\.\.)?(?:\+(\d+))?")
# How the table has a call that makes no request.
NONE = "-"

# The tasks of the two queues that refused_calls fills.
QUEUED = 64 + 20


@dataclass(frozen=True)
class Requests:
    """The requests of a call: how many it answers with being out of memory where they are refused, and how many it does without. Of the
    first there may be more where it is the least number."""

    refused: int = 0
    without: int = 0
    is_least: bool = False

    def __str__(self):
        if self == Requests():
            return NONE
        return f"{self.refused}{'..' * self.is_least}" + f"+{self.without}" * (self.without > 0)

    def total(self):
        return self.refused + self.without

    def allows(self, refused, without):
        """Whether so many are as many as are known."""
        return without == self.without and (refused == self.refused or self.is_least and refused > self.refused)


def read_cell(cell):
    if cell == NONE:
        return Requests()
    refused, is_least, without = CELL.fullmatch(cell).groups()
    return Requests(int(refused), int(without or 0), bool(is_least))


def read_stored(name):
    """The requests on a workload, by call, as requests.txt has them."""
    head, *rows = [line for line in STORED.read_text().splitlines() if not line.startswith("#")]
    names = head.split()
    column = names.index(name)
    split = [row.split(maxsplit=len(names) - 1) for row in rows]
    return {cells[-1]: read_cell(cells[column]) for cells in split}


def by_rule(workload):
    """The requests of the calls that have a rule: one for each list that isn't empty, and one for each task's block. The list of homes is
    what a call does without where it is refused, since it asks for it once more."""
    text = tomllib.loads(workload.read_text())
    programs = sum(map(bool, text["program"]))
    # the list of tasks, that of programs, and each program
    setup = Requests(2 + programs)
    return {
        # a block for each task
        "Parcel::make": Requests(QUEUED),
        "Setup::make": setup,
        "Setup::try_clone": setup,
        "Setup::homes": Requests(0, 1),
        # the queues, a block for each task, and the homes
        "Solo::open": Requests(1 + len(text["task"]), 1),
    }


def known_requests(workload):
    """The requests on a workload, by call."""
    return by_rule(workload) | read_stored(workload.stem)

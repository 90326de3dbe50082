"""The program `eevdf_uses`, which opens queues, machines, a player and a fleet one after the other, and reads no input."""

import os
from dataclasses import dataclass, field
from pathlib import Path

from runner import Printed
from sweep import first_of, sweep

NAME = "eevdf_uses"
# What a run may say that was refused a request: starting a thread takes memory too.
REFUSED = (b"OutOfMemory", b"WouldBlock")


@dataclass
class Uses:
    """The runs of the program, and what it prints when nothing is refused."""

    refusals: object
    whole: bytes
    faults: list = field(default_factory=list)

    def run(self, number):
        return self.refusals.run(NAME, [], Path(os.devnull), refuse_memory=number)

    def look(self, number, run):
        """A run that is refused a request prints a beginning of the output and says so, or does without and prints it whole."""
        printed = run.printed
        is_whole = printed == Printed(self.whole)
        says_so = printed.status == 1 and any(word in printed.errors for word in REFUSED) and self.whole.startswith(printed.out)
        if not (is_whole or says_so and run.met("memory", number)):
            self.faults.append(f"request {number}: {printed}")


def check(checks, refusals, pool):
    """Looks whether each refused request for memory comes to a good end."""
    uses = Uses(refusals, (refusals.programs.top / "crates" / NAME / "stdout").read_bytes())
    with checks.unless_slow(f"the rest of {NAME}"):
        ample = uses.run(0)
        uses.look(0, ample)
        met = sweep(pool, uses.run, "memory", uses.look)
        if ample.counts is None or met != ample.counts.memory or not met:
            uses.faults.append(f"the sweep of memory met {met} requests, and with nothing refused there are {ample.counts}")
        print(f"{met} requests for memory of {NAME} were refused", flush=True)
    checks.look(NAME, first_of(uses.faults))

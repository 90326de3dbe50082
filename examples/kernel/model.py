#!/usr/bin/env -S python3 -B
"""model.py: prints the log that the kernel has to write, from threads.h and the definitions alone: the plain queue of checks/drawn/plain, which
follows docs/model.md and scans where the library has a tree, and what kernel.c says of ticks, sleeps and ends."""

import re
import sys
from dataclasses import dataclass
from pathlib import Path

HERE = Path(__file__).resolve().parent
sys.path.append(str(HERE.parent.parent / "checks" / "drawn"))

from plain.queue import Queue  # noqa: E402

TICK_NS, END_OF_RUN = 1000000, 2500


@dataclass
class Thread:
    nice: int
    slice_ns: int
    runs: int
    sleeps: int
    rounds: int
    ran: int = 0
    done: int = 0
    wakes_at: int = 0

    def asks(self):
        """What it asks for as soon as it goes on, if anything."""
        while self.done < self.rounds and self.ran == (self.done + 1) * self.runs:
            self.done += 1
            if self.sleeps:
                return "sleep"
        return "end" if self.done == self.rounds else None


def read_threads():
    lines = re.findall(r"^\{(.*)\},$", (HERE / "threads.h").read_text(), re.MULTILINE)
    return [Thread(*map(int, line.split(","))) for line in lines]


class Kernel:
    def __init__(self):
        self.threads = read_threads()
        self.queue = Queue()
        self.ticks = 0
        self.current = None
        self.alive = len(self.threads)
        for number, thread in enumerate(self.threads):
            self.queue.admit(number, thread.nice, thread.slice_ns, 0)

    def name(self, number):
        """The loop that nobody else runs in has the number after the last thread's."""
        return len(self.threads) if number is None else number

    def pick(self):
        before = self.current
        self.current = None if self.queue.pick() == "idle" else self.queue.running
        if self.current != before:
            print(f"tick {self.ticks}: {self.name(before)} to {self.name(self.current)}")

    def do_calls(self):
        """Whoever goes on makes its calls first, and then the next one."""
        while self.current is not None and (asked := self.threads[self.current].asks()):
            carried = self.queue.leave(self.current)
            if asked == "sleep":
                self.queue.put_asleep(carried.task, carried.nice, carried.length, carried.lag)
                self.threads[carried.task].wakes_at = self.ticks + self.threads[carried.task].sleeps
            else:
                self.alive -= 1
            self.pick()

    def tick(self):
        """Whether something has changed, so that it is time to pick."""
        self.ticks += 1
        changed = self.current is None
        if self.current is not None:
            self.threads[self.current].ran += 1
            changed = self.queue.tick(TICK_NS).endswith("resched")
        for number, thread in enumerate(self.threads):
            if thread.wakes_at == self.ticks:
                self.queue.wake(number)
                changed = True
        return changed

    def run(self):
        while self.ticks < END_OF_RUN and self.alive > 0:
            self.do_calls()
            changed = self.tick()
            if changed and self.ticks < END_OF_RUN:
                self.pick()
        for number, thread in enumerate(self.threads):
            print(f"thread {number} ran for {thread.ran} ticks")


if __name__ == "__main__":
    Kernel().run()

#!/usr/bin/env -S python3 -B
"""whole_runs.py: what whole runs of the workbench take by the clock, on large documents of documents.py: the least and the greatest wall
time of RUNS runs (5). An order is made by eevdf_orders first. No proof speaks of any of it."""

import os
import sys
from pathlib import Path

from documents import document

sys.path.append(str(Path(__file__).resolve().parents[1] / "checks"))

from runner import built  # noqa: E402

RUNS = int(os.environ.get("RUNS", "5"))
# A command, the document, its size and its CPUs.
WHOLE = (
    ("solo", "solo", 160000, 16),
    ("solo", "solo", 640000, 64),
    ("replay", "replay", 1000000, 16),
    ("run", "run", 10000, 16),
    ("run", "run", 10000, 64),
)


def main():
    programs = built("eevdf", "eevdf_orders")
    print("Seconds:\n\n| command | document | deeds, steps, or operations of a CPU | CPUs | least | greatest |\n|---|---|--:|--:|--:|--:|")
    for command, name, *sizes in WHOLE:
        data = document(name, *sizes).encode()
        if command == "replay":
            data = programs.run("eevdf_orders", ["--seed", "1"], data).out
        runs = [programs.run("eevdf", [command], data) for _ in range(RUNS)]
        if any(run.status for run in runs):
            sys.exit(f"whole_runs.py: eevdf {command} of {name} {sizes} fails: {runs[0].out[:200]}")
        times = sorted(run.wall for run in runs)
        print("| " + " | ".join(map(str, (f"`{command}`", name, *sizes, f"{times[0]:.2f}", f"{times[-1]:.2f}"))) + " |", flush=True)


if __name__ == "__main__":
    main()

#!/usr/bin/env -S python3 -B
"""checks/drawn/planted.py [CRATE/NAME..]: plants wrong bodies into copies of the crates, one at a time, and looks whether the comparison
finds each. It takes half an hour; with --look it tries nothing, but looks whether each has its place in its crate. The last line is
'N passed, M failed'.

A wrong body can't be built, since only proved crates are. `rt try` runs a program without its proofs, on files with words
and an expected output beside them: here drawn workloads with the words of their command and the output of the plain model.
"""

import argparse
import random
import re
import subprocess
import sys
import tempfile
from concurrent.futures import ThreadPoolExecutor
from itertools import count, islice
from pathlib import Path

from draw.cases import draw
from plain.workbench import answer

CHECKS = Path(__file__).resolve().parents[1]
sys.path += [str(CHECKS), str(CHECKS / "wrong_bodies"), str(CHECKS.parent / "tools")]

from crate_copies import copy_crates, folder_of, read_crates, with_all_below  # noqa: E402
from edits import BadEdit, apply, changed, read_edit  # noqa: E402
from runner import Checks  # noqa: E402

CRATES = with_all_below(read_crates(), ["eevdf"])

WRONG_BODIES = (
    "eevdf_queue/eligible_at_the_next_unit",
    "eevdf_queue/mean_towards_zero",
    "eevdf_queue/lag_limited_above_only",
    "eevdf_queue/tick_without_range",
    "eevdf_queue/offer_may_run",
    "eevdf_queue/base_kept_on_leaving",
    "eevdf_queue/reniced_task_stops_running",
    "eevdf_queue/begin_keeps_the_lag",
    "eevdf_queue/set_slice_before_the_level",
    "eevdf_queue/set_keeps_a_sleeping_lag",
    "eevdf_queue/rebase_keeps_the_base",
    "eevdf_ops/pull_tries_the_range_first",
    "eevdf_ops/sleep_where_it_ran",
    "eevdf_ops/start_wakes_everybody",
    "eevdf_ops/end_keeps_the_lag",
    "eevdf_ops/end_of_the_running_alone",
    "eevdf_ops/end_away_where_it_ran",
)

# These are tried on workloads that have a doze.
OF_DOZES = (
    "eevdf_queue/doze_forgets_its_place",
    "eevdf_queue/doze_keeps_a_debt",
    "eevdf_queue/place_without_the_shift",
    "eevdf_queue/rebase_forgets_the_shift",
    "eevdf_queue/wake_before_its_place",
    "eevdf_queue/begin_keeps_its_place",
    "eevdf_queue/another_level_drops_the_place",
    "eevdf_ops/doze_where_it_ran",
    "eevdf_ops/doze_away_keeps_its_place",
    "eevdf_ops/sleep_away_keeps_its_place",
)


def parse_words():
    words = argparse.ArgumentParser(description=__doc__)
    words.add_argument("--seed", default="1", help="what the workloads are drawn from")
    words.add_argument("--count", type=int, default=120, help="how many workloads are drawn")
    words.add_argument("--jobs", type=int, default=1, help="how many bodies are tried at a time")
    words.add_argument("--look", action="store_true", help="tries nothing: looks whether each body has its place in its crate")
    words.add_argument("bodies", nargs="*", default=WRONG_BODIES + OF_DOZES, help="CRATE/NAME of crates/CRATE/must-fail/NAME.edit")
    return words.parse_args()


# The workloads.

def is_for_a_try(case):
    """Scripts and orders of some length: each try takes a third of a second, however short the workload is."""
    return case.kind in ("solo", "replay") and 800 < len(case.data) < 20000


def has_doze(case):
    return is_for_a_try(case) and any(deed[0] == "doze" for deed in case.deeds)


def drawn_cases(seed, is_chosen):
    drawn = (draw(random.Random(f"{seed} {number}"), number) for number in count())
    return filter(is_chosen, drawn)


def write_cases(folder, words, is_chosen):
    folder.mkdir()
    for at, case in enumerate(islice(drawn_cases(words.seed, is_chosen), words.count)):
        file = folder / str(at)
        file.write_bytes(case.data)
        file.with_suffix(".args").write_text("".join(f"{word}\n" for word in case.words))
        printed, _status = answer(case.words, case.data)
        file.with_suffix(".stdout").write_bytes(printed)


# The tries.

# So many seconds a try has: a busy machine needs longer than it has by itself.
SECONDS = 1800

LAST = re.compile(r"^cases=(\d+) ended=(\d+) fault=(\d+) differs=(\d+) no-answer=(\d+) proved=no$", re.MULTILINE)


def try_cases(copy, cases):
    """How many workloads there are, how many end as expected, how many otherwise, and how many aren't answered in time; None where
    the try failed."""
    # Steps are those of an interpreter, which can't run this program: the run that is compiled with checks answers.
    words = ["rt", "try", "--steps", "1", "--seconds", str(SECONDS), "--cases", str(cases)]
    run = subprocess.run(words, cwd=copy / "crates" / "eevdf", capture_output=True, text=True, errors="replace")
    found = LAST.search(run.stderr)
    if found is None:
        print(run.stderr[-2000:])
        return None
    count, alike, faults, different, unanswered = map(int, found.groups())
    return count, alike, faults + different, unanswered


def try_body(cases, body):
    with tempfile.TemporaryDirectory(prefix="planted-") as folder:
        copy = Path(folder)
        copy_crates(CRATES, copy)
        if body:
            crate, name = body.split("/")
            apply(read_edit(crate, name), copy / "crates" / crate)
        return try_cases(copy, cases)


def fault_of_place(body):
    """What is wrong with the place of an edit: that it isn't there, or its old texts don't stand in the crate."""
    crate, name = body.split("/")
    try:
        changed(read_edit(crate, name), folder_of(crate))
    except (BadEdit, OSError) as why:
        return str(why)
    return None


def look_at(checks, cases, body, result):
    """All cases of the right bodies have to be as expected, and some case has to find a wrong one."""
    name = body or f"no wrong body, {cases.name}"
    if result is None:
        checks.look(name, "the try failed")
        return
    count, alike, different, unanswered = result
    if unanswered and not body and alike + unanswered == count:
        checks.leave_out(name, f"the machine is too slow, or too busy: {unanswered} of {count} workloads have no answer")
        return
    told = f"of {count} workloads {different} different" + f" and {unanswered} without an answer" * (unanswered > 0)
    checks.look(name, None if (different > 0 if body else alike == count) else told, told)


def try_all(checks, words):
    with tempfile.TemporaryDirectory(prefix="planted-cases-") as folder, ThreadPoolExecutor(words.jobs) as pool:
        of_all, of_dozes = Path(folder, "any workloads"), Path(folder, "workloads with a doze")
        write_cases(of_all, words, is_for_a_try)
        write_cases(of_dozes, words, has_doze)
        bodies = (None, None, *words.bodies)
        cases = (of_all, of_dozes, *(of_dozes if body in OF_DOZES else of_all for body in words.bodies))
        for found in zip(cases, bodies, pool.map(try_body, cases, bodies)):
            look_at(checks, *found)


def main():
    words = parse_words()
    checks = Checks(are_many=words.look)
    if words.look:
        for body in words.bodies:
            checks.look(body, fault_of_place(body))
    else:
        try_all(checks, words)
    return checks.end()


if __name__ == "__main__":
    sys.exit(main())

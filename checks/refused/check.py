#!/usr/bin/env -S python3 -B
"""checks/refused/check.py: refuses each request for memory, each thread, each read and each write of the built programs in turn, and each
request for memory of the library's calls. Prints how many each met; the last line is 'N passed, M failed'. Where there is no C compiler,
unproved.py refuses requests in place of it. TOP names another checkout whose programs are looked at."""

import os
import shutil
import sys
import tempfile
from concurrent.futures import ThreadPoolExecutor
from pathlib import Path

HERE = Path(__file__).resolve().parent
sys.path.append(str(HERE.parent))

import calls  # noqa: E402
import commands  # noqa: E402
import unproved  # noqa: E402
import uses  # noqa: E402
from refusals import Refusals  # noqa: E402
from runner import Checks, built, run, status_of  # noqa: E402

FLAGS = ("-O2", "-Wall", "-Wextra", "-shared", "-fPIC")


def check_built(checks, compiler):
    programs = built("eevdf", "eevdf_orders", "refused_calls", "eevdf_uses")
    with tempfile.TemporaryDirectory(prefix="refused-") as work, ThreadPoolExecutor(os.cpu_count()) as pool:
        made = run([compiler, *FLAGS, "-o", f"{work}/refuse.so", HERE / "refuse.c"])
        if made.status:
            checks.look("refuse.c", made)
            return
        refusals = Refusals(programs, work)
        commands.check(checks, refusals, pool, HERE / "workloads")
        calls.check(checks, refusals, pool, HERE / "workloads")
        uses.check(checks, refusals, pool)


def main():
    checks = Checks(are_many=True)
    compiler = next(filter(None, map(shutil.which, ("cc", "gcc", "clang"))), None)
    if compiler:
        check_built(checks, compiler)
    else:
        checks.skip("requests of the built programs", "C compiler", "gcc")
        unproved.check(checks)
    return checks.end()


if __name__ == "__main__":
    sys.exit(status_of(main))

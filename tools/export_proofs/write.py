#!/usr/bin/env -S python3 -B
"""tools/export_proofs/write.py [--check]: writes the proofs of the exports of crates/eevdf_c, which C calls. With --check it compares them
with those that stand there, and the last line is 'N passed, M failed'."""

import argparse
import re
import sys
from pathlib import Path

from exports import read_exports
from proof import Proof

ROOT = Path(__file__).resolve().parents[2]
CRATE = "eevdf_c"
HEAD = "-- Written by tools/export_proofs/write.py.\n"
# The exports that write into room. Only their bodies are more than a call, and have proofs by hand.
BY_HAND = {"eevdf_open", "eevdf_hand_open", "eevdf_fair_open", "eevdf_fair_share_open"}


def names_of_steps(folder):
    """What proofs/Steps.antt passes on."""
    text = (folder / "proofs/Steps.antt").read_text()
    passed_on = [n for names in re.findall(r"^pub use \S+\.\{(.*)\}$", text, re.M) for n in names.split(",")]
    return [n.split(" as ")[-1].strip() for n in passed_on]


def imports(proof, text, steps):
    """The lines that bring in what the proof says."""
    export = proof.export
    own = f"exports.{export.module}.{export.name}"
    call = "calls." + export.call.replace("::", ".")
    words = {it.partition(".")[0] for it in re.split(r"[\s(),;{}]+", text)} | {"[]"}
    used = [n for n in steps if n.strip("◌") in words]
    lines = [f"use Rattle.{CRATE}.proofs.Steps.{{{', '.join(used)}}}"]
    for path, names in export.imports:
        left = [n for n in names if n not in used]
        lines += [f"use {path}.{{{', '.join(left)}}}"] * bool(left)
    lines += [f"use {path} as {alias}" for path, alias in export.aliases]
    return [
        *lines,
        f"use Rattle.{CRATE}.specs.contracts.{own} as export",
        f"use Rattle.{CRATE}.proofs.{own}.Statement.{{statement}}",
        f"use Rattle.{CRATE}.proofs.{own}.Code as code",
        f"use Rattle.{CRATE}.specs.contracts.{call} as call",
        f"use Rattle.{CRATE}.proofs.{call}.Met.{{met}}",
    ]


def written():
    """Each proof's file and its text."""
    folder = ROOT / "crates" / CRATE
    steps = names_of_steps(folder)
    found, others = read_exports(folder / "src/exports")
    if set(others) != BY_HAND:
        sys.exit(f"not one call of `calls`, as each export but {', '.join(sorted(BY_HAND))} has to be: {', '.join(others)}")
    for export in found:
        proof = Proof(export, CRATE)
        text = proof.text()
        file = folder / "proofs/exports" / export.module / export.name / "Proof.antt"
        yield file, HEAD + "\n".join([*imports(proof, text, steps), "", text])


def main():
    args = argparse.ArgumentParser(description=__doc__)
    args.add_argument("--check", action="store_true", help="write nothing, and fail where a file differs")
    is_check = args.parse_args().check
    proofs = list(written())
    differ = [(file, text) for file, text in proofs if not file.is_file() or file.read_text() != text]
    for file, text in differ:
        print(f"{'FAILED: differs' if is_check else 'written'}: {file.relative_to(ROOT)}")
        if not is_check:
            file.parent.mkdir(parents=True, exist_ok=True)
            file.write_text(text)
    if is_check:
        print(f"{len(proofs) - len(differ)} passed, {len(differ)} failed")
    sys.exit(1 if is_check and differ else 0)


if __name__ == "__main__":
    main()

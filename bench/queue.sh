#!/usr/bin/env bash
# queue.sh [MIX..]: what turns of calls of one run queue cost: nanoseconds, instructions and mispredicted branches, of all mixes or of those
# named (turn_costs.py). bench/count counts the instructions of more mixes, and bench/linux.sh has Linux's functions beside them. No proof
# speaks of any of it.
set -eu
cd "$(dirname "$0")/.."
./build measures
program=$PWD/crates/measures/out/measures
exec python3 bench/turn_costs.py "${program@Q} queue" -- "$@"

#!/usr/bin/env bash
# threads.sh [MIX..]: measures the operations of fleets in 1, 2 and 4 threads, each on two CPUs of its own with 64 tasks each: of
# the fleet that keeps a history ("fleet") and of the one that keeps none ("endless"), and beside them the same operations in one
# thread without a fleet ("solo"), and of as many programs of one thread each, side by side ("apart"), which share nothing: that is what
# the machine gives to so many threads. With one thread "apart" is the same command as "endless", so the better of the two is the one to
# compare both with. Prints two tables, with a row for each mix of operations and way:
# - operations a second by wall clock, in millions, of all threads together: the best and the median of several runs, and how many times
#   the best of one thread these bests are. The shortest time of a run with few operations is taken off each time, and its operations from
#   the operations, so that starting, setting up and closing drop out;
# - the memory that is resident at most, in KiB, of the fleet that keeps no history, where four threads together do a million
#   operations, and a hundred million.
# Drawing the operations is part of it everywhere. The fleet with a history also keeps two lines of each operation, in memory that it
# touches for the first time; without a fleet no line is kept, and a wake is done as soon as it is posted. What the fleets do is not
# compared with one thread meanwhile: `measures fleet check` does that. Which thread runs on which processor is left to the system, which
# moves them where it has to: where other programs run the numbers are too low, and the load is printed before and after. The
# environment may give other numbers: RUNS (10), PROGRAM (the one that ./build makes). No proof speaks of any of it.
set -eu
cd "$(dirname "$0")/.."
runs=${RUNS:-10}
program=${PROGRAM:-$PWD/crates/measures/out/measures}
few=20000
cpus_a_thread=2
tasks_a_cpu=64
threads=(1 2 4)
mixes=("$@")
[ $# -gt 0 ] || mixes=(own wakes pulls comes)

type -P time >/dev/null || { echo "threads.sh: there is no program time (Debian package time)" >&2; exit 3; }
[ -n "${PROGRAM:-}" ] || ./build measures

held=$(mktemp)
trap 'rm -f "$held"' EXIT

# How many operations a long run has in each thread. A history has no room for more.
many() {
  if [ "$1" = fleet ]; then echo 400000; else echo 16000000; fi
}

# The words of a run of seed 42: its way, threads, mix and operations a thread.
words() {
  echo "fleet $1 $2 $cpus_a_thread $(($2 * cpus_a_thread * tasks_a_cpu)) $3 $4 42"
}

# Runs the program once, or as often as there are threads at the same time.
run() {
  local count=1 started=() process
  if [ "$1" = apart ]; then
    count=$2
    set -- endless 1 "$3" "$4"
  fi
  for _ in $(seq "$count"); do
    # shellcheck disable=SC2046 # the words are words of the program
    "$program" $(words "$@") >/dev/null &
    started+=($!)
  done
  # this shell's own status would be lost where its output is read
  for process in "${started[@]}"; do
    wait "$process" || { echo "threads.sh: a run failed: $(words "$@")" >&2; kill $$; }
  done
}

# The wall times of several runs, in microseconds, the shortest first.
times() {
  local begun
  for _ in $(seq "$runs"); do
    begun=${EPOCHREALTIME//[!0-9]/}
    run "$@"
    echo $((${EPOCHREALTIME//[!0-9]/} - begun))
  done | sort -n
}

# Operations a second, of all threads: the best and the median.
rates() {
  local less
  less=$(times "$1" "$2" "$3" "$few" | head -n 1)
  times "$1" "$2" "$3" "$(many "$1")" |
    awk -v less="$less" -v operations="$(($2 * ($(many "$1") - few)))" '
      { rate[NR] = ($1 > less) ? operations * 1000000 / ($1 - less) : 0 }
      END { print rate[1], rate[int((NR + 1) / 2)] }'
}

# The memory that is resident at most where four threads together do so many operations of a mix.
resident() {
  # shellcheck disable=SC2046 # the words are words of the program
  /usr/bin/env time -f '%M' -o "$held" "$program" $(words endless 4 "$1" $(($2 / 4))) >/dev/null ||
    { echo "threads.sh: a run failed: $(words endless 4 "$1" $(($2 / 4)))" >&2; kill $$; }
  tail -n 1 "$held"
}

load() {
  echo "load $1: $(cut -d ' ' -f 1-3 /proc/loadavg), on $(nproc) processors"
}

# What the tables call a way.
named() {
  case $1 in
    solo) echo '`Solo`' ;;
    fleet) echo 'the fleet with a history' ;;
    endless) echo 'the fleet without one' ;;
    apart) echo 'as many programs' ;;
  esac
}

# The cells of so many threads: the best and the median in millions, and how many times the best of one thread that is.
cells() {
  local best median
  read -r best median < <(rates "$2" "$1" "$3")
  one=${one:-$best}
  awk -v best="$best" -v median="$median" -v one="$one" -v threads="$1" 'BEGIN {
    printf " %.1f, %.1f |", best / 1000000, median / 1000000
    if (threads > 1) printf " %.2f |", one ? best / one : 0
  }'
}

load before
printf '\nMillions of operations a second, the best of %d runs and their median:\n\n' "$runs"
printf '| mix | by | 1 thread | 2 threads | times | 4 threads | times |\n|---|---|--:|--:|--:|--:|--:|\n'
for mix in "${mixes[@]}"; do
  for way in solo fleet endless apart; do
    printf '| %s | %s |' "$mix" "$(named "$way")"
    one=
    for count in "${threads[@]}"; do
      if [ "$way" = solo ] && [ "$count" -gt 1 ]; then
        printf ' | |'
      else
        cells "$count" "$way" "$mix"
      fi
    done
    printf '\n'
  done
done
echo
load after

printf '\nKiB resident at most, of the fleet without a history in four threads:\n\n'
printf '| mix | a million operations | a hundred million |\n|---|--:|--:|\n'
for mix in "${mixes[@]}"; do
  printf '| %s | %d | %d |\n' "$mix" "$(resident "$mix" 1000000)" "$(resident "$mix" 100000000)"
done

#!/usr/bin/env bash
# checks/lost_task.sh: tries bodies that let a task or a number go, that give a number back twice, or that make one: some of the library's
# own, and functions as a user writes them. The compiler has to refuse each where it stands, since a `Parcel` and a `TakenTask` aren't
# `Drop`, and can't be copied. No file of must-fail/ can ask this, because what stands there has to compile. What is moved twice the
# compiler looks at only where all else is right, and at a field that is out of reach before all else, so these are tried first. The
# others are put into one copy of the crates, since the compiler tells of each. The last line is 'N passed, M failed'.
set -u
cd "$(dirname "$0")/.."
copy=$(mktemp -d)
trap 'rm -rf "$copy"' EXIT
# the crates without their proofs, and without what was built of them, so that they are read from their sources
tar -cf - --exclude=out --exclude=must-fail HANDLES crates/eevdf_{weight,queue,ops,steps,free_tasks} | tar -xf - -C "$copy"
grep -E '^eevdf_(weight|queue|ops|steps|free_tasks):' crates.txt >"$copy/crates.txt"
echo 'mine: eevdf_free_tasks eevdf_steps eevdf_ops eevdf_queue eevdf_weight' >>"$copy/crates.txt"
mkdir -p "$copy/crates/mine/src"
cat >"$copy/crates/mine/src/lib.rt" <<'TEXT'
//! A user's own crate.
#![tactic(auto)]

use eevdf_free_tasks::{FreePart, TakenTask};
use eevdf_queue::{Queue, TaskId};

/// Ends the task that runs.
pub fn end(queue: &mut Queue, task: TaskId) {
    if let Some(parcel) = queue.detach_running(task) {
        parcel.retire();
    }
}

/// Gives a number back.
pub fn give_back(free: &mut FreePart, taken: TakenTask) {
    if let Err(foreign) = free.give_back(taken) {
        let _ = foreign.retire();
    }
}

/// A number and the task that has it.
pub fn name(taken: TakenTask) -> (TakenTask, TaskId) {
    let task = taken.task();
    (taken, task)
}
TEXT

files=()
bodies=()
errors=()
passed=0
failed=0

fail() {
  echo "FAILED: $1"
  failed=$((failed + 1))
}

# put CRATE FILE OLD NEW [ERROR]: replaces one text of a file of a crate by another, for which the compiler has to tell this error.
put() {
  local file=$copy/crates/$1/src/$2 text
  text=$(<"$file")
  if [[ "$text" != *"$3"* ]]; then
    fail "$1/src/$2 hasn't the text: $3"
    return
  fi
  printf '%s\n' "${text/"$3"/"$4"}" >"$file"
  files+=("$1/src/$2")
  bodies+=("$4")
  errors+=("${5:-$let_go}")
}

# look: asks the compiler, and whether it refuses each of the bodies that were put.
look() {
  local said number
  said=$(cd "$copy/crates/mine" && rt check --only end 2>&1)
  # the compiler tells of a file of the crate itself by its path below the crate
  said=$(sed "s|^src/|$copy/crates/mine/src/|" <<<"$said")
  for number in "${!files[@]}"; do
    if grep -q "^$copy/crates/${files[number]}:[0-9:]* error${errors[number]}" <<<"$said"; then
      passed=$((passed + 1))
    else
      fail "${files[number]} isn't refused by ${errors[number]}: ${bodies[number]}"
      tail -n 3 <<<"$said"
    fi
  done
  files=()
  bodies=()
  errors=()
}

let_go='\[linear-value-let-go\].*`\(Parcel\|TakenTask\)` is not'

right=$(<"$copy/crates/mine/src/lib.rt")
put mine lib.rt 'let _ = foreign.retire();' 'let _ = foreign.retire(); give_back(free, taken);' '\[borrow-e0382\]'
put mine lib.rt '(taken, task)' 'let _ = taken.retire(); (taken, task)' '\[borrow-e0382\]'
look
printf '%s\n' "$right" >"$copy/crates/mine/src/lib.rt"
put mine lib.rt '(taken, task)' '(TakenTask { task }, taken.retire())' '\[private-field\]'
look
printf '%s\n' "$right" >"$copy/crates/mine/src/lib.rt"

put eevdf_queue parcel.rt 'let Parcel { node: _ } = self;' 'let _parcel = self;'
put eevdf_queue queue/moves.rt 'None => Err(parcel),' 'None => Ok(()),'
put eevdf_ops halves.rt 'Putting::Runnable => taker.attach(parcel),' $'Putting::Runnable => {\n let _parcel = parcel;\n }'
put eevdf_ops local_acts.rt 'putting.put(queue, parcel);' 'let _parcel = parcel;'
put eevdf_ops transfers.rt 'putting.put(taker, parcel);' 'let _parcel = parcel;'
put eevdf_steps hand.rt 'parcel.retire();' 'let _parcel = parcel;'
put eevdf_steps work.rt 'putting.put(&mut self.queues[taker.index()], parcel);' 'let _parcel = parcel;'
put mine lib.rt $'if let Some(parcel) = queue.detach_running(task) {\n        parcel.retire();\n    }' \
  'let _parcel = queue.detach_running(task);'

put mine lib.rt 'let _ = foreign.retire();' 'let _foreign = foreign;'
put eevdf_free_tasks taken_task.rt 'let TakenTask { task } = self;' 'let task = self.task;'
put eevdf_free_tasks taken_tasks.rt 'let _ = taken.retire();' 'let _taken = taken;'
put eevdf_free_tasks free_part.rt 'let _ = taken.retire();' 'let _taken = taken;'
put eevdf_free_tasks free_tasks.rt 'let _ = taken.retire();' 'let _taken = taken;'
look
echo "$passed passed, $failed failed"
[ "$failed" -eq 0 ]

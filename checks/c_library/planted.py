#!/usr/bin/env -S python3 -B
"""planted.py ARCHIVE: shows that the checks look. Puts a wrong body before a call of the library, which the linker takes in the call's
place (--wrap), and says which of the callers and drawn sequences find it. Ends with 1 where one isn't found. It takes half a minute; the
gate doesn't run it."""

import multiprocessing
import os
import sys
import tempfile
from pathlib import Path

from drawn_calls import KINDS, compare
from tools import Tools, run
from wrapped import flags, function

CALLS = 10000

# Bodies by what is wrong with them, each with its call. RIGHT is the right body's answer.
BODIES = {
    "an admit cuts the number to 32 bits": ("admit", "task &= 0xffffffff; return RIGHT;"),
    "an admit asks for memory first": ("admit", """
        if (eevdf_contains(queue, task) == 1) {
            eevdf_memory memory = eevdf_alloc(EEVDF_TASK_SIZE, 8);
            if (!memory.ok) return EEVDF_NO_MEMORY;
            eevdf_dealloc(memory.block);
        }
        return RIGHT;"""),
    "an admit that answers RANGE keeps its block": ("admit", """
        int64_t answer = RIGHT;
        if (answer == EEVDF_RANGE) eevdf_alloc(EEVDF_TASK_SIZE, 8);
        return answer;"""),
    "an admit without a block asks for one": ("admit_in", """
        return block->at ? RIGHT : eevdf_admit(queue, task, nice, slice_ns, start);"""),
    "an end with a block already there answers ABSENT": ("end_out", """
        int64_t answer = RIGHT;
        return answer == EEVDF_BUSY ? EEVDF_ABSENT : answer;"""),
    "a task in a hand ends without giving its block": ("hand_end_out", """
        if (block->at || eevdf_hand_task(hand) < 0) return RIGHT;
        eevdf_hand_close(hand);
        return 0;"""),
    "a task in a hand ends with a block already there": ("hand_end_out", """
        int64_t answer = RIGHT;
        if (answer == EEVDF_BUSY) eevdf_hand_close(hand);
        return answer;"""),
    "an end of a task in a hand answers its number": ("hand_end_out", """
        int64_t task = eevdf_hand_task(hand), answer = RIGHT;
        return answer == 0 ? task : answer;"""),
    "a tick charges a nanosecond more": ("tick", "if (ns < EEVDF_TICK_MAX && ns > 0) ns++; return RIGHT;"),
    "a tick that answers INVALID stops who runs": ("tick", "if (ns == 0) eevdf_stop(queue); return RIGHT;"),
    "a peek asks who runs": ("peek", "int64_t running = eevdf_running(queue); return running >= 0 ? running : RIGHT;"),
    "a time is a nanosecond too long": ("time_to_resched", "int64_t answer = RIGHT; return answer > 0 ? answer + 1 : answer;"),
    "a run of a task that sleeps wakes it": ("run", "if (eevdf_is_asleep(queue, task) == 1) eevdf_wake(queue, task); return RIGHT;"),
    "a run that answers ABSENT stops who runs": ("run", "int64_t answer = RIGHT; if (answer == EEVDF_ABSENT) eevdf_stop(queue); return answer;"),
    "a run of who runs answers ABSENT": ("run", "return eevdf_running(queue) == (int64_t)task ? EEVDF_ABSENT : RIGHT;"),
    "a yield puts the deadline off twice": ("yield", "if (RIGHT != 0) return RIGHT; RIGHT; return 0;"),
    "a doze is a sleep": ("doze", """
        if (eevdf_running(queue) != (int64_t)task) return RIGHT;
        eevdf_lag(queue, task, lag);
        return eevdf_sleep(queue, task);"""),
    "a doze tells no debt": ("doze", "int64_t answer = RIGHT; if (answer == 0 && *lag < 0) *lag = 0; return answer;"),
    "a doze that answers ABSENT writes 0": ("doze", "int64_t answer = RIGHT; if (answer == EEVDF_ABSENT) *lag = 0; return answer;"),
    "a wake forgets the place": ("wake", """
        eevdf_place place = { 0, 0 };
        eevdf_hand hand;
        if (eevdf_place_of(queue, task, &place) != 0) return RIGHT;
        eevdf_hand_open(&hand);
        eevdf_take(queue, &hand, task);
        return eevdf_put_asleep(queue, &hand) == 0 ? RIGHT : EEVDF_BUSY;"""),
    "a rebase wakes who dozes": ("rebase", """
        eevdf_place place = { 0, 0 };
        for (uint64_t task = 0; task < EEVDF_TASKS; task++)
            if (eevdf_place_of(queue, task, &place) == 0) eevdf_wake(queue, task);
        return RIGHT;"""),
    "a place is told without its upper half": ("place_of", "int64_t answer = RIGHT; if (answer == 0) out->high = 0; return answer;"),
    "a place is written on an error": ("place_of", "out->low = 0; return RIGHT;"),
    "a wake of a runnable task answers ABSENT": ("wake", """
        int64_t answer = RIGHT;
        return answer == EEVDF_PRESENT ? EEVDF_ABSENT : answer;"""),
    "a renice of a task that sleeps answers INVALID": ("renice", """
        int64_t answer = RIGHT;
        return answer == EEVDF_ABSENT && eevdf_is_asleep(queue, task) == 1 ? EEVDF_INVALID : answer;"""),
    "a slice that is set begins a request": ("set_slice", """
        int64_t answer = RIGHT;
        if (answer == 0 && eevdf_running(queue) == (int64_t)task) eevdf_yield(queue);
        return answer;"""),
    "a set begins a request of the new slice": ("set", """
        if (nice >= EEVDF_NICE_MIN && nice <= EEVDF_NICE_MAX) eevdf_set_slice(queue, task, slice_ns);
        return RIGHT;"""),
    "a set of a task that sleeps begins it anew": ("set", """
        return eevdf_is_asleep(queue, task) == 1 ? eevdf_begin(queue, task, nice, slice_ns) : RIGHT;"""),
    "a set that answers RANGE changes the slice": ("set", """
        int64_t answer = RIGHT;
        if (answer == EEVDF_RANGE) eevdf_set_slice(queue, task, slice_ns);
        return answer;"""),
    "a task that begins anew keeps its lag": ("begin", """
        return eevdf_is_asleep(queue, task) == 1 ? eevdf_set(queue, task, nice, slice_ns) : RIGHT;"""),
    "a begin of a runnable task answers ABSENT": ("begin", """
        int64_t answer = RIGHT;
        return answer == EEVDF_PRESENT ? EEVDF_ABSENT : answer;"""),
    "a rebase tells 0": ("rebase", "int64_t answer = RIGHT; *by = 0; return answer;"),
    "a take of any task answers 0": ("take_any", "int64_t answer = RIGHT; return answer > 0 ? 0 : answer;"),
    "a take asks for the hand last": ("take", "return eevdf_contains(queue, task) == 0 ? EEVDF_ABSENT : RIGHT;"),
    "another number of a hand is cut to 10 bits": ("hand_renumber", "task %= EEVDF_TASKS; return RIGHT;"),
    "another number ends the task of a hand": ("hand_renumber", """
        int64_t answer = RIGHT;
        if (answer == 0) eevdf_hand_close(hand);
        return answer;"""),
    "a put that answers RANGE loses the task": ("put", """
        int64_t answer = RIGHT;
        if (answer == EEVDF_RANGE) eevdf_hand_close(hand);
        return answer;"""),
    "a put that can't be placed sleeps": ("put", "return RIGHT == EEVDF_RANGE ? eevdf_put_asleep(queue, hand) : RIGHT;"),
    "a pull asks whether the load alone is lower": ("pull", """
        int64_t answer = RIGHT;
        if (answer != EEVDF_BALANCED || eevdf_load(to) >= eevdf_load(from)) return answer;
        eevdf_hand hand;
        eevdf_hand_open(&hand);
        answer = eevdf_candidate(from);
        eevdf_take(from, &hand, (uint64_t)answer);
        if (eevdf_put(to, &hand) == 0) return answer;
        if (eevdf_put(from, &hand) != 0) eevdf_hand_close(&hand);
        return EEVDF_BALANCED;"""),
    "a pull that answers RANGE takes the task out and back": ("pull", """
        int64_t answer = RIGHT, task = eevdf_candidate(from);
        if (answer != EEVDF_RANGE) return answer;
        eevdf_hand hand;
        eevdf_hand_open(&hand);
        eevdf_take(from, &hand, (uint64_t)task);
        if (eevdf_put(from, &hand) != 0) eevdf_hand_close(&hand);
        return answer;"""),
    "a pull of a named task takes the running one too": ("pull_task", """
        if (eevdf_running(from) == (int64_t)task) eevdf_stop(from);
        return RIGHT;"""),
    "a close keeps the blocks": ("close", "eevdf_open(queue);"),
    "a closed queue is at the virtual time 0": ("close", "RIGHT; eevdf_open(queue);"),
    "an open writes a byte behind the queue": ("open", "RIGHT; *((unsigned char *)queue + EEVDF_QUEUE_SIZE) = 0;"),
    "a hand is opened with a byte behind it": ("hand_open", "RIGHT; *((unsigned char *)hand + EEVDF_HAND_SIZE) = 0;"),
    "the candidate may run": ("candidate", "int64_t answer = RIGHT; return answer == EEVDF_ABSENT ? eevdf_running(queue) : answer;"),
    "the lag of a task that sleeps is 0": ("lag", """
        int64_t answer = RIGHT;
        if (eevdf_is_asleep(queue, task) == 1) *lag = 0;
        return answer;"""),
    "the nice level of a task that sleeps is 0": ("sleeper_of", "int64_t answer = RIGHT; if (answer == 0) out->nice = 0; return answer;"),
    "the start of a task in a hand is its lag": ("hand_parcel", "int64_t answer = RIGHT; if (answer == 0) out->start = out->lag; return answer;"),
    "an entry is written on an error": ("entry_of", "if (eevdf_contains(queue, task) != 1) out->nice = 0; return RIGHT;"),
    "a virtual time takes 1100 bytes of stack": ("floor_time", "volatile char deep[1100]; deep[0] = 0; return RIGHT + deep[0];"),
    "the version is another": ("version", "return RIGHT + 1;"),
    "a queue is larger": ("queue_size", "return RIGHT + 16;"),
    "a hand is larger": ("hand_size", "return RIGHT + 16;"),
}


def found_by(job):
    """Which programs find a wrong body."""
    archive, what = job
    call, body = BODIES[what]
    with tempfile.TemporaryDirectory() as held:
        tools = Tools(archive, held)
        planted = Path(held) / "planted.c"
        planted.write_text("#include <eevdf.h>\n" + function(call, body))
        return what, list(finders(tools, planted, *flags([call]), "-Wl,-z,now"))


def finders(tools, planted, *linked):
    for name in ("errors", "dozes", "memory", "blocks", "stack", "play"):
        program, fault = tools.compile(name, [tools.callers / f"{name}.c", planted], *linked)
        if fault:
            raise RuntimeError(fault)
        if name != "play":
            if run([program]).returncode:
                yield f"{name}.c"
        elif any(compare((program, kind, "planted", CALLS)).fault for kind in KINDS):
            yield "drawn calls"


def main():
    missed = 0
    with multiprocessing.Pool(os.cpu_count()) as pool:
        for what, found in pool.imap(found_by, [(sys.argv[1], what) for what in BODIES]):
            print(f"{what}: {', '.join(found) or 'NOT FOUND'}", flush=True)
            missed += not found
    print(f"{len(BODIES) - missed} passed, {missed} failed")
    sys.exit(1 if missed else 0)


if __name__ == "__main__":
    main()

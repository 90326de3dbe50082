#!/usr/bin/env -S python3 -B
"""replay.py TRACE: does each call of a trace once more, by the plain queue of checks/drawn/plain, which follows docs/model.md and scans
where the library has a tree. Says how many calls there are of each kind, and after which time requests were used up. Ends with 1 at the
first call that answers something else.

replay.py --plant TRACE [COUNT]: changes the trace in one place after the other, and says of each kind of change, of which it plants so
many (40), how many are noticed within the next 20000 calls.

replay.py --cut MEMORY AT TRACE: takes the trace out of the memory of the machine, where run.sh has the module put it."""

import re
import struct
import sys
from collections import Counter
from copy import deepcopy
from dataclasses import dataclass, replace
from pathlib import Path
from random import Random

HERE = Path(__file__).resolve().parent
sys.path.append(str(HERE.parent.parent / "checks" / "c_library"))

from model import Model  # noqa: E402

# As calls.c lays them out.
HEAD = struct.Struct("<QQQQ")
RECORD = struct.Struct("<BBBBIqqqqqq")
# The calls that change no queue: their records don't have how it is afterwards.
READING = {"peek", "time_to_resched", "len", "running", "candidate", "is_asleep", "entry_of", "hand_renumber"}
# After a change that is planted so many calls are done.
FOLLOWED = 20000


def names_of_calls():
    """The calls in the order of their numbers, as calls.h lists them."""
    listed = re.search(r"enum call \{(.*?)\};", (HERE / "calls.h").read_text(), re.DOTALL)[1]
    return [name.lower() for name in re.findall(r"CALL_(\w+)", listed)]


def number_named(name):
    """A number that common.h defines."""
    defined = re.search(rf"#define {name} (0x[0-9a-f]+|\d+)", (HERE / "common.h").read_text())[1]
    return int(defined, 0)


NAMES = names_of_calls()
CPUS = number_named("MAX_CPUS")
MAGIC = number_named("TRACE_MAGIC")


@dataclass(frozen=True)
class Record:
    call: str
    queue: int
    other: int
    hand: int
    task: int
    first: int
    second: int
    third: int
    answer: int
    time: int
    load: int

    @staticmethod
    def read(fields):
        return Record(NAMES[fields[0]], *fields[1:])


def head_of(data):
    magic, room, made, _ = HEAD.unpack_from(data)
    if magic != MAGIC:
        sys.exit("replay.py: there is no trace")
    return min(room, made), made


def cut(memory, at, trace):
    with open(memory, "rb") as file:
        file.seek(at)
        head = file.read(HEAD.size)
        count, _ = head_of(head)
        Path(trace).write_bytes(head + file.read(count * RECORD.size))


def read_trace(trace):
    data = Path(trace).read_bytes()
    count, made = head_of(data)
    if made > count:
        print(f"the trace has room for {count} of {made} calls")
    return [Record.read(fields) for fields in RECORD.iter_unpack(data[HEAD.size : HEAD.size + count * RECORD.size])]


class Machine:
    """The queue of each CPU, and the two hands that it moves tasks by."""

    def __init__(self):
        self.model = Model()
        self.model.queues = [None] * CPUS
        self.model.hands = [None] * 2 * CPUS

    def state(self, queue):
        """What a record has of the queue after its call."""
        here = self.model.queues[queue]
        return here.virtual_time(), here.load()

    def numbers_of(self, record):
        """What the call is given."""
        match record.call:
            case "admit":
                return record.queue, record.task, record.first, record.second, record.third
            case "set":
                return record.queue, record.task, record.first, record.second
            case "tick":
                return record.queue, record.first
            case "take":
                return record.queue, record.hand, record.task
            case "hand_renumber":
                return record.hand, record.task
            case "put" | "put_asleep":
                return record.queue, record.hand
            case "pull":
                return record.queue, record.other
            case "pull_task":
                return record.queue, record.other, record.task
            case "end" | "run" | "sleep" | "doze" | "wake" | "is_asleep" | "entry_of":
                return record.queue, record.task
            case _:
                return (record.queue,)

    def fault_in(self, record):
        """Does the call. What is different from what the record has, or None."""
        if record.call == "admit" and record.third != self.state(record.queue)[0]:
            return f"it begins at {record.third}, and the virtual time is {self.state(record.queue)[0]}"
        name = "yield_" if record.call == "yield" else record.call
        answer, had = getattr(self.model, name)(*self.numbers_of(record)), record.answer
        if record.call in ("rebase", "doze"):
            had = [record.answer, record.first]
        elif record.call == "entry_of":
            answer, had = answer[:3], [record.answer, record.second, record.first]
        if answer != had:
            return f"the answer is {had}, and the model's {answer}"
        if record.call not in READING and self.state(record.queue) != (record.time, record.load):
            return f"the virtual time and the load are {record.time}, {record.load}, and the model's are {self.state(record.queue)}"
        return None


def first_fault(machine, records):
    """The place of the first record that the model answers otherwise, and what is different, or None."""
    for at, record in enumerate(records):
        try:
            fault = machine.fault_in(record)
        except (KeyError, AttributeError) as wrong:
            fault = f"the model can't do it: {wrong!r}"
        if fault:
            return at, fault
    return None


def begun(record, hands):
    """The task whose request begins by a call, as its queue and its number there, or None. `hands` has the numbers of tasks in hands."""
    match record.call:
        case "take" | "hand_renumber":
            hands[record.hand] = record.task
        case "wake" | "admit" | "set" | "pull_task":
            return record.queue, record.task
        case "pull":
            return record.queue, record.answer
        case "put":
            return record.queue, hands[record.hand]
    return None


def used_up(records):
    """For how many ns each request ran that was used up, in one turn or in several, but for those that a yield has made longer."""
    running, ran, yielded, hands = {}, Counter(), set(), {}
    for record in records:
        if record.answer < 0:
            continue
        if task := begun(record, hands):
            ran[task] = 0
            yielded.discard(task)
        elif record.call in ("pick", "run"):
            running[record.queue] = record.queue, record.answer if record.call == "pick" else record.task
        elif record.call == "yield" and record.queue in running:
            yielded.add(running[record.queue])
        elif record.call == "tick" and record.queue in running:
            task = running[record.queue]
            ran[task] += record.first
            if record.answer == 1:
                if task not in yielded:
                    yield ran[task]
                ran[task] = 0
                yielded.discard(task)


def replayed(records):
    fault = first_fault(Machine(), records)
    if fault:
        at, what = fault
        print(f"call {at + 1} of {len(records)}, {records[at]}: {what}")
        return 1
    kinds = Counter(record.call for record in records)
    print(", ".join(f"{count} {name}" for name, count in kinds.most_common()))
    if lasted := sorted(ns // 1000 for ns in used_up(records)):
        most = [lasted[len(lasted) * part // 100] for part in (50, 90, 99)]
        print(f"{len(lasted)} requests were used up: after {lasted[0]} us or more, half of them within {most[0]}, "
              f"9 of 10 within {most[1]}, 99 of 100 within {most[2]}, all within {lasted[-1]}")
    print(f"{len(records)} calls on {len({record.queue for record in records})} queues, and no answer differs")
    return 0


# The changes that are planted: what each makes of a record and the one after it, where it can be made there.


def left_out(name):
    return lambda one, other: [other] if one.call == name and one.answer >= 0 else None


def another_answer(name):
    return lambda one, other: [replace(one, answer=(one.answer + 1) % 1024), other] if one.call == name and one.answer >= 0 else None


def another_time(change):
    def changed(one, other):
        is_another = one.call == "tick" and 0 < change(one.first) != one.first
        return [replace(one, first=change(one.first)), other] if is_another else None

    return changed


def another_level(name):
    return lambda one, other: [replace(one, first=one.first - 1 if one.first > 0 else one.first + 1), other] if one.call == name else None


def another_call(name, other_name):
    return lambda one, other: [replace(one, call=other_name), other] if one.call == name and one.answer >= 0 else None


def another_lag(one, other):
    return [replace(one, first=one.first + 1), other] if one.call == "doze" and one.answer >= 0 else None


def another_number(one, other):
    return [replace(one, task=(one.task + 1) % 1024), other] if one.call == "hand_renumber" and one.answer >= 0 else None


def twice(name):
    return lambda one, other: [one, one, other] if one.call == name and one.answer >= 0 else None


def turned(one, other):
    changing = {"pick", "wake", "tick", "sleep", "doze", "take", "put", "put_asleep", "yield", "run", "stop", "set"}
    apart = one.call in changing and other.call in changing and one.call != other.call and one.queue == other.queue
    return [other, one] if apart else None


CHANGES = {
    "another answer of a pick": another_answer("pick"),
    "another answer of a pull": another_answer("pull"),
    "a charge is left out": left_out("tick"),
    "a charge is a nanosecond shorter": another_time(lambda ns: ns - 1),
    "a charge is a hundredth shorter": another_time(lambda ns: ns - ns // 100),
    "a charge is made twice": twice("tick"),
    "a wake is left out": left_out("wake"),
    "a sleep is left out": left_out("sleep"),
    "a doze is left out": left_out("doze"),
    "a sleep in the place of a doze": another_call("doze", "sleep"),
    "a doze of another lag": another_lag,
    "a pick is left out": left_out("pick"),
    "a new task is left out": left_out("admit"),
    "an end is left out": left_out("end"),
    "a pull is left out": left_out("pull"),
    "a run that Linux chose is left out": left_out("run"),
    "a yield is left out": left_out("yield"),
    "a stop is left out": left_out("stop"),
    "a task is taken and the take is left out": left_out("take"),
    "another number of a task in a hand": another_number,
    "another level of a new task": another_level("admit"),
    "another level of a task that is set": another_level("set"),
    "two calls are turned round": turned,
}


def places_of(records, change, count, random):
    places = [at for at in range(len(records) - 1) if change(records[at], records[at + 1])]
    return sorted(random.sample(places, min(count, len(places))))


def planted(records, count):
    random = Random(1)
    at_place = {}
    for name, change in CHANGES.items():
        for at in places_of(records, change, count, random):
            at_place.setdefault(at, []).append(name)
    made, noticed, soonest = Counter(), Counter(), {}
    machine = Machine()
    for at, record in enumerate(records):
        for name in at_place.get(at, ()):
            changed = CHANGES[name](record, records[at + 1]) + records[at + 2 : at + 2 + FOLLOWED]
            fault = first_fault(deepcopy(machine), changed)
            made[name] += 1
            noticed[name] += fault is not None
            if fault:
                soonest.setdefault(name, []).append(fault[0])
        machine.fault_in(record)
    for name in CHANGES:
        after = sorted(soonest.get(name, [0]))
        told = f", half of them within {after[len(after) // 2] + 1} calls" if noticed[name] else ""
        print(f"{name}: {noticed[name]} of {made[name]} are noticed{told}")
    return 0


def main():
    match sys.argv[1:]:
        case ["--cut", memory, at, trace]:
            cut(memory, int(at), trace)
            return 0
        case ["--plant", trace, *count]:
            return planted(read_trace(trace), int(count[0]) if count else 40)
        case [trace] if not trace.startswith("-"):
            return replayed(read_trace(trace))
    sys.exit(__doc__)


if __name__ == "__main__":
    sys.exit(main())

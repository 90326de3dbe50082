"""Workloads of phases with one fault each, and what is said of it. In place of a whole one stands what differs from a good one. What is
marked stands between two signs that are no part of the text, as in checks/faults/."""

from faults.marked import BEGIN, END, said_of

GOOD = '''version = 1
[machine]
cpus = 2
lasts = "10ms"
[[task]]
name = "a"
phases = [{ run = "1ms" }]
[[task]]
name = "b"
phases = [{ sleep = "1ms" }]
'''

LENGTH = 'a length of time, as "3ms", of 1ns to 1000000s'
LENGTH_OR_RANGE = 'a length of time, as "3ms", or a range, as "2ms..5ms", of 1ns to 1000000s'
RUN = '{ run = "1ms" }'
NAME = "a text of 1 to 64 letters, digits, - and _, and not - alone"
LOOP, CLOSED = "{ loop = 2, phases = [", "] }"
# what the kit's reader of TOML says
NOT_TOML, NO_VALUE = "not a TOML document", "invalid value, expected a string, number, boolean, date-time, array or inline table"
NO_END = "no phase is the end of the tasks that arrive"
ARRIVES = 'name = "b"\nevery = "1ms"\nat_once = 2'
# what is often written in place of a length of time or a range
NO_UNIT = "a number has its unit right behind it, ns, us, ms or s"
BLANK, GREEK, BACKWARDS = "no blank stands in it", "microseconds are written us", "the lesser length comes first"
NO_TIME = "a list of phases without run, sleep, timer or end takes no time"

# (what is replaced, by what, the line)
FAULTS = [
    ("version = 1\n[machine]", "version = [\n[«machine»]", NOT_TOML),
    ("version = 1", "", "missing version"),
    ("version = 1", "version = «2»", "bad value of version, which is the number 1"),
    ("version = 1", "version = 1\n«verison» = 1", 'unknown key "verison"; the nearest that is known is version'),
    ("version = 1", "version = 1\nseed = «-1»", "bad value of seed, which is a whole number from 0 on"),
    ("[machine]", "«[machines]»", 'unknown key "machines"; the nearest that is known is machine'),
    ('[machine]\ncpus = 2\nlasts = "10ms"', "machine = «3»", "bad value of machine, which is a table"),
    ('[machine]\ncpus = 2\nlasts = "10ms"', "", "missing machine"),
    ("cpus = 2", "cpus = «0»", "machine: bad value of cpus, which is a number from 1 to 64"),
    ("cpus = 2", "cpus = «65»", "machine: bad value of cpus, which is a number from 1 to 64"),
    ("cpus = 2", 'cpus = «"2"»', "machine: bad value of cpus, which is a number from 1 to 64"),
    ("cpus = 2", "«cpu» = 2", 'machine: unknown key "cpu"; the nearest that is known is cpus'),
    ('[machine]\ncpus = 2\nlasts = "10ms"', "«[machine]»\ncpus = 2", "machine: missing lasts"),
    ('lasts = "10ms"', 'lasts = «"0"»', f"machine: bad value of lasts, which is {LENGTH}"),
    ('lasts = "10ms"', 'lasts = «"10"»', f"machine: bad value of lasts, which is {LENGTH}; {NO_UNIT}"),
    ('lasts = "10ms"', 'lasts = «"10 ms"»', f"machine: bad value of lasts, which is {LENGTH}; {BLANK}"),
    ('lasts = "10ms"', 'lasts = «"+10ms"»', f"machine: bad value of lasts, which is {LENGTH}"),
    ('lasts = "10ms"', 'lasts = «"ms"»', f"machine: bad value of lasts, which is {LENGTH}"),
    ('lasts = "10ms"', 'lasts = «"1000001s"»', f"machine: bad value of lasts, which is {LENGTH}"),
    ('lasts = "10ms"', 'lasts = «"18446744073709551616ns"»', f"machine: bad value of lasts, which is {LENGTH}"),
    ('lasts = "10ms"', 'lasts = «"18446744073709552s"»', f"machine: bad value of lasts, which is {LENGTH}"),
    ('lasts = "10ms"', 'lasts = "10ms"\ntick = «1»',
     f'machine: bad value of tick, which is a length of time, as "3ms", of 0 to 1000000s; {NO_UNIT}'),
    ('lasts = "10ms"', 'lasts = "10ms"\ntick = «0»', 'machine: bad value of tick, which is a length of time, as "3ms", of 0 to 1000000s'),
    ('lasts = "10ms"', 'lasts = «"10µs"»', f"machine: bad value of lasts, which is {LENGTH}; {GREEK}"),
    ('lasts = "10ms"', 'lasts = «"10μs"»', f"machine: bad value of lasts, which is {LENGTH}; {GREEK}"),
    ('lasts = "10ms"', 'lasts = "10ms"\npull = «1»', "machine: bad value of pull, which is true or false"),
    ('lasts = "10ms"', 'lasts = "10ms"\npreempt = «"wake"»', 'machine: bad value of preempt, which is "wakeup" or "tick"'),
    ('lasts = "10ms"', 'lasts = "10ms"\nsleep = «"nap"»', 'machine: bad value of sleep, which is "sleep" or "doze"'),
    ('lasts = "10ms"', 'lasts = "10ms"\nsleep = «true»', 'machine: bad value of sleep, which is "sleep" or "doze"'),
    ('lasts = "10ms"', 'lasts = "10ms"\n«sleeps» = "doze"', 'machine: unknown key "sleeps"; the nearest that is known is sleep'),
    ('[[task]]\nname = "a"', "«[[task]]»", "task 0: missing name"),
    ('name = "a"', 'name = «""»', f"task 0: bad value of name, which is {NAME}"),
    ('name = "a"', 'name = «"a\\n"»', f"task 0: bad value of name, which is {NAME}"),
    ('name = "a"', 'name = «"b.0"»', f"task 0: bad value of name, which is {NAME}"),
    ('name = "a"', 'name = «"-"»', f"task 0: bad value of name, which is {NAME}"),
    ('name = "a"', f'name = «"{"a" * 65}"»', f"task 0: bad value of name, which is {NAME}"),
    (f'phases = [{RUN}]\n[[task]]\nname = "b"', '[[task]]\nname = «"a"»', 'task 1: another task has the name "a"'),
    ('name = "b"', 'name = «"a"»', 'task 1: another task has the name "a"'),
    ('name = "b"', 'name = "b"\ncount = «0»', "task 1: bad value of count, which is a number from 1 to 1024"),
    ('name = "b"', 'name = "b"\ncount = «1000000»', "task 1: bad value of count, which is a number from 1 to 1024"),
    ('[[task]]\nname = "b"', '«[[task]]»\nname = "b"\ncount = 1024', "task 1: more than 1024 tasks"),
    ('name = "b"', 'name = "b"\nhome = «2»', "task 1: bad value of home, which is the number of a CPU of the machine"),
    ('name = "b"', 'name = "b"\nnice = «20»', "task 1: bad value of nice, which is a number from -20 to 19"),
    ('name = "b"', 'name = "b"\nslice = «"99us"»', "task 1: bad value of slice, which is a length of time from 100us to 100ms"),
    ('name = "b"', 'name = "b"\nslice = «3000000»', f"task 1: bad value of slice, which is a length of time from 100us to 100ms; {NO_UNIT}"),
    ('name = "b"', 'name = "b"\n«begin» = "1ms"', 'task 1: unknown key "begin"; the nearest that is known is begins'),
    ('name = "b"', 'name = "b"\n«seed» = 5', 'task 1: unknown key "seed"; it belongs before the first table'),
    ('name = "b"', 'name = "b"\n«cpus» = 5', 'task 1: unknown key "cpus"; it belongs to the machine'),
    ("cpus = 2", "cpus = 2\n«version» = 1", 'machine: unknown key "version"; it belongs before the first table'),
    ("cpus = 2", 'cpus = 2\n«slice» = "1ms"', 'machine: unknown key "slice"; it belongs to a task'),
    ('name = "b"', 'name = "b"\nevery = «"0"»\nat_once = 2', f"task 1: bad value of every, which is {LENGTH_OR_RANGE}"),
    ('name = "b"', 'name = "b"\nevery = «1»\nat_once = 2', f"task 1: bad value of every, which is {LENGTH_OR_RANGE}; {NO_UNIT}"),
    ('name = "b"', 'name = "b"\nevery = «"0..1ms"»\nat_once = 2', f"task 1: bad value of every, which is {LENGTH_OR_RANGE}"),
    ('name = "b"', 'name = "b"\nevery = «"2ms..1ms"»\nat_once = 2', f"task 1: bad value of every, which is {LENGTH_OR_RANGE}; {BACKWARDS}"),
    ('name = "b"', 'name = "b"\nevery = "1ms"\nat_once = «0»', "task 1: bad value of at_once, which is a number from 1 to 1024"),
    ('name = "b"', 'name = "b"\nevery = "1ms"\nat_once = «1025»', "task 1: bad value of at_once, which is a number from 1 to 1024"),
    ('[[task]]\nname = "b"', '«[[task]]»\nname = "b"\nevery = "1ms"', "task 1: missing at_once"),
    ('[[task]]\nname = "b"', '«[[task]]»\nname = "b"\nat_once = 2', "task 1: missing every"),
    ('name = "b"', f'{ARRIVES}\ncount = «0»', "task 1: bad value of count, which is a number from 1 to 1000000000"),
    ('name = "b"', f'{ARRIVES}\ncount = «1000000001»', "task 1: bad value of count, which is a number from 1 to 1000000000"),
    ('name = "b"', 'name = "b"\n«evry» = "1ms"\nat_once = 2', 'task 1: unknown key "evry"; the nearest that is known is every'),
    ('name = "b"', 'name = "b"\nevery = "1ms"\n«at_one» = 2', 'task 1: unknown key "at_one"; the nearest that is known is at_once'),
    ('name = "b"\nphases = [{ sleep = "1ms" }]', ARRIVES + '\nphases = «[{ sleep = "1ms" }]»', f"task 1: {NO_END}"),
    ('[[task]]\nname = "b"\nphases = [{ sleep = "1ms" }]', '«[[task]]»\nname = "b"\nevery = "1ms"\nat_once = 1024\nphases = ["end"]',
     "task 1: more than 1024 tasks"),
    ('name = "b"', 'name = "b"\nbegins = «"18446744073709551615ns"»',
     'task 1: bad value of begins, which is a length of time, as "3ms", of 0 to 1000000s'),
    (f'[[task]]\nname = "a"\nphases = [{RUN}]', '«[[task]]»\nname = "a"', "task 0: missing phases"),
    (f"phases = [{RUN}]", "phases = «[]»", "task 0: bad value of phases, which is a list of 1 to 1000 phases"),
    (f"phases = [{RUN}]", f"phases = [{', '.join([RUN] * 1000)}, «{RUN}»]",
     "task 0, phase 1000: bad value of phases, which is a list of 1 to 1000 phases"),
    (RUN, f'{RUN}, «"slep"»', 'task 0, phase 1: unknown phase "slep"; the nearest that is known is sleep'),
    (RUN, "«1»", "task 0, phase 0: a phase is a text or a table of one phase"),
    (RUN, '«{ run = "1ms", sleep = "1ms" }»', "task 0, phase 0: a phase is a text or a table of one phase"),
    (RUN, '{ «slep» = "1ms" }', 'task 0, phase 0: unknown key "slep"; the nearest that is known is sleep'),
    (RUN, "{ run = «1» }", f"task 0, phase 0: bad value of run, which is {LENGTH_OR_RANGE}; {NO_UNIT}"),
    (RUN, '{ run = «"1..2ms"» }', f"task 0, phase 0: bad value of run, which is {LENGTH_OR_RANGE}; {NO_UNIT}"),
    (RUN, '{ run = «"1ms .. 2ms"» }', f"task 0, phase 0: bad value of run, which is {LENGTH_OR_RANGE}; {BLANK}"),
    (RUN, '{ timer = «"5 ms"» }', f"task 0, phase 0: bad value of timer, which is {LENGTH}; {BLANK}"),
    (RUN, '{ run = «"0"» }', f"task 0, phase 0: bad value of run, which is {LENGTH_OR_RANGE}"),
    (RUN, '{ run = «"5ms..2ms"» }', f"task 0, phase 0: bad value of run, which is {LENGTH_OR_RANGE}; {BACKWARDS}"),
    (RUN, '{ run = «"1ms..2ms..3ms"» }', f"task 0, phase 0: bad value of run, which is {LENGTH_OR_RANGE}"),
    (RUN, '{ run = «"1ms.."» }', f"task 0, phase 0: bad value of run, which is {LENGTH_OR_RANGE}"),
    (RUN, '{ run = «"..1ms"» }', f"task 0, phase 0: bad value of run, which is {LENGTH_OR_RANGE}"),
    (RUN, '{ run = «"1ms..1000000000001us"» }', f"task 0, phase 0: bad value of run, which is {LENGTH_OR_RANGE}"),
    (RUN, '{ run = «"1ns..18446744073709551617ns"» }', f"task 0, phase 0: bad value of run, which is {LENGTH_OR_RANGE}"),
    (RUN, '{ timer = «"1000000000000001ns"» }', f"task 0, phase 0: bad value of timer, which is {LENGTH}"),
    (RUN, '{ sleep = «".."» }', f"task 0, phase 0: bad value of sleep, which is {LENGTH_OR_RANGE}"),
    (RUN, '{ timer = «"0"» }', f"task 0, phase 0: bad value of timer, which is {LENGTH}"),
    (RUN, '{ timer = «"1ms..2ms"» }', f"task 0, phase 0: bad value of timer, which is {LENGTH}"),
    (RUN, f"{RUN}, {{ nice = «-21» }}", "task 0, phase 1: bad value of nice, which is a number from -20 to 19"),
    (RUN, f'{RUN}, {{ resume = «"c"» }}', 'task 0, phase 1: no task has the name "c"; the nearest that is known is a'),
    (RUN, f"{RUN}, {{ resume = «1» }}", "task 0, phase 1: bad value of resume, which is the name of a task"),
    (f"[{RUN}]", '«["yield"]»', f"task 0: {NO_TIME}"),
    (RUN, f'{RUN}, {{ loop = 2, phases = «["yield"]» }}', f"task 0, phase 1: {NO_TIME}"),
    (RUN, f"{{ loop = «0», phases = [{RUN}] }}", "task 0, phase 0: bad value of loop, which is a number from 1 to 1000000000"),
    (RUN, "«{ loop = 2 }»", "task 0, phase 0: missing phases"),
    (RUN, f"{{ loop = 2, phases = [{RUN}], «run» = 1 }}", 'task 0, phase 0: unknown key "run"'),
    (RUN, LOOP * 8 + f"«{LOOP}{RUN}{CLOSED}»" + CLOSED * 8, "task 0, phase 0: loops stand in one another more than 8 deep"),
]


# Some of the faults where the document is written in other forms: the whole text, and the line.
FORMS = [
    ("version = 1\nmachine = { cpus = «0», lasts = \"1ms\" }\n", "machine: bad value of cpus, which is a number from 1 to 64"),
    ("version = 1\nmachine = { lasts = \"1ms\", «cpu» = 2 }\n", 'machine: unknown key "cpu"; the nearest that is known is cpus'),
    ("version = 1\nmachine = «{ cpus = 2 }»\n", "machine: missing lasts"),
    ("version = 1\nmachine.cpus = «0» # = 1\nmachine.lasts = \"1ms\"\n", "machine: bad value of cpus, which is a number from 1 to 64"),
    ("version = 1\n«machine.cpu» = 2\nmachine.lasts = \"1ms\"\n", 'machine: unknown key "cpu"; the nearest that is known is cpus'),
    ("version = 1\n[machine]\n«cpus.few» = 2\n", "machine: bad value of cpus, which is a number from 1 to 64"),
    ("version = 1\n«[machine.cpus]»\n", "machine: bad value of cpus, which is a number from 1 to 64"),
    ("version = 1\n[ machine ] # [machine]\n'lasts' = \"1ms\" # \"\n\"tick\"\t=  «\"1\"»\n",
     f'machine: bad value of tick, which is a length of time, as "3ms", of 0 to 1000000s; {NO_UNIT}'),
    ("\ufeffversion = 1\nseed = «-1»\n", "bad value of seed, which is a whole number from 0 on"),
    ("version = 1\nseed = «1979-05-27 07:32:00»\n", "bad value of seed, which is a whole number from 0 on"),
    ("version = 1\ntask = «3»\n[machine]\nlasts = \"1ms\"\n", "bad value of task, which is tables, as [[task]]"),
    ("version = 1\n[machine]\nlasts = \"1ms\"\n«[task]»\n", "bad value of task, which is tables, as [[task]]"),
    ("version = 1\ntask = [\n  # one\n  «{}»,\n]\n[machine]\nlasts = \"1ms\"\n", "task 0: missing name"),
    ("version = 1\ntask = [{ name = \"a\", phases = [" + RUN + "] }, «2»]\n[machine]\nlasts = \"1ms\"\n",
     "task 1: bad value of task, which is tables, as [[task]]"),
    ("version = 1\nmachine.lasts = \"1ms\"\n[[task]]\nname = \"a\"\n[[task.phases]]\nrun = \"1ms\"\n"
     "[[task]]\nname = \"b\"\n[[task.phases]]\nrun = \"1ms\"\n[[task.phases]]\nsleep = «1»\n",
     f"task 1, phase 1: bad value of sleep, which is {LENGTH_OR_RANGE}; {NO_UNIT}"),
    ("version = 1\nmachine.lasts = \"1ms\"\n[[task]]\nname = \"a\"\n[[task.phases]]\nrun = \"1ms\"\n"
     "«[[task.phases]]»\nloop = 2\n", "task 0, phase 1: missing phases"),
    (GOOD.replace(RUN, '{ loop = 2, phases = ["yield", { loop = 3, phases = [\n  { run = "1ms" }, # ]\n  { sleep = «"0"» },\n] }] }', 1),
     f"task 0, phase 0: bad value of sleep, which is {LENGTH_OR_RANGE}"),
    (GOOD.replace(RUN, RUN + ', { loop = 2, phases = ["yield", «"slep"»] }', 1),
     'task 0, phase 1: unknown phase "slep"; the nearest that is known is sleep'),
    (GOOD.replace(RUN, RUN + ", { loop = 2, phases = [" + RUN + ", { nice = «20» }] }", 1),
     "task 0, phase 1: bad value of nice, which is a number from -20 to 19"),
    ("version = 1\nmachine.lasts = \"1ms\"\ntask = [{ phases = ['é[]{},\"'], name = «\"é\"» }]\n",
     f"task 0: bad value of name, which is {NAME}"),
]


# Texts that another program takes, or that are read by another flag: the words, the text, the line, and what the text is.
OTHERS = (
    ([], 'version = 1\nprogram = [[]]\nscript = ["0 pick"]\n[[task]]\n', 'unknown key "program"',
     "this is a workload with a script, which `eevdf solo` does"),
    ([], 'version = 3\nprogram = [["pick"]]\n[[task]]\n', "bad value of version, which is the number 1",
     "this is a workload with programs, which `eevdf run` does"),
    ([], "# cpus=1\n  bash-23 [001] 5077.123456: sched_switch: bash:23 [120] S ==> cat:24 [120]\n", NOT_TOML,
     "this is a trace, which --from trace reads"),
    (["--from", "trace"], GOOD, "no sched_switch, sched_wakeup or sched_wakeup_new of a task",
     "this is a workload of phases, which is read without --from trace"),
    (["--from", "trace"], 'version = 3\nprogram = [["pick"]]\n[[task]]\n', "no sched_switch, sched_wakeup or sched_wakeup_new of a task",
     "this is a workload with programs, which `eevdf run` does"),
)


def said_at(text, line):
    """What is said behind the line of a fault, where a place is marked: the place, and of what is no document what is wrong there."""
    return said_of(text, NO_VALUE if line == NOT_TOML else "") if BEGIN in text else ""


def faulty():
    """The text of each, and all that is said of it."""
    texts = [(GOOD.replace(old, new, 1), line) for old, new, line in FAULTS if old in GOOD]
    assert len(texts) == len(FAULTS)
    for text, line in texts + FORMS:
        yield text.replace(BEGIN, "").replace(END, ""), f"fault: {line}\n{said_at(text, line)}"

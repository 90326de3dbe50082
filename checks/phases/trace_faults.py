"""Traces with one fault each, and what is said of it. What is marked stands between two signs that are no part of the text."""

from faults.marked import BEGIN, END, said_of

TIME = "bad time of an event, which is as 5077.123456: before it"
CPU = "bad CPU of an event, which is from [000] to [063] before its time"
SWITCH = "bad sched_switch, which is as bash:23 [120] S ==> cat:24 [120], or by keys"
WAKEUP = "bad sched_wakeup, which is as bash:23 [120] CPU:001, or by keys"
EARLIER = "an earlier time than that of an event before"
NO_TASK = "no sched_switch, sched_wakeup or sched_wakeup_new of a task"

HEAD = "# a comment\n  bash-23 [001] "
AT = HEAD + "5077.123456: "
KEYS = "prev_comm=bash prev_pid=23 prev_prio=120 prev_state=S ==> next_comm=cat next_pid=24 next_prio=120"
SHORT = "bash:23 [120] S ==> cat:24 [120]"
WOKEN = "comm=bash pid=23 prio=120 target_cpu=001"
GOOD = AT + "sched_switch: " + SHORT + "\n"

# the text, and what is said
FAULTS = [
    ("", NO_TASK),
    ("# sched_switch:\ncpus=4\n", NO_TASK),
    ("<idle>-0 [000] 1.5: sched_switch: swapper/0:0 [120] R ==> swapper/0:0 [120]\n", NO_TASK),
    (f"{HEAD}«5077,123456:» sched_switch: {SHORT}", TIME),
    (f"{HEAD}«5077.123456» sched_switch: {SHORT}", TIME),
    (f"{HEAD}«5077:» sched_switch: {SHORT}", TIME),
    (f"{HEAD}«5077.:» sched_switch: {SHORT}", TIME),
    (f"{HEAD}«.5:» sched_switch: {SHORT}", TIME),
    (f"{HEAD}«+1.5:» sched_switch: {SHORT}", TIME),
    (f"{HEAD}«1.+5:» sched_switch: {SHORT}", TIME),
    (f"{HEAD}«1.5.5:» sched_switch: {SHORT}", TIME),
    (f"{HEAD}«1.1234567891:» sched_switch: {SHORT}", TIME),
    (f"{HEAD}«18446744074.0:» sched_switch: {SHORT}", TIME),
    (f"{HEAD}«18446744073.709551616:» sched_switch: {SHORT}", TIME),
    (f"{HEAD}«99999999999999999999.0:» sched_switch: {SHORT}", TIME),
    (f"«sched_switch:» {SHORT}", TIME),
    (f"bash-23 «1.5:» sched_switch: {SHORT}", CPU),
    (f"bash-23 «[]» 1.5: sched_switch: {SHORT}", CPU),
    (f"bash-23 «[064]» 1.5: sched_switch: {SHORT}", CPU),
    (f"bash-23 [1] «[+1]» d..2. 1.5: sched_switch: {SHORT}", CPU),
    (f"bash-23 «[1» 1.5: sched_switch: {SHORT}", CPU),
    (f"{AT}sched_switch:«»", SWITCH),
    (f"{AT}sched_switch: «bash:23 [120] S»", SWITCH),
    (f"{AT}sched_switch: «bash:23 [120] ==> cat:24 [120]»\n", SWITCH),
    (f"{AT}sched_switch: «bash 23 [120] S ==> cat:24 [120]»\r\n", SWITCH),
    (f"{AT}sched_switch: «bash:23 [12x] S ==> cat:24 [120]»  \n", SWITCH),
    (f"{AT}sched_switch: «bash:23 [120] S ==> cat:24 [--1]»\n", SWITCH),
    (f"{AT}sched_switch: «bash:23 [120] S ==> cat:4294967296 [120]»\n", SWITCH),
    (f"{AT}sched_switch: «bash:+23 [120] S ==> cat:24 [120]»\n", SWITCH),
    (f"{AT}sched_switch: «{KEYS.replace('cat', 'a ==> b')}»\n", SWITCH),
    (f"{AT}sched_switch: «{KEYS.replace('prev_prio', 'prio')}»\n", SWITCH),
    (f"{AT}sched_switch: «{KEYS.replace('S ==>', '==>').replace('prev_state=', '')}»\n", SWITCH),
    (f"{AT}sched:sched_switch: «{KEYS.replace('next_pid=24', 'next_pid=x')}»\n", SWITCH),
    (f"{AT}sched_wakeup: «bash:23 [120]»\n", WAKEUP),
    (f"{AT}sched_wakeup: «bash:23 [120] CPU:064»\n", WAKEUP),
    (f"{AT}sched:sched_wakeup_new: «bash:23 [120] CPU:001 twice»\n", WAKEUP),
    (f"{AT}sched_wakeup_new: «{WOKEN.replace('target_cpu=001', '')[:-1]}»\n", WAKEUP),
    (f"{AT}sched_wakeup: «{WOKEN.replace('prio=', 'priority=')}»\n", WAKEUP),
    (f"{AT}sched_wakeup: «größe [] CPU:1»\n", WAKEUP),
    (GOOD + f"größe [001] «5077.123455:» sched_wakeup: {WOKEN}\n", EARLIER),
    (GOOD + f"x [0] 5078.5: sched_wakeup: {WOKEN}\nx [0] «5078.4999:» sched_wakeup: {WOKEN}\n", EARLIER),
    (f"x [0] 0.0: sched_wakeup: {WOKEN}\nx [0] «1000000.000000001:» sched_wakeup: {WOKEN}\n", "more than 1000000s after the first event"),
    ("".join(f"x [0] 1.0: sched_wakeup: x:{pid} [120] CPU:0\n" for pid in range(1, 1025)) + "x [0] 1.0: sched_wakeup: «x:1025 [120] CPU:0»",
     "more than 1024 tasks"),
]


def faulty_traces():
    """The bytes of each, and all that is said of it."""
    for text, line in FAULTS:
        said = said_of(text, "") if BEGIN in text else ""
        yield text.replace(BEGIN, "").replace(END, "").encode(), f"fault: {line}\n{said}"
    yield GOOD.encode() + b"\xff\n", "fault: not UTF-8\n"
    yield GOOD.encode() * (16777216 // len(GOOD) + 1), "fault: longer than 16777216 bytes\n"

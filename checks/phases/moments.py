"""Whether the clock of what eevdf_phases prints ever goes back, and whether `eevdf solo --times` has it too."""

from model import LONGEST_TICK


def moment_of(text):
    """The nanoseconds of a moment as it is printed."""
    whole, rest = text.split(".")
    return int(whole) * 1000000 + int(rest)


def fall_of(lines):
    """Where a moment falls, of the lines of `--run`, or None: on a CPU, or, but for the ticks of a whole second by which a CPU catches up,
    over all CPUs."""
    latest, by_cpu = 0, {}
    for line in lines:
        moment = moment_of(line.split(" ", 1)[0])
        cpu, deed = line.split(": ", 1)[1].split(" ", 1)
        if moment < by_cpu.get(cpu, 0):
            return f"time falls on CPU {cpu} at {line!r}"
        by_cpu[cpu] = moment
        if deed.startswith(f"tick {LONGEST_TICK}:"):
            continue
        if moment < latest:
            return f"time falls at {line!r}"
        latest = moment
    return None


def begin_of(moment, deed):
    """When a deed began whose CPU is charged up to a moment: a tick takes its time before it."""
    word, _, length = deed.split(":")[0].partition(" ")
    return moment - int(length) if word == "tick" else moment


def timed_by_cpu(lines):
    """The deeds with their answers, by CPU, each behind the time at which it began, as a report with times has them; and as the last line
    the time after it. Of lines as `1.500000 name: 0 pick: picked 1`."""
    by_cpu, last = {}, {}
    for line in lines:
        moment = moment_of(line.split(" ", 1)[0])
        cpu, deed = line.split(": ", 1)[1].split(" ", 1)
        by_cpu.setdefault(cpu, []).append(f"{begin_of(moment, deed):16} {deed}")
        last[cpu] = moment
    return {cpu: (deeds, last[cpu]) for cpu, deeds in by_cpu.items()}


def reported_by_cpu(lines):
    """The same of what `eevdf solo --times` prints."""
    by_cpu = {}
    for line in lines:
        time, text = line[:16], line[17:]
        if text.startswith("cpu "):
            cpu, is_deed = text[4:], True
        elif text.startswith("load "):
            is_deed = False
            if cpu in by_cpu:
                by_cpu[cpu] = by_cpu[cpu], int(time)
        elif is_deed:
            by_cpu.setdefault(cpu, []).append(line)
    return by_cpu

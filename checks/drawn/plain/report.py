"""The report: "Report" of docs/formats.md."""

from plain.times import Clocks

# So many characters a time takes at least.
TIME_WIDTH = 16


def text_of(deed):
    words = list(deed)
    if words[0] == "wake":
        words.insert(2, "from")
    return " ".join(map(str, words))


def line_of_task(queue, task):
    entry = queue.runnable[task]
    running = " running" if queue.running == task else ""
    return f"task {task} v {entry.v} d {entry.d} lag {queue.lag_of(task)}{running}"


def line_of_sleeper(queue, task):
    place = queue.place_now(task)
    return f"asleep {task} lag {queue.asleep[task].lag}" + ("" if place is None else f" place {place}")


def lines_of_queue(queue):
    lines = [f"load {queue.load()} floor {queue.virtual_time()}"]
    lines += [line_of_task(queue, task) for task in sorted(queue.runnable)]
    lines += [line_of_sleeper(queue, task) for task in sorted(queue.asleep)]
    return lines


def lines_left(outcome, home):
    senders = range(len(outcome.queues))
    return [f"left {task} from {sender}" for sender in senders for task in outcome.left.get((sender, home), [])]


def timed_lines(outcome):
    """For each CPU its lines, each with its time: of its number 0, of each deed that at which it began, and of all else that after all
    deeds."""
    clocks = Clocks(len(outcome.queues))
    lines = [[(0, f"cpu {cpu}")] for cpu in range(len(outcome.queues))]
    for cpu, deed, answer in outcome.lines:
        begin, _end, _other = clocks.do(cpu, deed, answer)
        lines[cpu].append((begin, f"{text_of(deed)}: {answer}"))
    for cpu, queue in enumerate(outcome.queues):
        lines[cpu] += [(clocks.cpus[cpu], line) for line in lines_of_queue(queue) + lines_left(outcome, cpu)]
    return lines


def lines_of_history(outcome):
    return ["script = [", *(f'"{cpu} {text_of(deed)}",' for cpu, deed, _ in outcome.lines), "]"]


def report(outcome, history, times=False):
    lines = [f"{time:>{TIME_WIDTH}} {line}" if times else line for lines in timed_lines(outcome) for time, line in lines]
    if history:
        lines += lines_of_history(outcome)
    return "".join(line + "\n" for line in lines).encode()

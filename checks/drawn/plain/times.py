"""When each deed of a history was done: "Time" of docs/pictures.md."""

# The deeds that find a task asleep, and their answers then.
FINDS = {"wake": "woken", "begin": "begun", "set": "set"}

# Where a deed names another CPU.
OTHER = {"pull": 1, "wake": 2}


class Clocks:
    """The clock of each CPU, and when each task fell asleep or ended last."""

    def __init__(self, cpus):
        self.cpus = [0] * cpus
        self.slept = {}

    def other(self, cpu, deed):
        """The clock of the other CPU that a deed names, and else of its own."""
        place = OTHER.get(deed[0])
        return self.cpus[cpu if place is None else deed[place]]

    def do(self, cpu, deed, answer):
        """When a deed begins and ends, and the clock of the other CPU that it names. A pull isn't before what its source has done, nor a wake
        before what its sender has; and what finds a task asleep isn't before the task fell asleep or ended."""
        other = self.other(cpu, deed)
        begin = max(self.cpus[cpu], other)
        if FINDS.get(deed[0]) == answer:
            begin = max(begin, self.slept.get(deed[1], 0))
        end = begin + (deed[1] if deed[0] == "tick" and answer != "range" else 0)
        self.cpus[cpu] = end
        if answer.startswith("slept") or answer == "ended":
            self.slept[deed[1]] = begin
        return begin, end, other

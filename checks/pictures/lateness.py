"""How late requests are, and how late they can be: each CPU has the bounds beside its queue that "Bounds of a fair queue" of docs/model.md
has."""

from fractions import Fraction

from plain.fair_queue import Bounds
from plain.machine import whole


class BoundedQueues:
    """The queues of a machine, each with its bounds."""

    def __init__(self, setup, queues):
        self.setup, self.queues = setup, queues
        self.bounds = [Bounds(queue) for queue in queues]
        for bounds in self.bounds:
            bounds.measure()

    def do(self, cpu, deed):
        """Does a deed, and gives its answer."""
        bounds = self.bounds[cpu]
        if deed[0] in ("wake", "renice", "set"):
            return self.change(cpu, deed, deed[1])
        if deed[0] == "pull":
            return self.change(cpu, deed, self.queues[deed[1]].candidate())
        answer = whole(self.setup, self.queues, cpu, deed)
        if deed[0] == "pick":
            bounds.begin_turn()
        elif answer.startswith("charged"):
            bounds.charge(deed[1])
        elif deed[0] == "rebase":
            bounds.lower(int(answer.split()[1]))
        return answer

    def change(self, cpu, deed, task):
        """Does a deed that puts no other task than this one into the CPU's queue."""
        answers = []
        self.bounds[cpu].change(task, lambda _queue: answers.append(whole(self.setup, self.queues, cpu, deed)))
        return answers[0]

    def lateness(self, cpu):
        """Of each runnable task of a CPU by how much the virtual time is past its deadline, where it is, and by how much it can be."""
        queue = self.queues[cpu]
        if queue.runnable:
            time = Fraction(queue.moment(), queue.load())
            for task, entry in queue.runnable.items():
                yield task, max(Fraction(0), time - entry.d), self.bounds[cpu].late_by(entry.d)

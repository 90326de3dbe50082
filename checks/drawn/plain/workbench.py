"""What the program prints for the bytes of a workload, with its status."""

from plain.fault import Fault, missing
from plain.limits import PLACES
from plain.machine import one_thread
from plain.report import report
from plain.steps import count_of_steps, play
from plain.workload import read_workload


def solo(workload):
    if workload.script is None:
        raise missing("script")
    return one_thread(workload.setup, workload.script)


def replay(workload):
    if workload.order is None:
        raise missing("order")
    if len(workload.order) > PLACES:
        raise Fault(f"order longer than {PLACES}")
    outcome, fault = play(workload.setup, workload.order)
    if fault is not None:
        raise Fault(fault)
    return outcome


COMMANDS = {"solo": solo, "replay": replay}


def fault_line(fault):
    return f"fault: {fault}\n".encode()


def answer(words, data):
    """Standard output and the status of a command with its flags."""
    try:
        outcome = COMMANDS[words[0]](read_workload(data))
        return report(outcome, "--history" in words, "--times" in words), 0
    except Fault as fault:
        return fault_line(fault), 1


def order_refusal(data):
    """The line with which no order is put into a workload, or None."""
    try:
        workload = read_workload(data)
    except Fault as fault:
        return fault_line(fault)
    if workload.order is not None:
        return fault_line("workload has an order already")
    if count_of_steps(workload.setup) > PLACES:
        return fault_line(f"order longer than {PLACES}")
    return None

"""What eevdf_phases prints, by the plain model."""

from model import Machine

MOST_BYTES = 16777216
MOST_DEEDS = 640000


def deed_text(cpu, operation):
    word, operands = operation[0], operation[1:]
    if word == "wake":
        return f"{cpu} wake {operands[0]} from {operands[1]}"
    return " ".join(map(str, (cpu, word, *operands)))


def moment_text(moment):
    return f"{moment // 1000000}.{moment % 1000000:06}"


def script_lines(plan):
    """The workload, line by line."""
    machine = Machine(plan)
    yield f"version = {4 if plan.sleep == 'doze' else 3}"
    yield f"program = [{', '.join(['[]'] * plan.cpus)}]"
    yield "script = ["
    for cpu, operation, _answer, moment, name in machine.deeds():
        yield f'  "{deed_text(cpu, operation)}", # {moment_text(moment)} {name}'
    yield "]"
    for actor in machine.actors:
        yield ""
        yield f"[[task]] # {actor.name}"
        yield f"home = {actor.home}"
        yield f"nice = {actor.kind.nice}"
        yield f"slice = {actor.kind.slice}"
        yield f"asleep = {'true' if actor.kind.begins > 0 or actor.kind.every else 'false'}"


def run_lines(plan, machine=None):
    """The deeds with their answers. A machine that is given is the plan's, and is driven to its end."""
    for cpu, operation, answer, moment, name in (machine or Machine(plan)).deeds():
        yield f"{moment_text(moment)} {name}: {deed_text(cpu, operation)}: {answer}"


def suspended_text(machine):
    """What is said of the tasks that wait to be resumed when all has been done."""
    lines = []
    for kind in machine.plan.kinds:
        waiting = sum(actor.is_suspended for actor in machine.actors if actor.kind is kind)
        if waiting:
            lines.append(f"{kind.name}: {'1 task waits' if waiting == 1 else f'{waiting} tasks wait'} to be resumed at the end\n")
    return "".join(lines)

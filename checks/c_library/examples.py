"""The examples in C."""

import os
import re
import resource

import exclusive
import levelling
from tools import C11, SANITIZED, TOP, ending, fault_of, run

FIRST = TOP / "examples" / "c" / "first.c"
TICKLESS = TOP / "examples" / "c" / "tickless.c"
OWN_NUMBERS = TOP / "examples" / "c" / "own_numbers.c"
NAPS = TOP / "examples" / "c" / "naps.c"
PROMISED = TOP / "examples" / "c" / "promised.c"
RUNTIME = TOP / "examples" / "c" / "runtime"
TWO_CPUS = TOP / "examples" / "c" / "two_cpus.c"
FOUR_CPUS = TOP / "examples" / "c" / "four_cpus.c"
# What the example on four CPUs keeps, each with what stands there in one that doesn't, and what the example itself says of that.
OTHER_FORMS = {
    "the lock isn't held over the switch": (
        "\tswitch_to(own, task < 0 ? NULL : &tasks[task]);\n\tpthread_mutex_unlock(&own->lock);\n",
        "\tpthread_mutex_unlock(&own->lock);\n\tthrd_yield();\n\tswitch_to(own, task < 0 ? NULL : &tasks[task]);\n",
        "two CPUs are on one stack",
    ),
    "a CPU looks for work before it says so": (
        "\t\tatomic_store(&own->does, LOOKS);\n\t\tif (atomic_load(&turns_left) <= 0 || find_work(own))\n",
        "\t\tif (find_work(own))\n\t\t\tbreak;\n\t\tthrd_sleep(&(struct timespec){ .tv_nsec = 20000 }, NULL);\n"
        "\t\tatomic_store(&own->does, LOOKS);\n"
        "\t\ttake_turn(own, false);\n\t\tif (atomic_load(&turns_left) <= 0 || own->current)\n",
        "a CPU waits beside one that has two tasks",
    ),
    "no CPU is rung for another's task": (
        "\tif (eevdf_len(&own->queue) >= 2)\n\t\tfor (unsigned at = 0; at < CPUS; at++)\n\t\t\tring(&cpus[at]);\n",
        "",
        "a CPU waits beside one that has two tasks",
    ),
}
# The functions for memory, compiled as the rest of a program is.
BINDING = TOP / "bindings" / "c" / "eevdf_malloc.c"
# A share of time may be off by so much of the weights' share, since which worker runs a fiber changes now and then.
OFF = 0.15
# The runtime's two workers run for a second. On a machine that gives them less than so much processor time, whoever runs on a worker that
# has to wait is charged for it, and may have no time left to give it back. Such a run is done again, at most so often.
UNDISTURBED = 1.9
RUNS = 10
# A run of an example in another form is done so often until a thread comes between.
RUNS_OF_A_FORM = 100
SHARE = re.compile(r"^fiber \d+: ([\d.]+) % of the time, ([\d.]+) % of the weight$", re.MULTILINE)


def other_output(made, wanted):
    if made.returncode or made.stdout != wanted:
        return f"status {made.returncode}, prints {made.stdout!r} {ending(made.stderr)}"
    return None


def check_one_thread(tools, source):
    """An example that prints what stands beside it."""
    program, fault = tools.compile(source.stem, [source, tools.malloc_library()])
    wanted = source.with_suffix(".out").read_text()
    tools.checks.look(f"examples/c/{source.name}", fault or other_output(run([program]), wanted))


def shares_fault(made):
    shares = [tuple(map(float, found)) for found in SHARE.findall(made.stdout)]
    if made.returncode or len(shares) != 6:
        return f"status {made.returncode}, {ending(made.stdout + made.stderr)}"
    if any(abs(time - weight) > OFF * weight for time, weight in shares):
        return f"shares of time don't follow the weights:\n{made.stdout}"
    if re.search(r"^0 pulls$|slept 0 times", made.stdout, re.MULTILINE):
        return f"nobody was pulled, or nobody slept:\n{made.stdout}"
    return None


def said_of(made):
    return " ".join(f"{time}/{weight}" for time, weight in SHARE.findall(made.stdout))


def processor_time():
    used = resource.getrusage(resource.RUSAGE_CHILDREN)
    return used.ru_utime + used.ru_stime


def run_undisturbed(program):
    """What the runtime prints in a run with shares as they should be, or in one that nothing has disturbed, or that has failed; and what is
    wrong with it. None where each run was disturbed."""
    for _ in range(RUNS):
        before = processor_time()
        made = run([program])
        fault = shares_fault(made)
        if not fault or made.returncode or processor_time() - before > UNDISTURBED:
            return made, fault
    return None, None


def check_runtime(tools, label, *flags):
    name = f"examples/c/runtime{label}"
    program, fault = tools.compile(f"runtime{label}", [*sorted(RUNTIME.glob("*.c")), tools.malloc_library()], "-pthread", *flags)
    made, fault = (None, fault) if fault else run_undisturbed(program)
    if made or fault:
        tools.checks.look(name, fault, f"% of time/weight {said_of(made)}" if made else "")
    else:
        tools.checks.leave_out(name, f"the machine is too busy: in {RUNS} runs the workers had to wait for processor time")


def check_locks(tools):
    """No two threads of the runtime are in calls on one queue or hand at a time."""
    text, linked = exclusive.source_and_flags()
    source = tools.work / "exclusive.c"
    source.write_text(text)
    program, fault = tools.compile("exclusive", [*sorted(RUNTIME.glob("*.c")), source, tools.malloc_library()], "-pthread", *linked)
    made = None if fault else run([program])
    tools.checks.look("examples/c/runtime has each queue under a lock", fault or fault_of(made))


def compile_cpus(tools, example, name, text, *flags):
    """Builds an example on several CPUs with another C file."""
    source = tools.work / f"{name}.c"
    source.write_text(text)
    return tools.compile(name, [example, source, BINDING], "-pthread", *flags)


def check_cpus(tools, example):
    """An example on several CPUs prints what it should, has each queue under a lock, levels the loads by each pull, and ThreadSanitizer
    finds no calls, and nothing of its own, that no lock orders."""
    wanted = example.with_suffix(".out").read_text()
    locks, pulls = exclusive.source_and_flags(), levelling.source_and_flags()
    for label, source, flags in (("", "#include <eevdf.h>\n", ()), (", its locks", *locks), (", its pulls", *pulls)):
        program, fault = compile_cpus(tools, example, f"{example.stem}{label}", source, *flags)
        tools.checks.look(f"examples/c/{example.name}{label}", fault or other_output(run([program]), wanted))
    name = f"examples/c/{example.name}, ThreadSanitizer"
    text, linked = exclusive.told_source_and_flags()
    program, fault = compile_cpus(tools, example, f"{example.stem}-threads", text, *linked, "-g", "-fsanitize=thread")
    made = None if fault else run([program])
    if made and "unexpected memory mapping" in made.stderr:
        tools.checks.leave_out(name, "it doesn't run in this system's address space")
    else:
        tools.checks.look(name, fault or other_output(made, wanted))


def check_other_forms(tools):
    """The example on four CPUs finds the mistake where one of its rules isn't kept: in one run of some, as threads go. On one processor
    they may go so that it never comes to that."""
    text = FOUR_CPUS.read_text()
    for name, (kept, other, said) in OTHER_FORMS.items():
        if text.count(kept) != 1:
            raise RuntimeError(f"{FOUR_CPUS.name} isn't written so that {name} could stand there")
        source = tools.work / "other_form.c"
        source.write_text(text.replace(kept, other))
        program, fault = tools.compile("other_form", [source, BINDING], "-pthread")
        is_found = not fault and any(said in run([program]).stdout for _ in range(RUNS_OF_A_FORM))
        what, why = f"examples/c/{FOUR_CPUS.name} finds that {name}", f"in {RUNS_OF_A_FORM} runs it doesn't"
        if not is_found and not fault and len(os.sched_getaffinity(0)) == 1:
            tools.checks.leave_out(what, f"{why}, on one processor")
        else:
            tools.checks.look(what, fault or (None if is_found else why))


def block(page, beginning):
    """The indented block of a page that begins so, without its margin."""
    text = (TOP / page).read_text()
    indented = re.search(r"(?:^(?: {4}.*)?\n)+", text[text.index(f"    {beginning}") :], re.MULTILINE)[0]
    return re.sub(r"^ {4}", "", indented, flags=re.MULTILINE)


def check_pages(tools):
    """The programs with which README.md and docs/embedding-c.md begin compile as they stand there. They aren't linked, since what runs a
    task is the reader's own."""
    for page in ("README.md", "docs/embedding-c.md"):
        program = block(page, "#include <eevdf.h>")
        made = run([tools.cc, *C11, "-c", "-o", tools.work / "page.o", "-x", "c", "-"], input=program)
        tools.checks.look(f"the program of {page}", fault_of(made))


def check(tools):
    check_pages(tools)
    check_one_thread(tools, FIRST)
    check_one_thread(tools, TICKLESS)
    check_one_thread(tools, OWN_NUMBERS)
    check_one_thread(tools, NAPS)
    check_one_thread(tools, PROMISED)
    check_runtime(tools, "")
    check_runtime(tools, ", sanitized", *SANITIZED)
    check_locks(tools)
    check_cpus(tools, TWO_CPUS)
    check_cpus(tools, FOUR_CPUS)
    check_other_forms(tools)

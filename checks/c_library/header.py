"""The header as C99, C11, C++11 and C++17, with all warnings, by each compiler that there is; a small program of each, linked and run, and
compiled without any other header, and for a kernel that isn't Linux; and the sizes and fields of the header, which have to be those of the
crate."""

import re
import shutil

from tools import TOP, WARNINGS, fault_of, run

# A program that includes the header twice and uses each of its types and limits.
PROGRAM = """
#include <eevdf.h>
#include <eevdf.h>

static eevdf_queue queue;
static eevdf_hand hand;

static int is_moved(void)
{
	eevdf_entry entry = { 0, 0, 0, 0 };
	eevdf_sleeper sleeper = { 0, 0, 0 };
	eevdf_place place = { 0, 0 };
	eevdf_parcel parcel = { 0, 0, 0, 0, 0 };

	return eevdf_take(&queue, &hand, EEVDF_TASKS - 1) == 0 && eevdf_hand_parcel(&hand, &parcel) == 0 &&
	       parcel.task == EEVDF_TASKS - 1 && eevdf_put(&queue, &hand) == 0 &&
	       eevdf_sleeper_of(&queue, EEVDF_TASKS - 1, &sleeper) == EEVDF_ABSENT && sleeper.slice_ns == 0 &&
	       eevdf_place_of(&queue, EEVDF_TASKS - 1, &place) == EEVDF_ABSENT && place.low == 0 &&
	       eevdf_entry_of(&queue, EEVDF_TASKS - 1, &entry) == 0 && entry.slice_ns == EEVDF_SLICE_MAX;
}

int main(void)
{
	int is_admitted, is_right;

	eevdf_open(&queue);
	eevdf_hand_open(&hand);
	is_admitted = eevdf_admit(&queue, EEVDF_TASKS - 1, EEVDF_NICE_MIN, EEVDF_SLICE_MAX, -EEVDF_TIME_MAX) == 0;
	is_right = is_admitted && is_moved() && eevdf_tick(&queue, EEVDF_TICK_MAX) == EEVDF_ABSENT;
	eevdf_hand_close(&hand);
	eevdf_close(&queue);
	return !is_right || eevdf_version() != EEVDF_VERSION;
}
"""
# Ignores the answer of each call whose answer has to be looked at.
IGNORING = """
#include <eevdf.h>

void ignore(eevdf_queue *queue, eevdf_queue *other, eevdf_hand *hand);

void ignore(eevdf_queue *queue, eevdf_queue *other, eevdf_hand *hand)
{
	eevdf_take_any(queue, hand);
	eevdf_put(queue, hand);
	eevdf_put_asleep(queue, hand);
	eevdf_pull(queue, other);
	eevdf_pull_task(queue, other, 0);
}
"""
COMPILERS = (
    ("gcc", "c", ("c99", "c11"), "gcc"),
    ("clang", "c", ("c99", "c11"), "clang"),
    ("g++", "c++", ("c++11", "c++17"), "g++"),
    ("clang++", "c++", ("c++11", "c++17"), "clang"),
)


# Where the crate says how large what crosses to C is.
SOURCES = TOP / "crates" / "eevdf_c" / "src"
CALLERS = TOP / "checks" / "c_library" / "callers"
SIZE = r"size_of::<{}>\(\) == (\d+)"
SIZES = (
    ("opened.rt", "Opened", "EEVDF_QUEUE_SIZE"),
    ("hand.rt", "Hand", "EEVDF_HAND_SIZE"),
    ("fair_bounds.rt", "FairBounds", "EEVDF_BOUNDS_SIZE"),
    ("fair_shares.rt", "FairShares", "EEVDF_SHARES_SIZE"),
)
# The structs with fields that C reads, and the names of their types in C.
STRUCTS = (
    ("entry_out.rt", "EntryOut", "eevdf_entry"),
    ("sleeper_out.rt", "SleeperOut", "eevdf_sleeper"),
    ("place_out.rt", "PlaceOut", "eevdf_place"),
    ("parcel_out.rt", "ParcelOut", "eevdf_parcel"),
)
TYPES = {"i64": "int64_t", "u64": "uint64_t"}


# Where the header says who asks for memory and who gives it back, once its comments have no margins.
ASKERS = re.compile(r"eevdf_alloc is called by (.*?) alone, and eevdf_dealloc by (.*?)\.")
# A comment with the call that it belongs to, and an export with its contract.
COMMENTED = re.compile(r"/\*((?:(?!\*/).)*)\*/\n(?:EEVDF_MUST_CHECK\n)?(?:int64_t|void) (eevdf_\w+)\(", re.DOTALL)
EXPORT = re.compile(r'extern "C" fn (eevdf_\w+)\((.*?)^{', re.DOTALL | re.MULTILINE)


def names_in(text):
    return set(re.findall(r"\beevdf_\w+", text))


def other_askers():
    """Of the calls that ask for memory or give it back, where their contracts, their comments or the test of refused requests disagree
    with what the header says of the two functions for memory."""
    header = (TOP / "include" / "eevdf.h").read_text()
    said = ASKERS.search(re.sub(r"\n \* ?", " ", header))
    if not said:
        return "it doesn't say who calls eevdf_alloc"
    ask, give = map(names_in, said.groups())
    exports = "".join(file.read_text() for file in (SOURCES / "exports").glob("*.rt"))
    refused = re.findall(r"return (eevdf_\w+)\(", (CALLERS / "memory.c").read_text())
    others = (
        ("may answer NO_MEMORY by contract", {name for name, contract in EXPORT.findall(exports) if "admits.IsAnswer" in contract}, ask),
        ("are refused a request in memory.c", set(refused), ask),
        ("have 'Interrupts: as memory'", {name for comment, name in COMMENTED.findall(header) if "as memory." in comment}, ask | give),
    )
    return "; ".join(f"other calls {what}: {', '.join(sorted(found ^ wanted))}" for what, found, wanted in others if found != wanted)


def fields_of_header(name):
    """The types and names of the fields of a struct of the header, in order."""
    header = (TOP / "include" / "eevdf.h").read_text()
    body = re.search(rf"^typedef struct {name} {{\n(.*?)^}} {name};", header, re.MULTILINE | re.DOTALL)[1]
    return re.findall(r"^\t(\w+) (\w+);$", body, re.MULTILINE)


def fields_of_source(source, name):
    """The same of a struct of Rust or Rattle, with the types as C has them."""
    body = re.search(rf"^pub struct {name} {{\n(.*?)^}}", source, re.MULTILINE | re.DOTALL)[1]
    return [(TYPES[kind], field) for field, kind in re.findall(r"^    pub (\w+): (\w+),$", body, re.MULTILINE)]


def other_fields():
    """The structs that have other fields in the crate, or none."""
    for file, name, in_c in STRUCTS:
        fields = fields_of_source((SOURCES / file).read_text(), name)
        if not fields or fields != fields_of_header(in_c):
            yield f"{in_c} isn't {fields}"


def other_sizes():
    """The sizes that aren't the crate's."""
    header = (TOP / "include" / "eevdf.h").read_text()
    for file, name, macro in SIZES:
        proved = re.search(SIZE.format(name), (SOURCES / file).read_text())[1]
        if f"#define {macro} {proved}\n" not in header:
            yield f"{macro} isn't {proved}"


def check_compiled(tools, compiler, language, standard):
    """By one compiler and one standard: the program runs, and is compiled without any header of the compiler's too, and with `__KERNEL__`,
    which other kernels than Linux may define."""
    # each has a program of its own, so that none is taken for another's
    program = tools.work / f"header-{compiler}-{standard}"
    words = [compiler, f"-std={standard}", *WARNINGS, f"-I{TOP / 'include'}", "-o", program]
    source = ["-x", language, "-", "-x", "none"]
    fault = fault_of(run([*words, *source, tools.malloc_library(), tools.archive], input=PROGRAM))
    tools.checks.look(f"eevdf.h as {standard} by {compiler}", fault or fault_of(run([program])))
    for flag in ("-nostdinc", "-D__KERNEL__"):
        fault = fault_of(run([*words, flag, "-ffreestanding", "-c", *source], input=PROGRAM))
        tools.checks.look(f"eevdf.h as {standard} by {compiler} {flag}", fault)


def check_ignored(tools, compiler, language, standard):
    """Each answer that is ignored is warned of, and nothing else."""
    words = [compiler, f"-std={standard}", *WARNINGS, "-Wno-error", f"-I{TOP / 'include'}", "-c", "-o", tools.work / "ignoring.o"]
    made = run([*words, "-x", language, "-"], input=IGNORING)
    warned = re.findall(r"^<stdin>:(\d+):.*warning: .*\[-W(.*)\]$", made.stderr, re.MULTILINE)
    ignored = [(str(at), "unused-result") for at, line in enumerate(IGNORING.splitlines(), 1) if line.startswith("\teevdf_")]
    is_right = made.returncode == 0 and warned == ignored
    tools.checks.look(f"eevdf.h as {standard} by {compiler}: ignored answers", None if is_right else f"says {made.stderr}")


def check(tools):
    if SOURCES.exists():
        tools.checks.look("eevdf.h has the sizes that are proved", ", ".join(other_sizes()))
        tools.checks.look("eevdf.h has the fields of the crate", ", ".join(other_fields()))
        tools.checks.look("eevdf.h names the calls that ask for memory", other_askers())
    for compiler, language, standards, package in COMPILERS:
        if not shutil.which(compiler):
            tools.checks.skip(f"eevdf.h by {compiler}", compiler, package)
            continue
        for standard in standards:
            check_compiled(tools, compiler, language, standard)
            check_ignored(tools, compiler, language, standard)

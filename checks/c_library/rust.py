"""The crate for Rust: that its sizes, codes, version and calls are the header's, its tests and those of its pages with warnings as errors,
also without boxes and over the library for kernels, and that it is formatted, has nothing that clippy warns of, and can be packed."""

import os
import re
import shutil

from header import fields_of_header, fields_of_source
from object_file import declared, difference
from tools import TOP, fault_of, run

FOLDER = TOP / "bindings" / "rust"
# The calls that it makes others in the place of: they ask for memory, or give it back, by a name of the linker's, or are those of bounds
# without shares.
LEFT_OUT = {"eevdf_admit", "eevdf_end", "eevdf_fair_admit", "eevdf_fair_tick", "eevdf_fair_rebase"}
# The structs with fields, by the file that has them, and their names in C.
STRUCTS = (
    ("queue.rs", "Entry", "eevdf_entry"),
    ("queue.rs", "Sleeper", "eevdf_sleeper"),
    ("calls.rs", "Place", "eevdf_place"),
    ("hand.rs", "Parcel", "eevdf_parcel"),
)


# A program that ignores the answers by which a task or its memory may be lost, or which task has moved.
IGNORING = """
use eevdf::{Hand, HandMemory, Queue};

#[test]
fn answers_are_ignored() {
    let (mut memory, mut queue, mut other) = (HandMemory::new(), Queue::boxed(), Queue::boxed());
    let mut hand = Hand::open(&mut memory);
    queue.take_any(&mut hand);
    queue.put(&mut hand);
    queue.put_asleep(&mut hand);
    queue.pull(&mut other);
    queue.pull_task(&mut other, 0);
    queue.end_out(0);
    hand.end_out();
}
"""


def source(name):
    return (FOLDER / "src" / name).read_text()


def numbers_of_header():
    """The sizes of a queue, a hand, bounds and shares, and the code of each error, by name."""
    header = (TOP / "include" / "eevdf.h").read_text()
    sizes = re.findall(r"^#define EEVDF_(QUEUE|HAND|BOUNDS|SHARES)_SIZE (\d+)$", header, re.MULTILINE)
    return {*sizes, *re.findall(r"^\s+EEVDF_(\w+) = (-\d+)", header, re.MULTILINE)}


def numbers_of_crate():
    sizes = re.findall(r"struct (Queue|Hand|Bounds|Shares)Memory\(.*MaybeUninit<\[u8; (\d+)\]>", source("memory.rs"))
    codes = [(variant, code) for code, variant in re.findall(r"(-\d+) => Error::(\w+)", source("error.rs"))]
    # every other code is taken for this one
    codes += [(variant, "-22") for variant in re.findall(r"\b_ => Error::(\w+)", source("error.rs"))]
    return {(name.upper(), number) for name, number in sizes} | {(upper_name(variant), code) for variant, code in codes}


def upper_name(variant):
    """A variant under the header's name: NoMemory is NO_MEMORY there."""
    return re.sub(r"(?<=[a-z])(?=[A-Z])", "_", variant).upper()


def version_of_header():
    parts = re.findall(r"^#define EEVDF_VERSION_(?:MAJOR|MINOR|PATCH) (\d+)$", (TOP / "include" / "eevdf.h").read_text(), re.MULTILINE)
    return sum(int(part) * unit for part, unit in zip(parts, (1000000, 1000, 1), strict=True))


def other_version():
    """What differs between the versions of the header, of the crate and of the library that the crate is written for."""
    wanted = version_of_header()
    written_for = int(re.search(r"^const VERSION: i64 = (\d+);$", source("lib.rs"), re.MULTILINE)[1])
    own = re.search(r'^version = "(\d+)\.(\d+)\.(\d+)"$', (FOLDER / "Cargo.toml").read_text(), re.MULTILINE)
    major, minor, patch = map(int, own.groups())
    has = major * 1000000 + minor * 1000 + patch
    return None if written_for == has == wanted else f"{has}, written for {written_for}, where the header has {wanted}"


def check_names(tools):
    calls = set(re.findall(r"pub fn (eevdf_\w+)\(", source("calls.rs")))
    tools.checks.look("bindings/rust has the header's calls", difference(calls, declared() - LEFT_OUT))
    tools.checks.look("bindings/rust has the header's sizes and codes", difference(numbers_of_crate(), numbers_of_header()))
    tools.checks.look("bindings/rust has the header's version", other_version())
    other = [name for file, name, in_c in STRUCTS if fields_of_source(source(file), name) != fields_of_header(in_c)]
    tools.checks.look("bindings/rust has the header's fields", other and f"not those of {', '.join(other)}")


def cargo(tools, *words, prefix="prefix"):
    flags = "-D warnings"
    env = {**os.environ, "EEVDF_LIB_DIR": str(tools.work / prefix / "lib"), "CARGO_TARGET_DIR": str(tools.work / "cargo"),
           "RUSTFLAGS": flags, "RUSTDOCFLAGS": flags}
    offline = [] if words[0] == "fmt" else ["--offline"]
    made = run(["cargo", *words, *offline, "--manifest-path", tools.work / "rust" / "Cargo.toml"], env=env)
    return made, fault_of(made)


def check(tools):
    """After `./install`."""
    check_names(tools)
    if not shutil.which("cargo") or not shutil.which("rustc"):
        tools.checks.skip("bindings/rust", "cargo or rustc", "cargo and rustc")
        return
    # a copy, so that the tree isn't written to
    shutil.copytree(FOLDER, tools.work / "rust", ignore=shutil.ignore_patterns("target", "Cargo.lock"))
    check_tests(tools)
    if not tools.module:
        check_form(tools)


def check_form(tools):
    for name, command, package, words in (
        ("cargo fmt", "cargo-fmt", "rustfmt", ("fmt", "--check")),
        ("cargo clippy", "cargo-clippy", "rust-clippy", ("clippy", "--all-targets", "--features", "malloc")),
    ):
        # rustup puts each command in place, also where what it would run isn't installed
        if run(["cargo", words[0], "--version"]).returncode:
            tools.checks.skip(f"bindings/rust: {name}", command, package)
        else:
            tools.checks.look(f"bindings/rust: {name}", cargo(tools, *words)[1])
    tools.checks.look("bindings/rust: cargo package", cargo(tools, "package", "--allow-dirty")[1])


def check_ignored(tools):
    """Who ignores such an answer is warned of each, with the reason."""
    test = tools.work / "rust" / "tests" / "ignoring.rs"
    test.write_text(IGNORING)
    made, _ = cargo(tools, "check", "--test", test.stem)
    test.unlink()
    warned = re.findall(r"unused return value of `\w+::<'a>::(\w+)` that must be used", made.stderr)
    ignored = re.findall(r"^    (?:queue|hand)\.(\w+)\(", IGNORING, re.MULTILINE)
    tools.checks.look("bindings/rust: ignored answers", None if warned == ignored else f"{ignored} are ignored, and {warned} warned of")


def check_without_library(tools):
    """Where there is no library the pages are made all the same, and a build says how to get one."""
    tools.checks.look("bindings/rust without the library: cargo doc", cargo(tools, "doc", "--no-deps", prefix="nowhere")[1])
    made, fault = cargo(tools, "build", prefix="nowhere")
    says = all(word in made.stderr for word in ("./build eevdf_c", "./install PREFIX", "EEVDF_LIB_DIR"))
    tools.checks.look("bindings/rust without the library: cargo build", None if fault and says else f"says {fault}")


def check_tests(tools):
    made, fault = cargo(tools, "test")
    count = sum(int(line.split()[3]) for line in made.stdout.splitlines() if line.startswith("test result: ok."))
    tools.checks.look("bindings/rust: cargo test", fault or (None if count else "no test was run"), f"{count} tests")
    check_ignored(tools)
    check_without_library(tools)
    tools.checks.look("bindings/rust: cargo doc", cargo(tools, "doc", "--no-deps")[1])
    tools.checks.look("bindings/rust with malloc: cargo test", cargo(tools, "test", "--features", "malloc")[1])
    tools.checks.look("bindings/rust without boxes: cargo test", cargo(tools, "test", "--no-default-features")[1])
    if tools.module:
        made, fault = cargo(tools, "test", "--features", "kernel", prefix="kernel")
        tools.checks.look("bindings/rust over the library for kernels: cargo test", fault)

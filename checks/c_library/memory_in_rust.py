"""A program in Rust over bindings/rust whose functions for memory stand in another crate, which is an archive to the linker: the calls of C
ask these, whichever feature bindings/rust has."""

import os
import shutil

from tools import TOP, fault_of, run

FOLDER = TOP / "checks" / "c_library" / "callers" / "own_memory"
SAYS = "own\ngiven back\n"


def check_one(tools, name, prefix, *words):
    env = {**os.environ, "EEVDF_LIB_DIR": str(tools.work / prefix / "lib"), "CARGO_TARGET_DIR": str(tools.work / "cargo_memory")}
    made = run(["cargo", "run", "--quiet", "--offline", "--manifest-path", tools.work / "rust_memory" / "Cargo.toml", *words], env=env)
    other = None if made.stdout == SAYS else f"prints {made.stdout!r}"
    tools.checks.look(f"functions for memory in a crate of Rust's{name}", fault_of(made) or other)


def check(tools):
    """After `./install`."""
    if not shutil.which("cargo") or not shutil.which("rustc"):
        tools.checks.skip("functions for memory in a crate of Rust's", "cargo or rustc", "cargo and rustc")
        return
    # a copy, so that the tree isn't written to
    shutil.copytree(FOLDER, tools.work / "rust_memory")
    manifest = tools.work / "rust_memory" / "Cargo.toml"
    manifest.write_text(manifest.read_text().replace("../../../../bindings/rust", str(TOP / "bindings" / "rust")))
    if tools.module:
        check_one(tools, ", over the library for kernels", "kernel", "--features", "kernel")
        return
    check_one(tools, "", "prefix")
    check_one(tools, ", with malloc", "prefix", "--features", "malloc")

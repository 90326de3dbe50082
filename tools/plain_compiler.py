"""Compiles a program without a proof as checks/ runs it: so that it stops at an overflow, at an index out of bounds and at a cast that
loses bits, but without the address sanitizer, which `rt try` adds. With that a program has an allocator and 20 TiB of addresses of its
own, so none of its requests for memory could be counted, refused or limited, and it takes many times as long. So `rt try` is ended when it
has made the module of the program, and the kit's own compiler and linker do the rest, by the words that `rt try` gives them."""

import os
import shutil
import subprocess
import tempfile
import time
from contextlib import suppress
from pathlib import Path

from try_compiler import (
    PAUSE, NotCompiled, end_look_at_names, ending_in_order, files_below, temporary_folder, text_of, trying, wait_for_end
)

# What `rt try` gives its compiler: the module, which is whole when the compiler writes beside it.
MODULE, BEGUN = "module.bc", ("*.o.tmp", "*.o")
# A name in the module of a program: another one is compiled first, which has a few words for the sanitizer.
CHECKS = b"rattle-llvm-checks"

# The same words as for a program of `rt try`, but without the sanitizer, and -O1 in place of -O0, with which it takes some times as long.
# The checks are branches to a trap, which an optimizer leaves where they may be taken.
COMPILED = ("--target=x86_64-unknown-linux-gnu", "-march=x86-64", "-mllvm", "-no-trap-after-noreturn", "-ffunction-sections",
            "-fdata-sections", "-mllvm", "-trap-unreachable", "-mllvm", "-no-x86-call-frame-opt", "-mllvm", "-disable-machine-licm",
            "-mllvm", "-disable-postra-machine-licm", "-mllvm", "-sink-common-insts=false", "--no-default-config",
            "-no-canonical-prefixes", "-fno-crash-diagnostics", "-c", "-x", "ir", "-fPIE", "-O1")
LINKED = ("-m", "elf_x86_64", "-pie", "--dynamic-linker", "/lib64/ld-linux-x86-64.so.2", "--as-needed", "-z", "relro", "-z", "now",
          "-z", "noexecstack", "--eh-frame-hdr", "--gc-sections", "--no-dependent-libraries", "--fatal-warnings", "--threads=1")
BEGINS = ("Scrt1.o", "crti.o", "crtbeginS.o")
LIBRARIES = ("libos_c.a", "liblibc_c.a")
ENDS = ("libm.so.6", "libc.so.6", "libc_nonshared.a", "ld-linux-x86-64.so.2", "libgcc.a", "libgcc_s.so.1", "crtendS.o", "crtn.o")


def kit():
    """The folder of the kit."""
    return Path(shutil.which("rt")).resolve().parents[1]


def module_in(folder):
    """The bytes of the program's module, or None where it isn't whole yet."""
    for path in files_below(folder):
        if path.name == MODULE and any(any(path.parent.glob(it)) for it in BEGUN):
            with suppress(OSError):
                module = path.read_bytes()
                if CHECKS in module:
                    return module
    return None


def wait_for_module(rt, folder, look):
    """The bytes of the program's module, or None where `rt` ends without one."""
    while True:
        look()
        has_ended = rt.poll() is not None
        end_look_at_names(rt)
        module = module_in(folder)
        if module is not None or has_ended:
            return module
        time.sleep(PAUSE)


def run_tool(words, folder, said, look):
    """Runs a tool of the kit in a folder."""
    tool = subprocess.Popen(words, cwd=folder, stdin=subprocess.DEVNULL, stdout=said, stderr=said)
    try:
        wait_for_end(tool, look)
    finally:
        tool.kill()
        tool.wait()
    if tool.returncode:
        raise NotCompiled(text_of(said))


def link_module(module, folder, said, look):
    """Compiles a module and links it, and gives the number of the open file."""
    top = kit()
    tools, libraries = top / "toolchain" / "bin", top / "toolchain" / "lib"
    (folder / MODULE).write_bytes(module)
    run_tool([tools / "clang", f"--sysroot={top / 'toolchain'}", *COMPILED, MODULE, "-o", "module.o"], folder, said, look)
    linked = [*(libraries / it for it in BEGINS), "module.o", *(top / "c" / it for it in LIBRARIES), *(libraries / it for it in ENDS)]
    run_tool([tools / "ld.lld", *LINKED, "-o", "program", *linked], folder, said, look)
    return os.open(folder / "program", os.O_RDONLY)


def compile_plain_program(program):
    """The number of the open file of the program, which stands in no folder any more."""
    with ending_in_order() as look, open(os.devnull, "rb") as given, tempfile.TemporaryFile() as said, temporary_folder(program) as folder:
        with trying(program, folder, given, said) as rt:
            module = wait_for_module(rt, folder, look)
        if module is None:
            raise NotCompiled(text_of(said))
        made = Path(folder) / "plain"
        made.mkdir()
        return link_module(module, made, said, look)

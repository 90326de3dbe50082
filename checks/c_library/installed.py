"""What `./install` puts below a folder: programs are built over it by pkg-config and by CMake, there is a manual page for each call, and
all is gone after `--uninstall`."""

import os
import shutil

from examples import FIRST, other_output
from object_file import MEMORY, declared
from tools import TOP, WARNINGS, fault_of, run

CMAKE = """
cmake_minimum_required(VERSION 3.13)
project(first C)
find_package(eevdf {version} REQUIRED)
add_executable(first "{source}")
target_link_libraries(first eevdf::eevdf)
"""


def install(tools, *words, **env):
    return run([TOP / "install", *words], env={**os.environ, "CC": tools.cc, **env})


def check_pkg_config(tools, prefix):
    """The command of README, with the flags before the file, behind it and twice; and a program that has its own functions for memory."""
    if not shutil.which("pkg-config"):
        tools.checks.skip("programs by pkg-config", "pkg-config", "pkg-config")
        return
    asked = run(["pkg-config", "--cflags", "--libs", "eevdf"], env={**os.environ, "PKG_CONFIG_PATH": str(prefix / "lib" / "pkgconfig")})
    flags = asked.stdout.split()
    wanted = FIRST.with_suffix(".out").read_text()
    for name, words in (("flags first", [*flags, FIRST]), ("flags last", [FIRST, *flags]), ("flags twice", [*flags, FIRST, *flags])):
        program = tools.work / f"installed, {name}"
        fault = fault_of(asked) or fault_of(run([tools.cc, "-std=c11", *WARNINGS, *words, "-o", program]))
        tools.checks.look(f"a program by pkg-config, {name}", fault or other_output(run([program]), wanted))
    program = tools.work / "installed, own memory"
    fault = fault_of(asked) or fault_of(run([tools.cc, "-std=c11", *flags, tools.callers / "errors.c", "-o", program]))
    tools.checks.look("a program by pkg-config with its own functions for memory", fault or fault_of(run([program])))


def check_blank(tools):
    """Below a folder with a blank in its name pkg-config gives words of the shell's, by which a program is built."""
    if not shutil.which("pkg-config"):
        return
    prefix, program = tools.work / "a prefix", tools.work / "below a blank"
    made = install(tools, prefix, ARCHIVE=str(tools.for_programs))
    command = r'eval "$0 -std=c11 $(pkg-config --cflags --libs eevdf) \"\$1\" -o \"\$2\""'
    built = run(["sh", "-c", command, tools.cc, FIRST, program], env={**os.environ, "PKG_CONFIG_PATH": str(prefix / "lib" / "pkgconfig")})
    fault = fault_of(made) or fault_of(built)
    wanted = FIRST.with_suffix(".out").read_text()
    tools.checks.look("a program by pkg-config, a blank in the folder", fault or other_output(run([program]), wanted))
    left = install(tools, "--uninstall", prefix)
    files = ", ".join(file.name for file in prefix.rglob("*") if file.is_file())
    tools.checks.look("./install --uninstall, a blank in the folder", fault_of(left) or files)


def check_cmake(tools, prefix):
    name = "a program by CMake"
    for tool in ("cmake", "make"):
        if not shutil.which(tool):
            tools.checks.skip(name, tool, tool)
            return
    folder = tools.work / "cmake"
    folder.mkdir()

    def built(version):
        (folder / "CMakeLists.txt").write_text(CMAKE.format(version=version, source=FIRST))
        asked = run(["cmake", "-S", folder, "-B", folder / "out", f"-DCMAKE_PREFIX_PATH={prefix}"], env={**os.environ, "CC": tools.cc})
        return fault_of(asked) or fault_of(run(["cmake", "--build", folder / "out"]))

    refused = built("0.2")
    is_found = refused and "eevdf-config.cmake, version:" in refused
    tools.checks.look("no program by CMake for another version", None if is_found else refused or "it is built")
    fault = built("0.8")
    tools.checks.look(name, fault or other_output(run([folder / "out" / "first"]), FIRST.with_suffix(".out").read_text()))


def check_pages(tools, prefix):
    """A manual page for each call, which troff prints without a word."""
    pages = sorted((prefix / "share" / "man" / "man3").glob("*.3"))
    missing = {*declared(), *MEMORY, "eevdf", "rattle_alloc", "rattle_dealloc"} ^ {page.stem for page in pages}
    tools.checks.look("a manual page for each call", ", ".join(sorted(missing)), f"{len(pages)} pages")
    if not shutil.which("groff"):
        tools.checks.skip("the manual pages are printed", "groff", "groff")
        return
    made = run(["groff", "-ww", "-man", "-Tutf8", *pages])
    tools.checks.look("the manual pages are printed", fault_of(made) or made.stderr)


def check(tools):
    prefix = tools.work / "prefix"
    made = install(tools, prefix, ARCHIVE=str(tools.for_programs))
    tools.checks.look("./install", fault_of(made), made.stdout.strip())
    check_pkg_config(tools, prefix)
    check_blank(tools)
    check_cmake(tools, prefix)
    check_pages(tools, prefix)
    if tools.module and shutil.which("pkg-config"):
        check_kernel_package(tools)
    if not tools.module:
        check_shared(tools)
    check_uninstalled(tools)


def check_shared(tools):
    """Over the shared library the example prints what it should, and a program that defines the functions for memory has its own."""
    prefix = tools.work / "shared"
    made = install(tools, "--shared", prefix, ARCHIVE=str(tools.archive))
    tools.checks.look("./install --shared", fault_of(made), made.stdout.strip())
    words = ["-std=c11", f"-I{prefix / 'include'}", f"-L{prefix / 'lib'}", "-leevdf", f"-Wl,-rpath,{prefix / 'lib'}"]
    for source in (FIRST, tools.callers / "memory.c"):
        program = tools.work / f"shared-{source.stem}"
        fault = fault_of(run([tools.cc, source, *words, "-o", program]))
        made = None if fault else run([program])
        wanted = source.with_suffix(".out")
        fault = fault or (other_output(made, wanted.read_text()) if wanted.exists() else fault_of(made))
        tools.checks.look(f"{source.name} over the shared library", fault)


def check_kernel_package(tools):
    """A program takes the library for kernels by pkg-config too."""
    prefix, name = tools.work / "kernel", "a program by pkg-config over the library for kernels"
    made = install(tools, "--kernel", prefix, MODULE=str(tools.module))
    asked = run(["pkg-config", "--cflags", "--libs", "eevdf_kernel"],
                env={**os.environ, "PKG_CONFIG_PATH": str(prefix / "lib" / "pkgconfig")})
    words = [*asked.stdout.split(), tools.callers / "errors.c", "-o", tools.work / "kernel-package"]
    fault = fault_of(made) or fault_of(asked) or fault_of(run([tools.cc, "-std=c11", *words]))
    tools.checks.look(name, fault or fault_of(run([tools.work / "kernel-package"])), made.stdout.strip())


def check_uninstalled(tools):
    """Below another folder that DESTDIR names, of which no file that is installed says anything."""
    below, prefix = tools.work / "below", "/opt/eevdf"
    if tools.module:
        made = install(tools, "--kernel", "--thunks", prefix, MODULE=str(tools.module), DESTDIR=str(below))
    else:
        made = install(tools, prefix, ARCHIVE=str(tools.archive), DESTDIR=str(below))
    files = [file for file in below.rglob("*") if file.is_file()]
    names = [file.name for file in files if str(below).encode() in file.read_bytes()]
    fault = fault_of(made) or (", ".join(names) and f"DESTDIR stands in {', '.join(names)}") or (None if files else "nothing is installed")
    tools.checks.look("./install by DESTDIR", fault, f"{len(files)} files")
    gone = install(tools, "--uninstall", prefix, DESTDIR=str(below))
    left = ", ".join(file.name for file in below.rglob("*") if file.is_file())
    tools.checks.look("./install --uninstall", fault_of(gone) or left)

"""The object of the library in an archive for programs, compiled once more, so that a program over it keeps the marks that its control flow
is protected: `rattle build` takes no flag for them. It is compiled from the module that is kept, which gives what stands in the archive,
byte for byte, where it has no marks."""

import subprocess
import tempfile
from dataclasses import replace
from pathlib import Path

from kept_module import KeptModule
from kernel_archive import ALL_PROGRAMS, NotMade, compile_module, run


def object_in(tools, archive):
    """The name and the bytes of an archive's only object."""
    name = subprocess.run([tools / "llvm-ar", "t", archive], capture_output=True, check=True, text=True).stdout.strip()
    return name, subprocess.run([tools / "llvm-ar", "p", archive], capture_output=True, check=True).stdout


def protect(tools, archive, module):
    """Puts the object with its marks in the place of the one without."""
    kept = KeptModule.read(module)
    variant = ALL_PROGRAMS[kept.target]
    name, built = object_in(tools, archive)
    with tempfile.TemporaryDirectory() as held:
        made = Path(held) / name
        compile_module(tools, kept, replace(variant, attributes=(), marks=()), made)
        if made.read_bytes() != built:
            raise NotMade(f"the module of {archive.name} gives another object than stands in it")
        compile_module(tools, kept, variant, made)
        run(tools / "llvm-ar", "rcsD", archive, made)

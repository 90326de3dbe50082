"""C files whose functions the linker takes in the place of calls of the library (--wrap)."""

import re

from object_file import MEMORY
from tools import TOP

DECLARATION = re.compile(r"^(int64_t|void) eevdf_(\w+)\(([^;]*)\);$", re.MULTILINE)


def declarations():
    """What the header declares: each call with its result's type and its parameters."""
    found = DECLARATION.findall((TOP / "include" / "eevdf.h").read_text())
    return {name: (kind, " ".join(parameters.split())) for kind, name, parameters in found if f"eevdf_{name}" not in MEMORY}


def arguments(parameters):
    return re.findall(r"(\w+)(?:,|$)", parameters.removesuffix("void"))


def function(call, body):
    """A function in the place of a call. In its body RIGHT is the call that was meant."""
    kind, parameters = declarations()[call]
    return f"""
#undef RIGHT
#define RIGHT __real_eevdf_{call}({", ".join(arguments(parameters))})
{kind} __real_eevdf_{call}({parameters});
{kind} __wrap_eevdf_{call}({parameters});
{kind} __wrap_eevdf_{call}({parameters}) {{ {body} }}
"""


def flags(calls):
    return [f"-Wl,--wrap=eevdf_{call}" for call in calls]

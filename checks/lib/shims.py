"""The C files of checks/faults as libraries that are loaded before the C library.

The environment tells them at which call they stop the program, or which allocation they refuse.
"""

import subprocess

from program import ROOT

FAULTS = ROOT / "checks/faults"


def stopping(how, number, library, reached):
    """The environment in which the call of this number is stopped; the file `reached` is made then."""
    if how == "refuse":
        named = {"FAIL_ALLOC": number, "FAIL_ALLOC_REACHED": reached}
    else:
        named = {"STOP_AT": number, "STOP_HOW": how, "STOP_REACHED": reached}
    return {"LD_PRELOAD": str(library), **{name: str(value) for name, value in named.items()}}


def compile_library(room, name):
    """Builds a file of checks/faults as a library for a program, in this folder."""
    library = room / f"{name}.so"
    subprocess.run(["cc", "-shared", "-fPIC", "-O1", "-o", library, FAULTS / f"{name}.c", "-ldl"], check=True)
    return library

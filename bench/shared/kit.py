"""What scripts of bench/ have in common: where the root is, mutants, and the loops.

A script puts this folder on its path, and what it imports from here puts that of `tools` there.
"""
import glob
import os
import sys

SHARED = os.path.dirname(os.path.realpath(__file__))
ROOT = os.path.dirname(os.path.dirname(SHARED))
sys.path.append(f"{ROOT}/tools")

# The loops, and the further class files of one.
LOOPS = ("Sum", "Statics", "Mixed", "Longs", "Conversions", "Switches", "Arrays", "Fields", "Calls", "VirtualCalls",
         "InterfaceCalls", "Objects", "Exceptions", "Prints", "Interpreter", "Sort", "Sieve", "Matrix", "Fib")
MORE_FILES = {"InterfaceCalls": ["InterfaceCallsStep"]}


def edits_beside(crate):
    """The files edits/CRATE/*.edit, which the gate does not try."""
    return sorted(glob.glob(f"{ROOT}/edits/{crate}/*.edit"))


def edits_of_gate(crate):
    """The files crates/CRATE/must-fail/*.edit, which the gate tries."""
    return sorted(glob.glob(f"{ROOT}/crates/{crate}/must-fail/*.edit"))


def source(crate, file):
    """The text of a file of a crate."""
    with open(f"{ROOT}/crates/{crate}/{file}", encoding="utf-8") as it:
        return it.read()


def answers(crate, module, function):
    """The texts of what is written of the proofs of the functions of a name."""
    for path in glob.glob(f"{ROOT}/crates/{crate}/proofs/{module}/**/{function}/*.antt", recursive=True):
        with open(path, encoding="utf-8") as it:
            yield it.read()

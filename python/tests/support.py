"""What the tests share: the program that they run, and NumPy where it is installed."""

import os
import pathlib
import sys
import unittest

TOP = pathlib.Path(__file__).resolve().parents[2]
sys.path.insert(0, str(TOP / "python"))
BUILT = [TOP / "crates" / "simdram" / "out" / name for name in ("simdram", "unproved")]

try:
    import numpy
except ImportError:
    numpy = None


def program():
    """The program under test: SIMDRAM_PROGRAM, else the one that stands built, else None."""
    named = os.environ.get("SIMDRAM_PROGRAM")
    found = [named] if named else [str(path) for path in BUILT if path.exists()]
    if found:
        os.environ["SIMDRAM_PROGRAM"] = os.path.abspath(found[0])
        return os.environ["SIMDRAM_PROGRAM"]
    return None


def op_text(entry, ops):
    """An operation text of an entry that is known to be compiled from it."""
    from simdram.launcher.settings import Settings
    from simdram.steps.op_texts import of_entries
    return of_entries("p", [entry], ops and str(ops), Settings(), True)[entry.name]


needs_program = unittest.skipUnless(program(), "no program is built: ./simdram build builds one")
needs_numpy = unittest.skipUnless(numpy, "NumPy is not installed")

"""SIMDRAM from Python: `Chip` takes NumPy arrays in and gives them out, computed by row commands (docs/NUMPY.md).

The names of the front are looked up when they are used, so that the command and the file modules need no NumPy.
"""

import importlib

_FRONT = {
    "Chip": "chip", "Array": "array", "Cost": "costing", "Op": "user_ops", "op": "user_ops", "ops": "user_ops", "scan": "scanning",
    "program": "own_programs", "OwnProgram": "own_programs", "Unverified": "own_programs", "Verdict": "own_programs",
    "Count": "scanning", "Refused": "refusals", "Stopped": "refusals", "compute": "chip", "apply": "functions",
    "where": "functions", "minimum": "functions", "maximum": "functions", "bitcount": "functions", "bit": "functions",
    "concat": "functions", "product": "matrices", "matmul": "matrices",
}
__all__ = sorted(_FRONT)


def __getattr__(name):
    if name not in _FRONT:
        raise AttributeError(f"module simdram has no {name}")
    try:
        return getattr(importlib.import_module(f".arrays.{_FRONT[name]}", __name__), name)
    except ModuleNotFoundError as missing:
        if missing.name != "numpy":
            raise
        raise ImportError(f"simdram.{name} needs NumPy, which is not installed: pip install numpy") from None


def __dir__():
    return __all__

"""Formulas of the width n, such as `9*n + 1`, `n*ceil(log2(n))` or `n**2`: the arithmetic of Python's grammar alone is computed.

A formula has numbers, `n`, brackets, `+`, `-`, `*`, `/`, `//` (rounded down), `**` or `^` (power), `log2(..)`, `ceil(..)` and
`floor(..)`. Whole numbers and fractions are exact.
"""

import ast
import fractions
import math
import operator
import typing

from ..launcher.faults import Fault

Number = int | float | fractions.Fraction
# nothing that is drawn comes near this
GREATEST = 10**30
LONGEST = 200


def log2(value: Number) -> Number:
    """The logarithm to base 2, whole where it is."""
    if value <= 0:
        raise ValueError("log2 takes a number above 0")
    whole = round(math.log2(value))
    return whole if fractions.Fraction(2) ** whole == value else math.log2(value)


def power(base: Number, exponent: Number) -> Number:
    """A power that is small enough to be drawn."""
    if base and abs(exponent) * abs(math.log2(abs(base))) > math.log2(GREATEST):
        raise ValueError("the power is too great")
    found = base ** exponent
    if isinstance(found, complex):
        raise ValueError("the power is no real number")
    return found


FUNCTIONS: dict[str, typing.Callable[[Number], Number]] = {"log2": log2, "ceil": math.ceil, "floor": math.floor}
OPERATORS: dict[type, typing.Callable[[Number, Number], Number]] = {
    ast.Add: operator.add, ast.Sub: operator.sub, ast.Mult: operator.mul, ast.FloorDiv: operator.floordiv, ast.Pow: power,
    ast.Div: lambda x, y: fractions.Fraction(x) / fractions.Fraction(y),
}


def tree_of(text: str) -> ast.expr:
    """The formula as a tree of Python's grammar."""
    if len(text) > LONGEST:
        raise SyntaxError(f"it has more than {LONGEST} characters")
    try:
        return ast.parse(text.strip().replace("^", "**"), mode="eval").body
    except (SyntaxError, ValueError, RecursionError, MemoryError):
        raise SyntaxError("an operator, an operand or a bracket is missing, and a product has a *") from None


def computed(node: ast.expr, text: str, n: int) -> Number:
    """What a part of a formula gives at a width."""
    if isinstance(node, ast.BinOp) and type(node.op) in OPERATORS:
        return OPERATORS[type(node.op)](computed(node.left, text, n), computed(node.right, text, n))
    if isinstance(node, ast.UnaryOp) and isinstance(node.op, ast.USub):
        return -computed(node.operand, text, n)
    if isinstance(node, ast.Call) and isinstance(node.func, ast.Name) and node.func.id in FUNCTIONS and len(node.args) == 1 and not node.keywords:
        return FUNCTIONS[node.func.id](computed(node.args[0], text, n))
    if isinstance(node, ast.Constant) and type(node.value) in (int, float):
        return node.value if isinstance(node.value, int) else fractions.Fraction(str(node.value))
    if isinstance(node, ast.Name) and node.id == "n":
        return n
    said = ast.get_source_segment(text, node) or text
    raise SyntaxError(f"{said} stands where a number, n, log2(..), ceil(..), floor(..) or a bracket is expected")


def value(text: str, width: int) -> Number:
    try:
        found = computed(tree_of(text), text.strip().replace("^", "**"), width)
    except SyntaxError as wrong:
        raise Fault(f"{text!r} is no formula of n: {wrong}") from None
    except ZeroDivisionError:
        raise Fault(f"{text!r} has no value at n = {width}: a division by 0") from None
    except (ArithmeticError, ValueError) as wrong:
        raise Fault(f"{text!r} has no value at n = {width}: {wrong}") from None
    if not abs(found) <= GREATEST:
        raise Fault(f"{text!r} is too great at n = {width}")
    return found

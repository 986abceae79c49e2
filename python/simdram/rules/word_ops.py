"""The word operations and gates: what each takes and gives, as the table of README has them, what it costs and its value.

`w` is a word, `b` a bit, `x` either, the same in every place.
"""

import operator
import typing

Numbers = int | tuple[int, int]


class WordOp(typing.NamedTuple):
    """A word operation: what it takes and gives, the commands of a position where it goes over them once, its value on
    numbers at a width (what is above the width is cut off)."""

    takes: str
    gives: str
    each: float
    value: typing.Callable[..., Numbers]


def signed(bits: int, x: int) -> int:
    """The number that a pattern of so many bits is in two's complement."""
    return x - 2**bits if x >> bits - 1 else x


def quotient(bits: int, x: int, y: int) -> int:
    return x // y if y else 2**bits - 1


def rest(_bits: int, x: int, y: int) -> int:
    return x % y if y else x


def of_two(function: typing.Callable[[int, int], int]) -> typing.Callable[..., int]:
    """A function of two numbers, at each width."""
    return lambda _bits, x, y: int(function(x, y))


WORD_OPS = {
    "not": WordOp("x", "x", 2, lambda _bits, x: ~x), "and": WordOp("xx", "x", 4, of_two(operator.and_)),
    "or": WordOp("xx", "x", 4, of_two(operator.or_)), "xor": WordOp("xx", "x", 7, of_two(operator.xor)),
    "copy": WordOp("x", "x", 1, lambda _bits, x: x),
    "zero": WordOp("", "w", 1, lambda _bits: 0), "ones": WordOp("", "w", 1, lambda _bits: -1),
    "shl1": WordOp("w", "w", 1, lambda _bits, x: x << 1), "shr1": WordOp("w", "w", 1, lambda _bits, x: x >> 1),
    "add": WordOp("ww", "w", 9, of_two(operator.add)), "sub": WordOp("ww", "w", 6, of_two(operator.sub)),
    "mul": WordOp("ww", "w", 0, of_two(operator.mul)), "div": WordOp("ww", "w", 0, quotient), "rem": WordOp("ww", "w", 0, rest),
    "abs": WordOp("w", "w", 8, lambda bits, x: abs(signed(bits, x))), "relu": WordOp("w", "w", 3, lambda bits, x: max(0, signed(bits, x))),
    "min": WordOp("ww", "w", 10, of_two(min)), "max": WordOp("ww", "w", 10, of_two(max)),
    "eq": WordOp("ww", "b", 4, of_two(operator.eq)), "gt": WordOp("ww", "b", 3, of_two(operator.gt)), "ge": WordOp("ww", "b", 3, of_two(operator.ge)),
    "if_else": WordOp("xxb", "x", 7, lambda _bits, x, y, condition: x if condition else y),
    "bitcount": WordOp("w", "w", 0, lambda _bits, x: bin(x).count("1")),
    "and_red": WordOp("w", "b", 2, lambda bits, x: int(x == 2**bits - 1)), "or_red": WordOp("w", "b", 2, lambda _bits, x: int(x != 0)),
    "xor_red": WordOp("w", "b", 3, lambda _bits, x: bin(x).count("1") % 2),
    "divmod": WordOp("ww", "ww", 0, lambda bits, x, y: (quotient(bits, x, y), rest(bits, x, y))),
}
TAKES_GIVES = {name: (one.takes, one.gives) for name, one in WORD_OPS.items()}
GATES = {"not": 1, "and": 2, "or": 2, "xor": 2, "maj": 3}
WEIGHTS = {"not": 0, "and": 1, "or": 1, "maj": 1, "xor": 3}
KIND_OF = {"w": "word", "b": "bit"}
# of each gate, and of a choice by its first input, its value on patterns, each bit of which is a case of its own
GATE_VALUES: dict[str, typing.Callable[..., int]] = {
    "and": operator.and_, "or": operator.or_, "xor": operator.xor, "maj": lambda x, y, z: x & y | z & (x | y),
    "mux": lambda s, x, y: y ^ s & (x ^ y),
}
SAYS = {"w": "a word", "b": "a bit", "x": "a word or a bit"}


def gate_value(name: str, given: typing.Sequence[int], ones: int) -> int:
    """What a gate gives on patterns, of which `ones` has all cases."""
    return given[0] ^ ones if name == "not" else GATE_VALUES[name](*given)


def forms(name: str) -> list[tuple[list[str], list[str]]]:
    """What an operation may take and then gives, by kinds."""
    takes, gives = TAKES_GIVES[name]
    return [tuple([KIND_OF[letter if one == "x" else one] for one in part] for part in (takes, gives))
            for letter in ("wb" if "x" in takes else "w")]


def may_take(name: str, given: list[str], kind: str) -> bool:
    """Whether one more argument of this kind may stand."""
    return any(takes[:len(given) + 1] == [*given, kind] for takes, _ in forms(name))


def wants_more(name: str, given: list[str]) -> bool:
    return any(takes[:len(given)] == given and len(takes) > len(given) for takes, _ in forms(name))


def filled(name: str, given: list[str]) -> list[str] | None:
    """The kinds of the results where the arguments are whole."""
    return next((gives for takes, gives in forms(name) if takes == given), None)


def said(name: str) -> str:
    """What an operation takes and gives, in words."""
    takes, gives = TAKES_GIVES[name]
    arguments = ", ".join(SAYS[one] for one in takes) or "nothing"
    alike = ", alike," if takes.count("x") > 1 else ""
    return f"{name} takes {arguments}{alike} and gives {' and '.join(SAYS[one] for one in gives)}"

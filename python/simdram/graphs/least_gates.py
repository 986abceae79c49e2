"""For each function of up to three inputs the expression of the language with the fewest gates.

A function is its values on the eight patterns of x, y and z, as a number of eight bits. Gates weigh as the language says:
`and`, `or`, `maj` 1, `xor` 3, `not` 0. A function and its complement weigh the same.
"""

import functools
import itertools
import typing

from ..rules.op_tree import Expr, gate, read
from ..rules.word_ops import GATE_VALUES

INPUTS = {"x": 0b10101010, "y": 0b11001100, "z": 0b11110000}
ALL = 0xFF


@functools.lru_cache(maxsize=None)
def expressions() -> dict[int, tuple]:
    """Of a function or its complement its name, or the two functions that it is the xor of, or the three that it is the
    majority of."""
    found: dict[int, tuple] = {0: ("0",), **{values: (name,) for name, values in INPUTS.items()}}
    weights = {values: 0 for one in found for values in (one, ALL ^ one)}
    for weight in itertools.count(1):
        if len(weights) == ALL + 1:
            return found
        for values, made in candidates(weights, weight):
            if values not in weights:
                weights[values] = weights[ALL ^ values] = weight
                found[values] = made


def candidates(weights: dict[int, int], weight: int) -> typing.Iterator[tuple[int, tuple]]:
    """The functions that one more gate makes of known ones, where all gates weigh so much."""
    of_weight = [[values for values, one in weights.items() if one == each] for each in range(weight)]
    for first in range(weight - 2):
        for one, two in itertools.product(of_weight[first], of_weight[weight - 3 - first]):
            yield one ^ two, (one, two)
    for first, second in itertools.product(range(weight), repeat=2):
        third = weight - 1 - first - second
        if third >= 0:
            for three in itertools.product(of_weight[first], of_weight[second], of_weight[third]):
                yield GATE_VALUES["maj"](*three), three


@functools.lru_cache(maxsize=None)
def spelled(values: int) -> Expr:
    """The shortest spelling of a function's expression, in x, y and z."""
    if values in (0, ALL):
        return gate("1" if values else "0")
    made = expressions().get(values)
    turned = expressions().get(ALL ^ values)
    forms = [] if made is None else [gate_of(made)]
    if turned is not None:
        forms.append(gate("not", gate_of(turned)))
        # the complement of a majority is the majority of the complements
        forms += [gate_of(tuple(ALL ^ one for one in turned))] if len(turned) == 3 else []
    return min(forms, key=lambda form: (str(form).count("not("), len(str(form))))


def gate_of(made: tuple) -> Expr:
    """A name, or a gate of functions."""
    if len(made) == 1:
        return read(made[0])
    constants = tuple(one for one in made if one in (0, ALL))
    name = "xor" if len(made) == 2 else {(): "maj", (0,): "and", (ALL,): "or"}[constants]
    return gate(name, *(spelled(one) for one in made if one not in constants))

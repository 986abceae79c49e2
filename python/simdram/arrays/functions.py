"""Functions of arrays beside the operators, and NumPy's ufuncs on arrays: `np.add(a, b)` is `a + b`."""

import operator
import typing

import numpy

from . import cells
from .array import Array
from .expressions import Constant
from .layout import Join, Product, bits_of, joined, laid
from .operations import BIT, OPERATIONS
from .operators import arrays_of, both, compared, has_bits, is_signed, result_of, shape_of, stepped, where
from .refusals import Refused


def apply(name: str, *operands: typing.Any) -> Array | tuple[Array, ...]:
    """The result of a word operation by its name, such as `relu`; of `divmod` the two.

    It is the operation of the language: `gt`, `min`, `div` and the like take the patterns of signed arrays as unsigned.
    """
    if name not in OPERATIONS:
        raise Refused("unknown", f"no word operation is called {name}: there are {', '.join(sorted(OPERATIONS))}")
    results = stepped(OPERATIONS[name], operands)
    return results[0] if len(results) == 1 else results


def minimum(first: typing.Any, second: typing.Any) -> Array:
    """The lesser of each pair of elements."""
    return extreme("and", "min", first, second)


def maximum(first: typing.Any, second: typing.Any) -> Array:
    """The greater of each pair of elements."""
    return extreme("or", "max", first, second)


def extreme(of_bits: str, of_words: str, first: typing.Any, second: typing.Any) -> Array:
    """The lesser or the greater: by a gate of truth values, by a comparison of signed arrays."""
    if has_bits(first, second):
        return apply(of_bits, first, second)
    first, second = arrays_of(OPERATIONS[of_words], (first, second))
    if not is_signed(of_words, (first, second)):
        return apply(of_words, first, second)
    is_first_greater = compared("gt", first, second)
    return where(is_first_greater, *((first, second) if of_words == "max" else (second, first)))


def bit(array: Array, place: int) -> Array:
    """One bit of each element, 0 the lowest, as truth values: a slice, which takes no command."""
    if not 0 <= operator.index(place) < array.bits:
        raise Refused("slice", f"bit {place} of an array of {array.bits} bits", 0)
    return array.of_value(array.shape, bits_of(array.value, operator.index(place), 1, BIT), False)


def concat(*operands: typing.Any) -> Array:
    """Words whose lowest bits are those of the first array, with those of the others above them."""
    arrays = arrays_of(Join(()), operands)
    cells.checked_width(sum(one.bits for one in arrays))
    return arrays[0].of_value(shape_of(Join(()), arrays), joined([(one.value, one.bits) for one in arrays]), False)


def bitcount(array: Array) -> Array:
    """The number of ones of each element, an unsigned number."""
    return apply("bitcount", array).astype(signed=False)


def product(first: typing.Any, second: typing.Any, bits: int | None = None) -> Array:
    """The product with all its bits, as many as both factors have together, or with `bits`.

    Of unsigned arrays it is made row by row, for fewer commands than a product of widened factors takes.
    """
    arrays = arrays_of(Product(), (first, second))
    if has_bits(*arrays):
        raise Refused("kind", "product takes words, and not truth values")
    shape, signed = shape_of(Product(), arrays), is_signed("product", arrays)
    size = cells.checked_width(bits or sum(one.bits for one in arrays))
    if signed or size < sum(one.bits for one in arrays) or any(isinstance(one.value.origin, Constant) for one in arrays):
        return arrays[0].astype(bits=size) * arrays[1].astype(bits=size)
    values = sorted((one.value for one in arrays), key=lambda one: -one.bits)
    return arrays[0].of_value(shape, laid(Product(), values, size), False)


def of_arrays(function: typing.Callable) -> typing.Callable:
    """A function of two operands, one of which is an array of a chip, on two such arrays."""
    return lambda first, second: function(*both(first, second))


def of_truth(name: str) -> typing.Callable:
    """A gate on one or two truth values, where a number is true that is not 0."""
    def gate(*operands: typing.Any) -> Array:
        arrays = both(*operands) if len(operands) == 2 else operands
        return result_of(name, *(one if one.is_bit else one != 0 for one in arrays))
    return gate


UFUNCS: dict[str, typing.Callable] = {
    **{name: of_arrays(getattr(operator, own)) for name, own in (
        ("add", "add"), ("subtract", "sub"), ("multiply", "mul"), ("floor_divide", "floordiv"), ("remainder", "mod"), ("mod", "mod"),
        ("bitwise_and", "and_"), ("bitwise_or", "or_"), ("bitwise_xor", "xor"), ("equal", "eq"), ("not_equal", "ne"),
        ("less", "lt"), ("less_equal", "le"), ("greater", "gt"), ("greater_equal", "ge"))},
    **{name: of_truth(own) for name, own in (("logical_and", "and"), ("logical_or", "or"), ("logical_xor", "xor"), ("logical_not", "not"))},
    "divmod": of_arrays(divmod), "invert": operator.invert, "negative": operator.neg, "positive": operator.pos, "absolute": abs,
    "matmul": of_arrays(operator.matmul), "left_shift": operator.lshift, "right_shift": operator.rshift, "minimum": minimum, "maximum": maximum, "bitwise_count": bitcount,
}


def called(ufunc: numpy.ufunc, method: str, inputs: typing.Sequence[typing.Any], more: typing.Mapping[str, typing.Any]) -> typing.Any:
    """A ufunc of arrays. One that has no row commands, and what is called with more than its operands, is refused."""
    if method == "reduce" and ufunc is numpy.add and not set(more) - {"axis", "dtype", "out"}:
        return inputs[0].sum(**{"axis": 0, **more})
    in_place = more.get("out", ())
    if method != "__call__" or ufunc.__name__ not in UFUNCS or set(more) - {"out"} or any(one is not inputs[0] for one in in_place):
        raise TypeError(f"np.{ufunc.__name__}{'' if method == '__call__' else f'.{method}'} with these operands is none of a chip's: there are "
                        f"np.{', np.'.join(sorted(UFUNCS))} and np.add.reduce; .numpy() gives the numbers to NumPy")
    if in_place and isinstance(in_place[0], numpy.ndarray):
        raise TypeError(f"np.{ufunc.__name__} cannot write an array of a chip into one of NumPy: .numpy() gives its numbers")
    return UFUNCS[ufunc.__name__](*inputs)

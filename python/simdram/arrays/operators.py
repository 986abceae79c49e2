"""The operators of arrays: what each makes of its operands, which are arrays, numbers, or arrays of NumPy."""

import operator
import typing

import numpy

from . import expressions, layout
from .operations import BIT, NAMED, OPERATIONS, WORD
from .refusals import Refused

Operator = typing.Callable[[typing.Any, typing.Any], typing.Any]


def both_ways(function: Operator) -> tuple[Operator, Operator]:
    """An operator on two operands, and the same with them in the other order."""
    return (lambda self, other: function(self, other)), (lambda self, other: function(other, self))


def of_one(name: str) -> typing.Callable[[typing.Any], typing.Any]:
    """An operator on one operand that is an operation."""
    return lambda self: result_of(name, self)


def of_two(name: str) -> tuple[Operator, Operator]:
    """The same of two operands, with them in the other order too."""
    return both_ways(lambda first, second: result_of(name, first, second))


def comparison(name: str) -> tuple[Operator, Operator]:
    """A comparison of two operands, with them in the other order too."""
    return both_ways(lambda first, second: compared(name, first, second))


def multiplied(first: typing.Any, second: typing.Any) -> typing.Any:
    from .summing import matmul
    return matmul(first, second)


class Operators:
    """The operators, for a class that has `chip`, `shape`, `value`, `bits`, `is_bit`, `signed` and `of_value`."""

    def __array_ufunc__(self, ufunc, method, *inputs, **more):
        """NumPy's functions, and its operators where an array of its own is the first operand."""
        from .functions import called
        return called(ufunc, method, inputs, more)

    __hash__ = object.__hash__

    __add__, __radd__ = of_two("add")
    __sub__, __rsub__ = of_two("sub")
    __mul__, __rmul__ = of_two("mul")
    __and__ = __rand__ = of_two("and")[0]
    __or__ = __ror__ = of_two("or")[0]
    __xor__ = __rxor__ = of_two("xor")[0]
    __floordiv__, __rfloordiv__ = both_ways(lambda first, second: divided(first, second)[0])
    __mod__, __rmod__ = both_ways(lambda first, second: divided(first, second)[1])
    __divmod__, __rdivmod__ = both_ways(lambda first, second: divided(first, second))
    __matmul__, __rmatmul__ = both_ways(multiplied)
    __invert__, __neg__ = of_one("not"), of_one("negative")

    def __pos__(self):
        return self

    def __abs__(self):
        return result_of("abs", self) if self.signed else self

    def __lshift__(self, places):
        return shifted(self, places)

    def __rshift__(self, places):
        return shifted(self, places, is_up=False)

    __eq__ = comparison("eq")[0]
    __gt__, __lt__ = comparison("gt")
    __ge__, __le__ = comparison("ge")

    def __ne__(self, other):
        return ~(self == other)


def result_of(name: str, *operands: typing.Any) -> typing.Any:
    """The one result of an operation of the language, or of a block of the front, on arrays and numbers."""
    return stepped(NAMED[name], operands)[0]


def both(first: typing.Any, second: typing.Any) -> list[typing.Any]:
    return arrays_of(OPERATIONS["and"], (first, second))


def has_bits(*operands: typing.Any) -> bool:
    """Whether an operand is an array of truth values."""
    return any(isinstance(one, Operators) and one.is_bit for one in operands)


def compared(name: str, first: typing.Any, second: typing.Any) -> typing.Any:
    """`eq`, `gt` or `ge` of two arrays: by gates where they are truth values, in signed order where they are signed."""
    if has_bits(first, second):
        x, y = both(first, second)
        return ~(x ^ y) if name == "eq" else x & ~y if name == "gt" else x | ~y
    arrays = arrays_of(OPERATIONS[name], (first, second))
    return result_of(f"signed_{name}" if name != "eq" and is_signed(name, arrays) else name, *arrays)


def divided(first: typing.Any, second: typing.Any) -> tuple[typing.Any, ...]:
    """Quotient and remainder; of signed arrays they are rounded as Python's, the remainder has the divisor's sign."""
    arrays = arrays_of(OPERATIONS["divmod"], (first, second))
    if not is_signed("divmod", arrays):
        return stepped(OPERATIONS["divmod"], arrays)
    dividend, divisor = arrays
    is_opposite = result_of("sign", dividend) ^ result_of("sign", divisor)
    quotient, rest = stepped(OPERATIONS["divmod"], [result_of("abs", one) for one in arrays])
    is_inexact = rest != 0
    floor = where(is_opposite & is_inexact, ~quotient, where(is_opposite, -quotient, quotient))
    least = where(is_opposite & is_inexact, result_of("abs", divisor) - rest, rest)
    return floor, where(result_of("sign", divisor), -least, least)


def where(condition: typing.Any, first: typing.Any, second: typing.Any) -> typing.Any:
    """The elements of the first where the condition holds, and else of the second."""
    return result_of("if_else", first, second, condition)


def shifted(array: typing.Any, places: typing.Any, is_up: bool = True) -> typing.Any:
    """An array after a shift by so many places; of a signed one the top bit comes in again from above."""
    count, is_signed_down = operator.index(places), array.signed and not is_up
    if count < 0:
        raise Refused("bad_number", f"a shift by {count} places")
    if count >= array.bits and not is_signed_down:
        return array ^ array
    count = min(count, array.bits - 1)
    if count < 2 and not is_signed_down:
        return result_of("shl1" if is_up else "shr1", array) if count else array
    value = layout.shifted(array.value, count if is_up else -count, array.signed)
    return array.of_value(array.shape, value, array.signed) if count else array


def stepped(operation: typing.Any, operands: typing.Sequence[typing.Any],
            bits: int | None = None) -> tuple[typing.Any, ...]:
    """The results of an operation, which has `name`, `takes` and `gives`."""
    arrays = arrays_of(operation, operands, bits)
    made = expressions.step(operation, [array.value for array in arrays], bits)
    shape, signed = shape_of(operation, arrays), is_signed(operation.name, arrays)
    return tuple(arrays[0].of_value(shape, value, signed and value.kind == WORD) for value in made.results)


def arrays_of(operation: typing.Any, operands: typing.Sequence[typing.Any],
              bits: int | None = None) -> list[typing.Any]:
    """Operands as arrays of one chip: numbers become constants, and NumPy's arrays are placed."""
    if not (given := [one for one in operands if isinstance(one, Operators)]):
        raise TypeError(f"{operation.name} takes an array of a chip, such as chip.array(x, bits=8)")
    if any(one.chip is not given[0].chip for one in given):
        raise ValueError(f"the arrays of {operation.name} are of different chips")
    kinds = [*operation.takes, *[None] * len(operands)]
    return [one if isinstance(one, Operators) else beside(given, one, kind, bits) for one, kind in zip(operands, kinds)]


def beside(given: typing.Sequence[typing.Any], operand: typing.Any, kind: str | None, bits: int | None) -> typing.Any:
    """A number or an array of NumPy as an operand beside arrays: of their width, and of the kind that is taken."""
    words = [one for one in given if not one.is_bit]
    numbers = numpy.asarray(operand)
    is_bit = kind == BIT or kind != WORD and (not words or numbers.dtype == bool)
    if is_bit and numbers.dtype != bool and numbers.size and 0 <= numbers.min() and numbers.max() <= 1:
        numbers = numbers.astype(bool)
    width = 1 if is_bit else bits or (words[0].bits if words else None)
    is_word_signed = bool(words) and words[0].signed and not is_bit
    return given[0].chip.array(numbers if numbers.dtype == bool else operand, bits=width, signed=is_word_signed)


def is_signed(name: str, arrays: typing.Sequence[typing.Any]) -> bool:
    """Whether the words among operands are signed, which all are or none."""
    found = {array.signed for array in arrays if not array.is_bit}
    if len(found) == 2:
        raise TypeError(f"{name} of a signed and an unsigned array: astype(signed=True) reads one as signed")
    return found == {True}


def shape_of(operation: typing.Any, arrays: typing.Sequence[typing.Any]) -> tuple[int, ...]:
    """The one shape of the operands; an array of no dimensions goes with any."""
    shapes = [array.shape for array in arrays if array.shape]
    first = len(operation.gives)
    for k, array in enumerate(arrays, first):
        if array.shape and array.shape != shapes[0]:
            raise Refused("size", f"argument {k - first} of {operation.name} has shape {array.shape}, and others "
                          f"{shapes[0]}", k)
    return shapes[0] if shapes else ()

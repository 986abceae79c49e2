"""The rules by which an operation becomes a simpler one: where an argument is a constant, or two are equal or opposite.

A rule is a condition on an operation's arguments, and a function of the builder and the arguments that gives the results,
or None where it says nothing. Of a commutative operation a constant is the last argument. Not all arguments are constants.
"""

import typing

from .expressions import Value, are_opposite, arguments_of, number_of, other_of, under
from .layout import Product, masked, without_zeros
from .operations import BIT, OPERATIONS

COMMUTATIVE = ("add", "mul", "and", "or", "xor", "eq", "min", "max")
# the commands of each operation at a width n, as README's table of operations has them; of a block at most so many
COMMANDS: dict[str, typing.Callable[[int], int]] = {
    "fill": lambda n: n, "shl1": lambda n: n, "add": lambda n: 9 * n + 1, "sub": lambda n: 6 * n + 1,
    "mul": lambda n: (9 * n * n + n) // 2 - 2 + n % 2, "negative": lambda n: 6 * n + 2,
}
Holds = typing.Callable[..., bool]
Gives = typing.Callable[..., typing.Any]


def known(place: int, number: int | None = None) -> Holds:
    """Whether an argument is a constant, or this number modulo 2^bits."""
    def holds(*values: Value) -> bool:
        found = number_of(values[place])
        return found is not None and (number is None or found == number % 2**values[place].bits)
    return holds


def does(name: str, *places: int) -> Gives:
    """The operation of this name on some of the arguments."""
    return lambda b, *values: b.do(name, *(values[place] for place in places))


def with_number(name: str) -> Gives:
    """Of an operation on a constant and on a result of the same operation on a constant, one operation on both numbers."""
    def gives(b, x: Value, y: Value) -> Value | None:
        inner = arguments_of(name, x)
        if inner and number_of(y) is not None and number_of(inner[1]) is not None:
            return b.do(name, inner[0], b.do("add" if name == "sub" else name, inner[1], y))
        return None
    return gives


def summed(b, x, y):
    """A sum with a negative number, or one in which a subtrahend goes away."""
    for first, second in ((x, y), (y, x)):
        if under("negative", second) is not None:
            return b.do("sub", first, under("negative", second))
        if arguments_of("sub", second)[1:] == (first,):
            return under("sub", second)
    return None


def cancelled(b, x, y):
    """A difference in which a summand goes away."""
    if other_of("add", x, y) is not None:
        return other_of("add", x, y)
    if other_of("add", y, x) is not None:
        return b.do("negative", other_of("add", y, x))
    if under("sub", y) is x:
        return arguments_of("sub", y)[1]
    return b.do("negative", arguments_of("sub", x)[1]) if under("sub", x) is y else None


def digits_of(number: int, bits: int) -> dict[int, int]:
    """The places of a number's digits 1 and -1, modulo 2^bits."""
    found: dict[int, int] = {}
    for place in range(bits):
        if number & 1:
            found[place] = -1 if number & 3 == 3 and place < bits - 1 else 1
            number -= found[place]
        number >>= 1
    return found


def commands_of(digits: dict[int, int], bits: int) -> int:
    """The commands of shifts, sums and differences."""
    taken = sum(COMMANDS["add" if digit > 0 else "sub"](bits) for digit in digits.values())
    first = "add" if max(digits.values()) > 0 else "sub"
    start = 0 if first == "add" else COMMANDS["negative"](bits)
    return taken - COMMANDS[first](bits) + start + sum(map(bool, digits)) * COMMANDS["shl1"](bits)


def product(b, x: Value, number: int) -> Value | None:
    """The product of a value and a number by shifts, sums and differences, or None where `mul` takes the fewest commands.

    The number is written in digits -1, 0 and 1, no two neighbours of which are not 0: the fewest digits that there are.
    """
    if number == 0:
        return b.like(x, 0)
    digits = digits_of(number, x.bits)
    is_cheap = commands_of(digits, x.bits) < COMMANDS["mul"](x.bits) + COMMANDS["fill"](x.bits)
    if len(digits) > 1 and not (b.by_digits and is_cheap):
        return None
    shifted = {place: b.shifted(x, place) for place in digits}
    positive = [place for place in sorted(digits, reverse=True) if digits[place] > 0]
    negative = [place for place in digits if digits[place] < 0]
    total = shifted[positive.pop(0)] if positive else b.do("negative", shifted[negative.pop(0)])
    for place in positive:
        total = b.do("add", total, shifted[place])
    for place in negative:
        total = b.do("sub", total, shifted[place])
    return total


def mul(b, x, y):
    if number_of(y) is not None:
        return product(b, x, number_of(y))
    narrow = [without_zeros(one) for one in (x, y)]
    is_whole = sum(one.bits for one in narrow) <= x.bits
    return b.step(Product(), sorted(narrow, key=lambda one: -one.bits), x.bits)[0] if is_whole else None


def div_and_rem(b, x, y):
    by = number_of(y)
    if by == 0:
        return b.like(x, -1), x
    if by is not None and by & by - 1 == 0:
        return b.shifted(x, 1 - by.bit_length()), b.do("and", x, b.like(x, by - 1))
    if x is y or number_of(x) == 0:
        return b.step(OPERATIONS["divmod"], (x, y), x.bits)[0], b.like(x, 0)
    return None


def absorbed(name: str, dual: str) -> Gives:
    """`and` of x and of `and` or `or` of x and another, and the same of `or`."""
    def gives(_b, x: Value, y: Value) -> Value | None:
        for first, second in ((x, y), (y, x)):
            if other_of(name, second, first) is not None:
                return second
            if other_of(dual, second, first) is not None:
                return first
        return None
    return gives


def if_else(b, x, y, condition):
    """A choice by a condition that is no constant, and not the complement of another."""
    if x.kind != BIT:
        return b.do("zero_unless", x, condition) if number_of(y) == 0 else b.do("zero_if", y, condition) if number_of(x) == 0 else None
    if number_of(x) is not None and number_of(y) is not None:
        return condition if number_of(x) else b.do("not", condition)
    if number_of(x) is not None:
        return b.do("or", condition, y) if number_of(x) else b.do("and", b.do("not", condition), y)
    if number_of(y) is not None:
        return b.do("or", b.do("not", condition), x) if number_of(y) else b.do("and", condition, x)
    return None


def are_ends(least: Value, greatest: Value) -> bool:
    """Whether the one is the constant of the least signed number, or the other that of the greatest."""
    return number_of(least) == 1 << least.bits - 1 or number_of(greatest) == (1 << greatest.bits - 1) - 1


def same(x: Value, y: Value, *_: Value) -> bool:
    return x is y


def always(*_: Value) -> bool:
    return True


X, Y, X_0, Y_0, X_ONES, Y_ONES = known(0), known(1), known(0, 0), known(1, 0), known(0, -1), known(1, -1)
FIRST: Gives = lambda _b, x, *_: x
SECOND: Gives = lambda _b, _x, y: y
ZEROS: Gives = lambda b, x, *_: b.like(x, 0)
ONES: Gives = lambda b, x, *_: b.like(x, -1)
FALSE: Gives = lambda b, *_: b.constant(BIT, 1, 0)
TRUE: Gives = lambda b, *_: b.constant(BIT, 1, 1)
# the rules of each operation, of which the first is taken that holds and says something
RULES: dict[str, tuple[tuple[Holds, Gives], ...]] = {
    # a difference takes fewer commands than a sum
    "add": ((Y_0, FIRST), (same, does("shl1", 0)), (always, summed), (Y, lambda b, x, y: b.do("sub", x, b.like(y, -number_of(y))))),
    "sub": ((Y_0, FIRST), (same, ZEROS), (X_ONES, does("not", 1)),
            (lambda x, y: under("negative", y) is not None, lambda b, x, y: b.do("add", x, under("negative", y))),
            (X_0, does("negative", 1)), (always, cancelled), (always, with_number("sub"))),
    "mul": ((always, mul),), "div": ((always, does("divmod", 0, 1)),), "divmod": ((always, div_and_rem),),
    "rem": ((always, lambda b, x, y: b.results(OPERATIONS["divmod"], (x, y), x.bits)[1]),),
    "and": ((same, FIRST), (Y_ONES, FIRST), (Y_0, ZEROS), (are_opposite, ZEROS), (Y, lambda b, x, y: masked(b, x, number_of(y))),
            (always, absorbed("and", "or"))),
    "or": ((same, FIRST), (Y_0, FIRST), (Y_ONES, ONES), (are_opposite, ONES), (always, absorbed("or", "and")), (always, with_number("or"))),
    "xor": ((same, ZEROS), (are_opposite, ONES), (Y_0, FIRST), (Y_ONES, does("not", 0)),
            (always, lambda _b, x, y: other_of("xor", x, y) or other_of("xor", y, x)), (always, with_number("xor"))),
    "not": ((always, lambda _b, x: under("not", x)),), "copy": ((always, FIRST),),
    "negative": ((always, lambda _b, x: under("negative", x)),),
    "eq": ((same, TRUE), (Y_0, lambda b, x, y: b.do("not", b.do("or_red", x))), (Y_ONES, does("and_red", 0))),
    "gt": ((same, FALSE), (Y_ONES, FALSE), (X_0, FALSE), (Y_0, does("or_red", 0)),
           (X_ONES, lambda b, x, y: b.do("not", b.do("and_red", y)))),
    "ge": ((same, TRUE), (X_ONES, TRUE), (Y_0, TRUE), (X_0, lambda b, x, y: b.do("not", b.do("or_red", y))), (Y_ONES, does("and_red", 0))),
    "signed_gt": ((same, FALSE), (are_ends, FALSE), (X_0, does("sign", 1))),
    "signed_ge": ((same, TRUE), (lambda x, y: are_ends(y, x), TRUE), (Y_0, lambda b, x, y: b.do("not", b.do("sign", x)))),
    "if_else": ((same, FIRST), (known(2), lambda b, x, y, condition: x if number_of(condition) else y),
                (lambda x, y, condition: under("not", condition) is not None,
                 lambda b, x, y, condition: b.do("if_else", y, x, under("not", condition))), (always, if_else)),
    "zero_unless": ((Y_0, ZEROS), (Y, FIRST), (X_0, FIRST)), "zero_if": ((Y_0, FIRST), (Y, ZEROS), (X_0, FIRST)),
    "min": ((same, FIRST), (Y_ONES, FIRST), (Y_0, SECOND)), "max": ((same, FIRST), (Y_0, FIRST), (Y_ONES, SECOND)),
}


def simpler(b, name: str, arguments: typing.Sequence[Value]) -> typing.Any:
    """The result or results of an operation by its rules, or None where they say nothing."""
    found = (gives(b, *arguments) for holds, gives in RULES.get(name, ()) if holds(*arguments))
    return next((one for one in found if one is not None), None)

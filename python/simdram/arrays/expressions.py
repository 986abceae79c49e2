"""Values and the steps that give them: what an expression is before it is compiled."""

import typing

from .operations import BIT, NAMED, SAME, WORD
from .refusals import Refused


class Held:
    """A value that is an object of the chip, or the bits of one from `low` on, and how it was made."""

    def __init__(self, name: str, made: typing.Any = None, low: int = 0, whole: "Value | None" = None) -> None:
        self.name, self.made, self.low, self.whole = name, made, low, whole


class Constant:
    """A value that is one number in every element, made by a fill, and how the number was computed, where the chip did."""

    def __init__(self, number: int, made: typing.Any = None) -> None:
        self.number, self.made = number, made


class Result:
    """A value that a step gives: its first or its second."""

    def __init__(self, step: "Step", place: int) -> None:
        self.step, self.place = step, place


class Value:
    """A value of a number of bits in each element, a word or a bit, and where it comes from."""

    __slots__ = ("kind", "bits", "origin")

    def __init__(self, kind: str, bits: int, origin: Held | Constant | Result) -> None:
        self.kind, self.bits, self.origin = kind, bits, origin


class Step:
    """An operation on values. Its width is that of its words, or None where it has bits alone."""

    __slots__ = ("operation", "arguments", "width", "results")

    def __init__(self, operation: typing.Any, arguments: typing.Sequence[Value], width: int | None,
                 kinds: typing.Sequence[str]) -> None:
        self.operation, self.arguments, self.width = operation, tuple(arguments), width
        bits = [1 if kind == BIT else width for kind in kinds]
        self.results = tuple(Value(kind, bits[k], Result(self, k)) for k, kind in enumerate(kinds))


def step(operation: typing.Any, arguments: typing.Sequence[Value], bits: int | None = None) -> Step:
    """The step of an operation on these arguments, or the refusal of the first rule that they break.

    The operation has `name`, `takes` and `gives`; `bits` is the width where no argument is a word. A refusal's place
    counts the results first and then the arguments, as the program's does.
    """
    first = len(operation.gives)
    if len(arguments) != len(operation.takes):
        raise Refused("arity", f"{operation.name} takes {len(operation.takes)} arguments, not {len(arguments)}")
    same, kinds = kinds_of(operation, arguments)
    width = next((value.bits for value in arguments if value.kind == WORD), bits)
    for k, (value, kind) in enumerate(zip(arguments, operation.takes), first):
        wanted = same if kind == SAME else kind
        if value.kind != wanted:
            raise Refused("kind", f"argument {k - first} of {operation.name} is a {value.kind}, "
                          f"and a {wanted} is wanted there", k)
        if value.kind == WORD and value.bits != width:
            raise Refused("width", f"argument {k - first} of {operation.name} has {value.bits} bits, and others "
                          f"{width}", k)
    if width is None and WORD in kinds:
        raise Refused("width", f"{operation.name} gives words and takes none: say bits=")
    return Step(operation, arguments, width, kinds)


def kinds_of(operation: typing.Any, arguments: typing.Sequence[Value]) -> tuple[str, list[str]]:
    """The kind that `same` stands for, which is that of the first such argument, and the kinds of an operation's results."""
    same = next((value.kind for value, kind in zip(arguments, operation.takes) if kind not in (WORD, BIT)), WORD)
    return same, [kind if kind in (WORD, BIT) else same for kind in operation.gives]


def made_before(values: typing.Iterable[Value], kind: type) -> list[typing.Any]:
    """How those values were made that values are computed from and that are of a kind, `Held` or `Constant`, each once."""
    values = list(values)
    leaves = [*values, *(one for step in in_order(values) for one in step.arguments)]
    made = [one.origin.made for one in leaves if isinstance(one.origin, kind) and one.origin.made is not None]
    return list({id(one): one for one in made}.values())


def each_once(waiting: list[typing.Any], below: typing.Callable[[typing.Any], typing.Sequence[typing.Any]]) -> list[typing.Any]:
    """What waits, the last first, and all that is below it: each once, after what is below it."""
    done: dict[int, typing.Any] = {}
    while waiting:
        if left := [one for one in below(waiting[-1]) if id(one) not in done]:
            waiting += left[::-1]
        else:
            one = waiting.pop()
            done.setdefault(id(one), one)
    return list(done.values())


def givers(values: typing.Iterable[Value]) -> list[Step]:
    return [value.origin.step for value in values if isinstance(value.origin, Result)]


def in_order(targets: typing.Iterable[Value]) -> list[Step]:
    """The steps that the values need, each after those of its arguments."""
    return each_once(givers(targets)[::-1], lambda step: givers(step.arguments))


def number_of(value: Value) -> int | None:
    return value.origin.number if isinstance(value.origin, Constant) else None


def arguments_of(name: str, value: Value) -> tuple[Value, ...]:
    """The arguments of an operation of this name, where it gives the value; an op of the designer's own never does."""
    if isinstance(value.origin, Result) and value.origin.step.operation is NAMED[name]:
        return value.origin.step.arguments
    return ()


def under(name: str, value: Value) -> Value | None:
    """The argument of an operation of this name on one value, where it gives the value."""
    return next(iter(arguments_of(name, value)), None)


def other_of(name: str, value: Value, one: Value) -> Value | None:
    """The other argument of a commutative operation of this name, where it gives the value and has this argument."""
    given = arguments_of(name, value)
    return given[1] if given and given[0] is one else given[0] if given and given[1] is one else None


def are_opposite(x: Value, y: Value) -> bool:
    return under("not", x) is y or under("not", y) is x

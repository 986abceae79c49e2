"""The form of an expression that is computed: without what constants, equal and opposite values make plain.

Every value is made once, so that an equal subexpression is one step. `rewriting` has the rules of each operation. A
division and a rest of the same numbers are one step, and of two results those that nothing reads are left out.
"""

import typing

from .expressions import Constant, Held, Result, Step, Value, in_order, kinds_of
from .layout import Layout, laid_out, put_together, sliced
from .operations import BIT, NAMED, OPERATIONS, WORD, Operation
from .rewriting import COMMUTATIVE, simpler

Results = tuple[Value, ...]


class Builder:
    """Makes values, each once, in the form that takes the fewest commands among those that the rules know.

    With `by_digits` a product with a constant may become shifts and sums, which takes more rows for temporaries.
    """

    def __init__(self, by_digits: bool = True) -> None:
        self.by_digits = by_digits
        self.known: dict[tuple, typing.Any] = {}
        self.order: dict[int, int] = {}

    def constant(self, kind: str, bits: int, number: int) -> Value:
        """The one value of a number, cut to its width."""
        number %= 1 << bits
        return self._seen(self.known.setdefault((kind, bits, number), Value(kind, bits, Constant(number))))

    def like(self, value: Value, number: int) -> Value:
        """A constant of a value's kind and width."""
        return self.constant(value.kind, value.bits, number)

    def leaf(self, value: Value) -> Value:
        """The one value of an object, of a constant, or of a step's result."""
        if isinstance(value.origin, Constant):
            return self.constant(value.kind, value.bits, value.origin.number)
        if isinstance(value.origin, Held) and value.origin.whole is not None:
            return sliced(self, self.leaf(value.origin.whole), value.origin.low, value.bits, value.kind)
        if isinstance(value.origin, Held):
            value = self.known.setdefault(("held", value.origin.name), value)
        return self._seen(value)

    def shifted(self, value: Value, places: int) -> Value:
        """A value at its width after a shift by so many places, up, or down where they are below 0."""
        if abs(places) < 2:
            return self.do("shl1" if places > 0 else "shr1", value) if places else value
        gone = abs(places)
        kept, zeros = sliced(self, value, max(-places, 0), value.bits - gone), self.constant(WORD, gone, 0)
        return put_together(self, [(one, one.bits) for one in ((zeros, kept) if places > 0 else (kept, zeros))])

    def do(self, name: str, *arguments: Value) -> Value:
        """The one result of an operation by its name."""
        width = next((value.bits for value in arguments if value.kind == WORD), None)
        return self.results(NAMED[name], arguments, width)[0]

    def results(self, operation: typing.Any, arguments: typing.Sequence[Value], width: int | None) -> Results:
        """The results of an operation on values that are in this form."""
        if isinstance(operation, Layout):
            return (laid_out(self, operation, arguments, width),)
        if not isinstance(operation, Operation):
            return self.step(operation, arguments, width)
        if all(isinstance(value.origin, Constant) for value in arguments):
            numbers = operation.folded(width or 1, [value.origin.number for value in arguments])
            return tuple(self.constant(kind, 1 if kind == BIT else width, number) for kind, number in zip(kinds_of(operation, arguments)[1], numbers))
        if operation.name in COMMUTATIVE:
            arguments = sorted(arguments, key=lambda one: (isinstance(one.origin, Constant), self.order[id(one)]))
        if (found := simpler(self, operation.name, arguments)) is not None:
            return found if isinstance(found, tuple) else (found,)
        return self.step(operation, arguments, width)

    def step(self, operation: typing.Any, arguments: typing.Sequence[Value], width: int | None) -> Results:
        """The results of the one step of an operation on these values."""
        key = (operation.name, operation if isinstance(operation, Layout) else id(operation), width, *map(id, arguments))
        if key not in self.known:
            self.known[key] = Step(operation, arguments, width, kinds_of(operation, arguments)[1])
        return tuple(map(self._seen, self.known[key].results))

    def _seen(self, value: Value) -> Value:
        self.order.setdefault(id(value), len(self.order))
        return value


def rebuilt(targets: typing.Sequence[Value], leaf: typing.Callable[[Value], Value],
            make: typing.Callable[[Step, typing.Sequence[Value]], Results]) -> list[Value]:
    """The targets, where each step's results are made anew from its arguments as they are made."""
    now: dict[int, Value] = {}

    def of(value: Value) -> Value:
        return now[id(value)] if isinstance(value.origin, Result) else leaf(value)

    for one in in_order(targets):
        results = make(one, [of(value) for value in one.arguments])
        now.update((id(value), result) for value, result in zip(one.results, results))
    return [of(target) for target in targets]


def without_unread(targets: typing.Sequence[Value]) -> list[Value]:
    """The same values, where a `divmod` of which one result is read is a `div` or a `rem`."""
    read = {id(value) for step in in_order(targets) for value in step.arguments} | {id(target) for target in targets}

    def make(step: Step, arguments: typing.Sequence[Value]) -> Results:
        wanted = [id(value) in read for value in step.results]
        if step.operation is OPERATIONS["divmod"] and not all(wanted):
            one = Step(OPERATIONS["div" if wanted[0] else "rem"], arguments, step.width, [WORD]).results[0]
            return one, one
        if all(now is before for now, before in zip(arguments, step.arguments)):
            return step.results
        return Step(step.operation, arguments, step.width, [value.kind for value in step.results]).results

    return rebuilt(targets, lambda value: value, make)


def simplified(targets: typing.Sequence[Value], by_digits: bool = True) -> list[Value]:
    """The same values in the form that is computed."""
    builder = Builder(by_digits)
    made = rebuilt(targets, builder.leaf, lambda step, arguments: builder.results(step.operation, arguments, step.width))
    return without_unread(made)

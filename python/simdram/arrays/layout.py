"""Values that are bits of others, which take no command, and values that are put together of them; and the form of both
that takes the fewest commands: slices of objects alone, and joins whose pieces are as long as may be."""

import itertools
import typing

from .expressions import Constant, Result, Step, Value, number_of, under
from .operations import BIT, WORD


class Slice(typing.NamedTuple):
    """Bits of one value, from `low` on: their rows are rows of its object."""

    low: int
    kind: str

    name, takes = "slice", (WORD,)

    @property
    def gives(self) -> tuple[str, ...]:
        return (self.kind,)


class Join(typing.NamedTuple):
    """Values of these sizes put together, the lowest bits first; one of a single bit may stand in several."""

    sizes: tuple[int, ...]

    name, takes, gives = "concat", (), (WORD,)


class Product(typing.NamedTuple):
    """The product of two words with all its bits, and zeros above them."""

    name, takes, gives = "product", (WORD, WORD), (WORD,)


Layout = (Slice, Join, Product)


def laid(operation: Slice | Join | Product, arguments: typing.Sequence[Value], size: int) -> Value:
    """The result of so many bits of one of these operations."""
    return Step(operation, arguments, size, operation.gives).results[0]


def bits_of(value: Value, low: int, size: int, kind: str = WORD) -> Value:
    """So many bits of a value, from the bit `low` on."""
    return laid(Slice(low, kind), (value,), size)


def joined(pieces: typing.Sequence["Piece"]) -> Value:
    """Values of these sizes, the lowest bits first."""
    return laid(Join(tuple(size for _, size in pieces)), [value for value, _ in pieces], sum(size for _, size in pieces))


def extended(value: Value, size: int, signed: bool) -> Value:
    """A value at a width that is not its own: its lowest bits, or all of them below zeros or its top bit."""
    more = size - value.bits
    if more <= 0:
        return bits_of(value, 0, size)
    above = bits_of(value, value.bits - 1, 1, BIT) if signed else Value(WORD, more, Constant(0))
    return joined([(value, value.bits), (above, more)])


def shifted(value: Value, places: int, signed: bool) -> Value:
    """A value after a shift by fewer places than its bits, up; or down where they are below 0, below zeros or its top bit."""
    kept = bits_of(value, max(-places, 0), value.bits - abs(places))
    return extended(kept, value.bits, signed) if places < 0 else joined([(Value(WORD, places, Constant(0)), places), (kept, kept.bits)])


def layout_of(value: Value, kind: type) -> Step | None:
    """The step that gives a value, where it is of this kind."""
    is_one = isinstance(value.origin, Result) and isinstance(value.origin.step.operation, kind)
    return value.origin.step if is_one else None


def whole_of(value: Value) -> tuple[Value, int]:
    """The value of which this one is bits, and from which bit on: itself, where it is no slice."""
    step = layout_of(value, Slice)
    return (step.arguments[0], step.operation.low) if step else (value, 0)


Piece = tuple[Value, int]


def laid_out(b, operation: typing.Any, arguments: typing.Sequence[Value], width: int) -> Value:
    """The one result of a slice, a join or a product of values that are in this form."""
    if isinstance(operation, Slice):
        return sliced(b, arguments[0], operation.low, width, operation.kind)
    if isinstance(operation, Join):
        return put_together(b, list(zip(arguments, operation.sizes)))
    first, second = map(number_of, arguments)
    return b.step(operation, arguments, width)[0] if None in (first, second) else b.constant(WORD, width, first * second)


def sliced(b, value: Value, low: int, size: int, kind: str = WORD) -> Value:
    """So many bits of a value, from the bit `low` on."""
    found = merged(b, pieces_of(b, value, low, size))
    if len(found) == 1:
        return of_kind(b, put_together(b, found), kind)
    whole, base = whole_of(value)
    return b.step(Slice(base + low, kind), (whole,), size)[0]


def masked(b, value: Value, mask: int) -> Value:
    """The bits of a value where those of a number are 1, and 0 elsewhere."""
    runs = [list(run) for _, run in itertools.groupby(range(value.bits), lambda k: mask >> k & 1)]
    return put_together(b, [(sliced(b, value, run[0], len(run)) if mask >> run[0] & 1 else b.constant(WORD, len(run), 0), len(run)) for run in runs])


def without_zeros(value: Value) -> Value:
    """The one piece that stands below zeros in a value, or the value."""
    step = layout_of(value, Join)
    is_extended = step and len(step.arguments) == 2 and step.arguments[0].bits == step.operation.sizes[0] and number_of(step.arguments[1]) == 0
    return step.arguments[0] if is_extended else value


def of_kind(b, value: Value, kind: str) -> Value:
    """The same bits as a word or as a truth value."""
    if value.kind == kind:
        return value
    whole, low = whole_of(value)
    number = number_of(whole)
    return b.step(Slice(low, kind), (whole,), 1)[0] if number is None else b.constant(kind, 1, number >> low)


def pieces_of(b, value: Value, low: int, size: int) -> list[Piece]:
    """What stands at these bits of a value, which may be put together."""
    whole, base = whole_of(value)
    step, low, at = layout_of(whole, Join), low + base, 0
    found: list[Piece] = []
    for one, wide in zip(step.arguments, step.operation.sizes) if step else ((whole, whole.bits),):
        first, past = max(low, at), min(low + size, at + wide)
        if first < past:
            found.append((one if one.bits < wide else slice_of(b, one, first - at, past - first), past - first))
        at += wide
    return found


def slice_of(b, value: Value, low: int, size: int) -> Value:
    """Bits of a value that is not put together; a shift by one place goes away where no zero is among them."""
    for name, places in (("shr1", 1), ("shl1", -1)):
        shifted = under(name, value)
        if shifted is not None and 0 <= low + places and low + places + size <= value.bits:
            return sliced(b, shifted, low + places, size)
    whole, base = whole_of(value)
    if number_of(whole) is not None:
        return b.constant(WORD, size, number_of(whole) >> base + low)
    is_all = size == whole.bits
    return whole if is_all else b.step(Slice(base + low, WORD), (whole,), size)[0]


def put_together(b, pieces: typing.Sequence[Piece]) -> Value:
    """Pieces as one word."""
    flat = [part for value, size in pieces for part in (pieces_of(b, value, 0, size) if value.bits == size else [(value, size)])]
    found = merged(b, flat)
    (value, size), is_one = found[0], len(found) == 1
    if is_one and value.bits == size:
        return of_kind(b, value, WORD)
    return b.step(Join(tuple(size for _, size in found)), tuple(value for value, _ in found), sum(size for _, size in found))[0]


def merged(b, pieces: typing.Sequence[Piece]) -> list[Piece]:
    """The same pieces, where neighbours that are one piece are one."""
    found: list[Piece] = []
    for value, size in pieces:
        if number_of(value) is not None and value.bits < size:
            value = b.constant(WORD, size, -number_of(value))
        one = joint(b, *found[-1], value, size) if found else None
        found[-1:] = [one] if one else [*found[-1:], (value, size)]
    return found


def joint(b, first: Value, size: int, second: Value, more: int) -> Piece | None:
    """Two neighbours as one piece: constants, bits of one value that follow on each other, or one bit in several places."""
    if number_of(first) is not None and number_of(second) is not None:
        return b.constant(WORD, size + more, number_of(first) | number_of(second) << size), size + more
    if first is second and first.bits == 1:
        return first, size + more
    (whole, low), (other, next_low) = whole_of(first), whole_of(second)
    if whole is other and next_low == low + size and (size, more) == (first.bits, second.bits):
        return slice_of(b, whole, low, size + more), size + more
    return None

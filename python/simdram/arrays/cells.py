"""NumPy arrays and cells: what a chip's objects take and give. Of a structured type one object has the elements, whose fields
are bits of it."""

import typing

import numpy

from ..files import columns
from .operations import BIT
from .refusals import Refused

WIDTHS = (1, 128)


def width_of(numbers: numpy.ndarray) -> int:
    """The width that an array's type says."""
    if numbers.dtype == bool:
        return 1
    if numbers.dtype.kind in "ui":
        return 8 * numbers.dtype.itemsize
    raise Refused("bad_number", f"an array of {numbers.dtype} says no width: give bits=")


def as_array(data: typing.Any) -> numpy.ndarray:
    """Whole numbers or truth values as an array."""
    if isinstance(data, numpy.ma.MaskedArray):
        raise TypeError("a masked array has elements without a number: filled(0) gives them one")
    numbers = numpy.asarray(data)
    if numbers.dtype.kind in "bui":
        return numbers
    if numbers.dtype == object or (numbers.dtype.kind == "f" and not isinstance(data, numpy.ndarray)):
        # numbers of 64 bits and more in a list
        exact = numpy.array(data, dtype=object)
        if all(isinstance(number, (int, numpy.integer)) for number in exact.ravel()):
            return exact
    raise TypeError(f"an array of {numbers.dtype} has no whole numbers: astype(int) makes them")


def checked_width(bits: int) -> int:
    """A width that an object can have."""
    if not WIDTHS[0] <= bits <= WIDTHS[1]:
        raise Refused("bad_number", f"bits={bits}, and an object has {WIDTHS[0]} to {WIDTHS[1]}")
    return bits


def check_range(numbers: numpy.ndarray, bits: int, signed: bool = False) -> None:
    """Refuses the first number that does not fit."""
    if numbers.dtype == bool or not numbers.size:
        return
    least, past = (-(1 << bits - 1), 1 << bits - 1) if signed else (0, 1 << bits)
    if least <= int(numbers.min()) and int(numbers.max()) < past:
        return
    place, number = next((k, int(one)) for k, one in enumerate(numbers.ravel()) if not least <= int(one) < past)
    index = ", ".join(map(str, numpy.unravel_index(place, numbers.shape)))
    said = f"the number at [{index}]" if index else "the number"
    hold = f"{bits} bits hold" if bits > 1 else "1 bit holds"
    more = "; signed=True places numbers below 0" if number < 0 and not signed else ""
    raise Refused("range", f"{said} is {number}, and {hold} {least} to {past - 1}{more}", place + 1)


def modulo(numbers: numpy.ndarray, bits: int) -> numpy.ndarray:
    """The numbers modulo 2^bits, as unsigned numbers."""
    if bits > 64 or numbers.dtype == object:
        return numbers.astype(object) % (1 << bits)
    size = columns.size_of(bits)
    return numbers.astype(f"u{size}") & numpy.array((1 << bits) - 1, dtype=f"u{size}")


def cells_of(numbers: numpy.ndarray, bits: int) -> bytes:
    """The cells of numbers that fit."""
    size = columns.size_of(bits)
    if numbers.dtype == object:
        return columns.cells_with([int(number) for number in numbers.ravel()], size)
    flat = numbers.astype(f"<u{min(size, 8)}").ravel()
    return flat.tobytes() if size < 16 else numpy.stack([flat, numpy.zeros_like(flat)], axis=1).tobytes()


def array_of(cells: bytes, size: int, kind: str, shape: tuple[int, ...]) -> numpy.ndarray:
    """The array of what cells hold: truth values, the smallest unsigned type, or Python's integers above 64 bits."""
    if size > 8:
        numbers = numpy.empty(len(cells) // size, dtype=object)
        numbers[:] = columns.numbers_of(cells, size)
        return numbers.reshape(shape)
    numbers = numpy.frombuffer(cells, dtype=f"<u{size}").astype(bool if kind == BIT else f"u{size}")
    return numbers.reshape(shape)


def as_signed(numbers: numpy.ndarray, bits: int) -> numpy.ndarray:
    """Patterns of so many bits as the numbers that they are in two's complement."""
    if numbers.dtype == object:
        return numpy.where(numbers >> bits - 1, numbers - (1 << bits), numbers)
    above = 8 * numbers.dtype.itemsize - bits
    kind = f"i{numbers.dtype.itemsize}"
    return (numbers << numpy.array(above, numbers.dtype)).view(kind) >> numpy.array(above, kind)


class Field(typing.NamedTuple):
    """A field: its lowest bit, its width, whether its numbers are signed, and whether they are truth values."""

    low: int
    bits: int
    signed: bool
    is_bit: bool


def fields_of(kind: numpy.dtype, widths: typing.Mapping[str, int] | None) -> dict[str, Field]:
    """The fields of a structured type, the first at the lowest bits, with the widths of their types or those that are given."""
    found, low, widths = {}, 0, widths or {}
    for name in kind.names:
        field = numpy.empty(0, kind[name])
        if field.shape != (0,):
            raise TypeError(f"field {name} has more than one number for each element")
        bits = checked_width(widths.get(name) or width_of(field))
        found[name] = Field(low, bits, field.dtype.kind == "i", field.dtype == bool and bits == 1)
        low += bits
    if set(widths) - set(found):
        raise Refused("bad_number", f"bits= names no field: {', '.join(sorted(set(widths) - set(found)))}")
    return found


def packed(numbers: numpy.ndarray, fields: typing.Mapping[str, Field]) -> numpy.ndarray:
    """Each element as the one number of its fields."""
    total = numpy.zeros(numbers.shape, dtype=object)
    for name, field in fields.items():
        check_range(numbers[name], field.bits, field.signed)
        total = total + (numbers[name].astype(object) % (1 << field.bits) << field.low)
    return total


def unpacked(numbers: numpy.ndarray, fields: typing.Mapping[str, Field], kind: numpy.dtype) -> numpy.ndarray:
    """The elements of which these are the numbers."""
    found = numpy.empty(numbers.shape, kind)
    for name, field in fields.items():
        part = modulo(numbers.astype(object) >> field.low, 64).astype("u8") & numpy.uint64(2**field.bits - 1)
        found[name] = as_signed(part, field.bits) if field.signed else part
    return found

"""Arrays in a chip: what is written with operators, and computed when it is looked at."""

import operator
import typing

import numpy

from . import cells
from .expressions import Constant, Held, Value
from .layout import bits_of, extended
from .operations import BIT, WORD
from .operators import Operators
from .running import Made

if typing.TYPE_CHECKING:
    from .chip import Chip
    from .profiling import ScriptProfile


def of_all(name: str, says: str) -> property:
    """What is known, by this name, of the whole computation of an array, which is done now where it was not."""
    return property(lambda array: getattr(array.chip.made(array).whole(), name), doc=says)


class Array(Operators):
    """An array of a chip: of words of some bits, or of truth values, which are one bit each.

    A signed array has its numbers in two's complement.

    `numpy()`, `cost`, `text`, `script` and `report` compute it, where nothing has done so yet. An array without a shape
    is a constant, and goes with arrays of any shape.
    """

    def __init__(self, chip: "Chip", shape: tuple[int, ...], value: Value,
                 made: Made | None = None, signed: bool = False) -> None:
        self.chip, self.shape, self.value, self.made, self.signed = chip, shape, value, made, signed
        # of an array of a structured type this type and where its fields lie
        self.record: tuple[numpy.dtype, typing.Mapping[str, cells.Field]] | None = None

    def of_value(self, shape: tuple[int, ...], value: Value, signed: bool) -> "Array":
        """An array of the same chip that is computed when it is looked at."""
        return Array(self.chip, shape, value, signed=signed)

    def settle(self, origin: Held | Constant, made: Made) -> None:
        """From now on it is an object or a number, and so is its value in every expression that has it."""
        self.value.origin, self.made = origin, made

    @property
    def bits(self) -> int:
        """The width of an element."""
        return self.value.bits

    @property
    def is_bit(self) -> bool:
        """Whether its elements are truth values."""
        return self.value.kind == BIT

    @property
    def size(self) -> int:
        """How many elements it has."""
        return int(numpy.prod(self.shape, dtype=object))

    def __getitem__(self, name: str) -> "Array":
        """A field of a structured type: bits of this array's object, which take no command."""
        if self.record is None or name not in self.record[1]:
            raise TypeError(f"the fields of this array are {', '.join(self.record[1]) if self.record else 'none'}, and elements are looked at "
                            "by .numpy()")
        field = self.record[1][name]
        return self.of_value(self.shape, bits_of(self.value, field.low, field.bits, BIT if field.is_bit else WORD), field.signed)

    def numpy(self) -> numpy.ndarray:
        """Its elements: truth values, the smallest type that holds them, Python's integers above 64 bits, or those of a structured type."""
        numbers = self.chip.values(self)
        return cells.unpacked(numbers, self.record[1], self.record[0]) if self.record else numbers

    def __array__(self, dtype: typing.Any = None, copy: typing.Any = None) -> "numpy.ndarray":
        return self.numpy() if dtype is None else self.numpy().astype(dtype)

    def astype(self, dtype: typing.Any = None, *, bits: int | None = None, signed: bool | None = None) -> "Array":
        """The same numbers at another width, modulo 2^bits; or their patterns read as signed or unsigned.

        Fewer bits are a slice of the same object, which takes no command; more are copied beside zeros or copies of the top
        bit. A type of NumPy says width and sign; `bool` is whether a number isn't 0.
        """
        if dtype is not None:
            if bits is not None or signed is not None:
                raise TypeError("astype takes a type, or bits= and signed=")
            kind = numpy.dtype(dtype)
            if kind == bool:
                return self if self.is_bit else self != 0
            bits, signed = cells.width_of(numpy.empty(0, kind)), kind.kind == "i"
        width = self.bits if bits is None else cells.checked_width(operator.index(bits))
        is_signed = self.signed if signed is None else bool(signed)
        if not self.is_bit and width == self.bits:
            return Array(self.chip, self.shape, self.value, self.made, is_signed)
        return self.of_value(self.shape, extended(self.value, width, self.signed), is_signed)

    def sum(self, axis: int | None = None, dtype: typing.Any = None, out: typing.Any = None, *,
            bits: int | None = None) -> "Array":
        """The sums along an axis, or of all elements, modulo 2^bits; at another width with `bits`, as after `astype`.

        Elements stand in columns, which no row command joins: the host moves halves over each other, and a tree of as
        many sums is taken as the number of elements has binary digits.
        """
        from .summing import summed
        if out is not None or (dtype is not None and bits is not None):
            raise TypeError("sum takes an axis, and bits= or a type")
        if self.is_bit and dtype is None and bits is None:
            raise TypeError("a sum of truth values needs a width: bits=8")
        return summed(self if dtype is None and bits is None else self.astype(dtype, bits=bits), axis)

    cost = of_all("cost", "What all took that it was computed from, each part once: the bbops and fills, over all banks and in one, and "
                  "the rows that the host wrote and read to place numbers and to change widths.")
    text = of_all("text", "The ops that were compiled for it and for what it was computed from; none for numbers that were placed.")
    text_as_written = of_all("text_as_written", "The ops as they were meant, before a chip with `simplify=True` simplified their texts.")
    script = of_all("script", "The lines that computed it and what it was computed from, in order; where the host moved rows, a comment "
                    "says so.")
    report = of_all("report", "What the program reported of these lines.")

    def profile(self) -> "ScriptProfile":
        """Where its cost went: by op, by instruction of its script and by statement of its ops."""
        from .profiling import profile
        return profile(self.chip.made(self))

    def __repr__(self) -> str:
        shape = "x".join(map(str, self.shape)) or "of one number"
        width = f"{self.bits} bits{', signed' if self.signed else ''}"
        return f"<simdram.Array {shape}, {'truth values' if self.is_bit else width}>"

    def __bool__(self) -> bool:
        raise TypeError("an array of a chip has no one truth value: look at .numpy()")

"""Sums along an axis, and products of matrices: the host moves elements into one column, and the chip adds and multiplies."""

import typing

import numpy

from . import cells
from .array import Array
from .costing import Cost
from .expressions import Constant, Value
from .functions import product
from .layout import Product
from .operators import arrays_of
from .running import Made


def summed(array: Array, axis: int | None) -> Array:
    """The sums along an axis, or over all elements. Each step reads the rows of an array, writes those of its two halves, and
    adds them, so that as many steps are taken as the number of elements on the axis has binary digits."""
    numbers = array.numpy()
    if not (shape := array.shape):
        raise TypeError("one number has no axis to sum along")
    if axis is not None and not -len(shape) <= axis < len(shape):
        raise ValueError(f"axis {axis} of an array of {len(shape)} dimensions")
    axis = None if axis is None else axis % len(shape)
    rest = () if axis is None else shape[:axis] + shape[axis + 1:]
    numbers = numbers.reshape(-1) if axis is None else numpy.moveaxis(numbers, axis, 0)
    made, current = array.chip.made(array), array
    while len(numbers) > 1:
        # the sum of the first half and the second, to which zeros are added where the number is odd
        half = (len(numbers) + 1) // 2
        second = numpy.concatenate([numbers[half:], numpy.zeros_like(numbers[:2 * half - len(numbers)])])
        current = moved(current, numbers[:half], made, read(current)) + moved(current, second, made, 0)
        made, numbers = array.chip.made(current), current.numpy()
    if current is array:
        current = moved(array, numbers, made, read(array))
        made = array.chip.made(current)
    if rest:
        return moved(current, numbers[0], made, read(current))
    number = Constant(int(cells.modulo(numbers, array.bits).reshape(-1)[0]), Made(cost=Cost(host_reads=read(current)), sources=(made,)))
    return Array(array.chip, (), Value(array.value.kind, array.bits, number), number.made, array.signed)


def read(array: Array) -> int:
    """How many rows the host reads of an array."""
    return array.bits * array.chip.image.banks_of(array.size)


def moved(array: Array, numbers: numpy.ndarray, made: Made, reads: int) -> Array:
    """Numbers of an array that was computed so, placed anew by the host."""
    placed = array.chip.array(cells.modulo(numbers, array.bits), bits=array.bits)
    banks = array.chip.image.banks_of(placed.size)
    script = f"# the host writes {placed.value.origin.name}\n"
    placed.value.origin.made = Made(script=script, cost=Cost(banks=banks, host_writes=array.bits * banks, host_reads=reads), sources=(made,))
    return Array(array.chip, placed.shape, placed.value, placed.value.origin.made, array.signed)


def matmul(first: typing.Any, second: typing.Any, bits: int | None = None) -> Array:
    """The product of two matrices, or of a matrix and a vector. Its sums have `bits`, or else 8, 16, 32, 64 or 128 bits, which hold all sums.

    The host reads both and places a pair of objects for each place on the inner axis; the chip multiplies and adds.
    """
    first, second = arrays_of(Product(), (first, second))
    x, y = first.numpy(), second.numpy()
    if not 2 < x.ndim + y.ndim < 5 or max(x.ndim, y.ndim) > 2 or x.shape[-1] != y.shape[0]:
        raise ValueError(f"no product of matrices has the shapes {x.shape} and {y.shape}")
    most = first.bits + second.bits + (len(y) - 1).bit_length()
    size = bits or next((size for size in (8, 16, 32, 64) if size >= most), 128)
    rows, columns, total = numpy.atleast_2d(x), y if y.ndim == 2 else y[:, None], None
    shape = len(rows), columns.shape[1]
    for k, column in enumerate(columns):
        pair = ((first, rows[:, k, None]), (second, column))
        placed = [moved(one, numpy.broadcast_to(numbers, shape), one.made, 0 if k else read(one)) for one, numbers in pair]
        total = product(*placed, size) if total is None else total + product(*placed, size)
        total.chip.compute([total])
    return Array(total.chip, x.shape[:-1] + y.shape[1:], total.value, total.made, total.signed)

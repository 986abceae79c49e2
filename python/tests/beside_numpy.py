"""What the tests of arrays share: NumPy's results for an operation, random numbers, and random expressions."""

import gc
import operator
import unittest

from support import numpy

import simdram

# those whose commands grow with the square of the width: they are tried at great widths once
LONG = ("mul", "div", "rem")
WORDS = ("add", "sub", "mul", "div", "rem", "and", "or", "xor", "min", "max")
BITS = ("eq", "ne", "gt", "ge", "lt", "le")
SIGNS = {"add": operator.add, "sub": operator.sub, "mul": operator.mul, "div": operator.floordiv, "rem": operator.mod,
         "and": operator.and_, "or": operator.or_, "xor": operator.xor, "eq": operator.eq, "ne": operator.ne,
         "gt": operator.gt, "ge": operator.ge, "lt": operator.lt, "le": operator.le}


def of_numpy(name, bits, first, second):
    """What NumPy gives for an operation on objects, modulo 2^bits; by 0 a quotient is all ones, a rest the dividend."""
    if name in ("min", "max"):
        return (numpy.minimum if name == "min" else numpy.maximum)(first, second)
    if name in ("div", "rem"):
        safe = numpy.where(second == 0, 1, second)
        return numpy.where(second == 0, 2**bits - 1 if name == "div" else first, SIGNS[name](first, safe))
    found = SIGNS[name](first, second)
    return found.astype(bool) if name in BITS else found % 2**bits


def of_chip(name, first, second):
    """The same operation on arrays of a chip."""
    if name in ("min", "max"):
        return (simdram.minimum if name == "min" else simdram.maximum)(first, second)
    return SIGNS[name](first, second)


def ones(number):
    return bin(number).count("1")


def numbers(dice, bits, shape):
    """Random numbers of a width as an array of objects; the least and the greatest among them."""
    count = int(numpy.prod(shape, dtype=int))
    widths = (bits, bits, max(1, bits // 2))
    drawn = [dice.choice((0, 1, 2**bits - 1, *map(dice.getrandbits, widths))) for _ in range(count)]
    made = numpy.empty(count, dtype=object)
    made[:] = drawn
    return made.reshape(shape)


def objects(chip):
    """The bases and widths of the objects that are left."""
    gc.collect()
    chip._sweep()
    return [(one.base, one.width) for one in chip.image.objects]


def shape_of(dice, most):
    """A random shape of one to three dimensions, of at most so many elements."""
    while True:
        shape = tuple(dice.randrange(1, 12) for _ in range(dice.randrange(1, 4)))
        if numpy.prod(shape) <= most:
            return shape


class Tree:
    """Random expressions, built at once on a chip's arrays and on NumPy's."""

    def __init__(self, dice, chip, bits, shape, leaves, heavy):
        self.dice, self.bits, self.shape, self.heavy = dice, bits, shape, heavy
        self.words = [self.leaf(chip, numbers(dice, bits, shape), bits) for _ in range(leaves)]
        self.flags = [self.leaf(chip, numbers(dice, 1, shape).astype(bool), None) for _ in range(2)]

    @staticmethod
    def leaf(chip, values, bits):
        return chip.array(values, bits=bits), values

    def word(self, depth):
        """An expression of words: the chip's and NumPy's."""
        if depth == 0 or self.dice.random() < 0.1:
            return self.dice.choice(self.words)
        form = self.dice.randrange(6)
        if form == 0:
            three = self.bit(depth - 1), self.word(depth - 1), self.word(depth - 1)
            (condition, first, second), (held, one, two) = zip(*three)
            return simdram.where(condition, first, second), numpy.where(held, one, two)
        if form == 1:
            return self.one_word(*self.word(depth - 1))
        name = self.dice.choice([name for name in WORDS if self.heavy or name not in LONG])
        first, one = self.word(depth - 1)
        if self.dice.random() < 0.2:
            plain = (0, 1, 2**self.bits - 1, 1 << self.dice.randrange(self.bits))
            number = self.dice.choice((*plain, self.dice.getrandbits(self.bits)))
            alike = numpy.full(self.shape, number, dtype=object)
            return of_chip(name, first, number), of_numpy(name, self.bits, one, alike)
        second, two = self.word(depth - 1)
        return of_chip(name, first, second), of_numpy(name, self.bits, one, two)

    def one_word(self, array, held):
        """An operation on one word."""
        form = self.dice.randrange(4)
        if form == 0:
            return ~array, 2**self.bits - 1 - held
        if form == 1:
            return array << 1, held * 2 % 2**self.bits
        if form == 2 and self.heavy:
            return simdram.bitcount(array), numpy.vectorize(ones, otypes=[object])(held)
        return array >> 1, held // 2

    def bit(self, depth):
        """An expression of truth values."""
        if depth == 0:
            return self.dice.choice(self.flags)
        name = self.dice.choice(BITS if self.dice.random() < 0.5 else (*BITS, "and", "or", "xor"))
        if name in BITS and self.dice.random() < 0.7:
            (first, second), (one, two) = zip(self.word(depth - 1), self.word(depth - 1))
            return SIGNS[name](first, second), of_numpy(name, self.bits, one, two)
        (first, second), (one, two) = zip(self.bit(depth - 1), self.bit(depth - 1))
        if self.dice.random() < 0.3:
            return ~SIGNS[name](first, second), ~SIGNS[name](one, two)
        return SIGNS[name](first, second), SIGNS[name](one, two)


class Beside(unittest.TestCase):
    """Comparisons of arrays."""

    def same(self, array, expected):
        """The array has NumPy's elements, shape and type."""
        found = array.numpy()
        kind = bool if array.is_bit else object if array.bits > 64 else next(
            f"u{size}" for size in (1, 2, 4, 8) if array.bits <= 8 * size)
        self.assertEqual((found.shape, found.dtype), (expected.shape, numpy.dtype(kind)))
        self.assertTrue((found.astype(object) == expected.astype(object)).all(), f"{array.text}\n{found}\n{expected}")

"""Each operation of arrays, against NumPy's."""

import random
import unittest

from beside_numpy import BITS, LONG, SIGNS, WORDS, Beside, numbers, of_chip, of_numpy, ones, shape_of
from support import needs_numpy, needs_program, numpy

import simdram


@needs_numpy
@needs_program
class Operations(Beside):
    """Each operation alone, against NumPy's."""

    def test_every_operator_at_many_widths(self):
        dice = random.Random(1)
        for bits in (1, 2, 7, 8, 13, 31, 64, 65, 128):
            chip = simdram.Chip(banks=2, rows=1006, words=1)
            shape = shape_of(dice, 100)
            one, two = numbers(dice, bits, shape), numbers(dice, bits, shape)
            a, b = chip.array(one, bits=bits), chip.array(two, bits=bits)
            for name in (*WORDS, *BITS):
                if bits <= 13 or name not in LONG:
                    self.same(of_chip(name, a, b), of_numpy(name, bits, one, two))
            self.same(~a, 2**bits - 1 - one)
            self.same(a >> 1, one // 2)
            self.same(a << 1, one * 2 % 2**bits)
            self.same(simdram.where(a > b, a, b), numpy.maximum(one, two))

    def test_the_long_ones_at_great_widths(self):
        dice = random.Random(2)
        for bits in (32, 65):
            chip = simdram.Chip(banks=1, rows=600, words=1)
            one, two = numbers(dice, bits, (3, 2)), numbers(dice, bits, (3, 2))
            a, b = chip.array(one, bits=bits), chip.array(two, bits=bits)
            self.same(a * b, one * two % 2**bits)
            self.same(simdram.bitcount(a), numpy.vectorize(ones, otypes=[object])(one))
            quotient, rest = divmod(a, b)
            simdram.compute(quotient, rest)
            self.same(quotient, of_numpy("div", bits, one, two))
            self.same(rest, of_numpy("rem", bits, one, two))
            self.assertEqual(quotient.text.count("op "), 1)

    def test_the_types_of_numpy_at_their_own_widths(self):
        for kind in ("u1", "u2", "u4", "u8"):
            chip = simdram.Chip(banks=1, rows=1006, words=1)
            one = numpy.array([[0, 1, 200], [255, 17, 99]], dtype=kind) * numpy.array(1, dtype=kind)
            two = numpy.array([[3, 250, 200], [1, 18, 7]], dtype=kind)
            a, b = chip.array(one), chip.array(two)
            for name in ("add", "sub", "and", "or", "xor", *BITS, *(LONG if kind in ("u1", "u2") else ())):
                found, expected = SIGNS[name](a, b).numpy(), SIGNS[name](one, two)
                self.assertEqual((found.dtype, found.tolist()), (expected.dtype, expected.tolist()), name)
            place = numpy.array(1, dtype=kind)
            for found, expected in ((~a, ~one), (a << 1, one << place), (a >> 1, one >> place),
                                    (simdram.minimum(a, b), numpy.minimum(one, two)),
                                    (simdram.maximum(a, b), numpy.maximum(one, two)),
                                    (simdram.where(a > b, a - b, b - a), numpy.where(one > two, one - two, two - one))):
                self.assertEqual((found.numpy().dtype, found.numpy().tolist()), (expected.dtype, expected.tolist()))

    def test_arrays_as_they_are_placed(self):
        chip = simdram.Chip(banks=2, rows=600, words=1)
        for kind in ("u1", "i1", ">u2", "i4", "u8", "i8", "bool"):
            for shape in ((), (7,), (2, 3, 4), (1, 100), (1, 1)):
                for order in "CF":
                    counted = numpy.arange(numpy.prod(shape, dtype=int)).reshape(shape) % 100
                    given = numpy.asarray(counted, dtype=kind, order=order)
                    for bits in (7, 64, 65, 128):
                        found = chip.array(given, bits=bits).numpy()
                        self.assertEqual((found.shape, found.tolist()), (shape, given.astype(int).tolist()))
        self.assertEqual(chip.array(numpy.array([5, 2**64 - 1], dtype="u8"), bits=100).numpy().tolist(), [5, 2**64 - 1])
        self.assertEqual(chip.array([5, 2**99], bits=100).numpy().tolist(), [5, 2**99])
        self.assertEqual((chip.array(7, bits=3) + 1).numpy().tolist(), 0)

    def test_truth_values(self):
        chip = simdram.Chip(banks=1, rows=64, words=1)
        one, two = numpy.array([0, 0, 1, 1], dtype=bool), numpy.array([0, 1, 0, 1], dtype=bool)
        a, b = chip.array(one), chip.array(two)
        for name in ("and", "or", "xor", *BITS):
            self.same(SIGNS[name](a, b), SIGNS[name](one, two))
        self.same(~a, ~one)
        self.same(simdram.where(a, b, ~b), numpy.where(one, two, ~two))
        self.same(simdram.minimum(a, b), numpy.minimum(one, two))
        self.same(simdram.maximum(a, True), numpy.maximum(one, True))
        self.assertEqual((a.bits, a.is_bit, chip.array([1, 0], bits=1).is_bit), (1, True, False))

    def test_numbers_beside_arrays(self):
        chip = simdram.Chip(banks=1, rows=200, words=1)
        x = numpy.array([3, 10, 200], dtype=numpy.uint8)
        a = chip.array(x)
        other = [3, 4, 200]
        for found, expected in (
                (a + 5, x + 5), (250 - a, 250 - x), (7 // a, 7 // x), (100 % a, 100 % x), (x + a, x + x),
                (3 * a, x * 3), (a & 15, x & 15), (15 ^ a, x ^ 15), (a > 10, x > 10), (10 >= a, 10 >= x),
                (a << 3, x << 3), (a >> 9, x * 0),
                (simdram.where(a > 5, a, 0), numpy.where(x > 5, x, 0)), (chip.array(5, bits=8) * a, x * 5),
                (a + numpy.uint8(1), x + 1), (a == other, x == other)):
            self.assertEqual(found.numpy().tolist(), numpy.asarray(expected).astype(found.numpy().dtype).tolist())
        nine = chip.array(4, bits=8) + 5
        self.assertEqual((nine.numpy().shape, int(nine.numpy())), ((), 9))
        self.assertEqual((a + nine).numpy().tolist(), [12, 19, 209])


if __name__ == "__main__":
    unittest.main()

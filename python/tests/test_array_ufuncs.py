"""NumPy's functions on arrays of a chip, and sums along an axis."""

import operator
import unittest

from support import needs_numpy, needs_program, numpy

import simdram


@needs_numpy
@needs_program
class Ufuncs(unittest.TestCase):
    def setUp(self):
        self.x = numpy.arange(12, dtype=numpy.uint8).reshape(3, 4) * numpy.uint8(19)
        self.y = (self.x[::-1] + numpy.uint8(3)) % numpy.uint8(200)
        self.chip = simdram.Chip(rows=400, words=1)
        self.a, self.b = self.chip.array(self.x), self.chip.array(self.y)

    def test_two_operands(self):
        """Each function on two arrays of a chip, and where the one or the other is an array of NumPy or a number."""
        for name in ("add", "subtract", "multiply", "floor_divide", "remainder", "bitwise_and", "bitwise_or", "bitwise_xor", "minimum", "maximum",
                     "equal", "not_equal", "less", "less_equal", "greater", "greater_equal", "logical_and", "logical_or", "logical_xor"):
            function = getattr(numpy, name)
            for one, other, plain in ((self.a, self.b, self.y), (self.x, self.b, self.y), (self.a, self.y, self.y), (self.a, 7, numpy.uint8(7))):
                found = function(one, other)
                self.assertIsInstance(found, simdram.Array)
                self.assertEqual(found.numpy().tolist(), function(self.x, plain).tolist(), name)
        quotient, rest = numpy.divmod(self.a, self.b)
        self.assertEqual((quotient.numpy().tolist(), rest.numpy().tolist()), tuple(one.tolist() for one in numpy.divmod(self.x, self.y)))

    def test_one_operand(self):
        for name in ("invert", "negative", "positive", "absolute", "logical_not"):
            function = getattr(numpy, name)
            self.assertEqual(function(self.a).numpy().tolist(), function(self.x).tolist(), name)
        self.assertEqual(numpy.left_shift(self.a, 2).numpy().tolist(), (self.x << numpy.uint8(2)).tolist())

    def test_operators_of_an_array_of_numpy(self):
        for function in (operator.add, operator.sub, operator.mul, operator.and_, operator.gt, operator.le, operator.eq):
            self.assertEqual(function(self.x, self.b).numpy().tolist(), function(self.x, self.y).tolist())

    def test_what_is_refused(self):
        for call, said in ((lambda: numpy.sin(self.a), "np.sin with these operands is none of a chip's"),
                           (lambda: numpy.add(self.a, self.b, where=self.x > 3), "np.add"), (lambda: numpy.add.accumulate(self.a), "np.add.accumulate"),
                           (lambda: numpy.add(self.x, self.b, out=self.x), "cannot write an array of a chip into one of NumPy")):
            with self.assertRaisesRegex(TypeError, said):
                call()


@needs_numpy
@needs_program
class Sums(unittest.TestCase):
    def test_along_each_axis(self):
        chip = simdram.Chip(rows=500, words=1)
        for shape in ((1,), (2,), (7,), (3, 5), (2, 3, 4)):
            x = numpy.random.RandomState(len(shape)).randint(0, 256, shape, dtype=numpy.uint8)
            a = chip.array(x)
            for axis in (None, *range(-len(shape), len(shape))):
                self.assertEqual(a.sum(axis).numpy().tolist(), x.sum(axis, dtype=numpy.uint8).tolist(), (shape, axis))
                self.assertEqual(a.sum(axis, bits=12).numpy().tolist(), x.sum(axis).tolist(), (shape, axis))
            self.assertEqual(numpy.sum(a, axis=0).numpy().tolist(), numpy.sum(x, axis=0, dtype=numpy.uint8).tolist())
        for wrong in ({"axis": 3}, {"axis": -4}, {"out": a}):
            with self.assertRaises((TypeError, ValueError)):
                a.sum(**wrong)

    def test_signed_and_truth_values(self):
        chip = simdram.Chip(rows=500, words=1)
        x = numpy.array([[-3, 5, -9], [100, 27, -128]], dtype=numpy.int8)
        a = chip.array(x, signed=True)
        self.assertEqual(a.sum(axis=0).numpy().tolist(), x.sum(axis=0, dtype=numpy.int8).tolist())
        self.assertEqual(a.sum(dtype="i2").numpy().tolist(), x.sum())
        self.assertEqual((a > 0).sum(bits=4).numpy().tolist(), 3)
        with self.assertRaisesRegex(TypeError, "needs a width"):
            (a > 0).sum()

    def test_its_cost(self):
        """A tree: as many sums as the number of elements has digits, whatever else the rows hold, and the host's rows."""
        chip = simdram.Chip(rows=500, words=1)
        a = chip.array(numpy.arange(40, dtype=numpy.uint8).reshape(8, 5))
        total = a.sum(axis=0)
        self.assertEqual((total.cost.aap, total.cost.ap), (3 * 65, 3 * 8))
        # the array is written; three times it is read, and two halves are written; at last a row is read and written
        self.assertEqual((total.cost.host_writes, total.cost.host_reads), (8 + 3 * 16 + 8, 3 * 8 + 8))
        self.assertEqual((total + 1).cost.commands, 3 * 73 + 57)
        number = a.sum()
        self.assertEqual((number.cost.commands, number.shape), (6 * 73, ()))
        self.assertEqual((a + number).cost.commands, 6 * 73 + 49 + 8)


if __name__ == "__main__":
    unittest.main()

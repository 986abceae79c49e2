"""What a chip refuses, by the program's words."""

import unittest

from beside_numpy import objects
from support import needs_numpy, needs_program, numpy

import simdram


@needs_numpy
@needs_program
class Refusals(unittest.TestCase):
    """What the program refuses, by its words."""

    def setUp(self):
        self.chip = simdram.Chip(banks=1, rows=96, words=1)
        self.a = self.chip.array([1, 2, 3], bits=8)

    def refused(self, word, place, act):
        with self.assertRaises(simdram.Refused) as caught:
            act()
        self.assertEqual((caught.exception.word, caught.exception.place), (word, place), caught.exception)
        return str(caught.exception)

    def test_chips(self):
        for banks, rows, words in ((0, 64, 1), (17, 64, 1), (1, 63, 1), (1, 1007, 1), (1, 64, 0), (1, 64, 1025),
                                   (16, 1006, 1024)):
            self.refused("geometry", None, lambda: simdram.Chip(banks=banks, rows=rows, words=words))

    def test_arrays(self):
        chip = self.chip
        self.assertIn("[1, 0] is -1", self.refused("range", 3, lambda: chip.array([[1, 2], [-1, 4]], bits=8)))
        said = self.refused("range", 2, lambda: chip.array([1, 256], bits=8))
        self.assertIn("[1] is 256, and 8 bits hold 0 to 255", said)
        self.refused("range", 1, lambda: chip.array([2**64], bits=64))
        self.assertIn("the number is 9, and 3 bits hold", self.refused("range", 1, lambda: chip.array(9, bits=3)))
        said = self.refused("too_large", None, lambda: chip.array(numpy.zeros(65, dtype=int), bits=8))
        self.assertIn("the array has 65 elements, and there is room for 1 to 64", said)
        self.refused("too_large", None, lambda: chip.array(numpy.zeros((0, 3), dtype=int), bits=8))
        self.assertIn("longest free piece has 56", self.refused("no_rows", None, lambda: chip.array([1], bits=64)))
        for bits in (0, 129):
            self.refused("bad_number", None, lambda: chip.array([1], bits=bits))
        self.refused("bad_number", None, lambda: chip.array([2**70]))
        for wrong in ([1.5], numpy.array([1.0]), ["a"], None, numpy.array([1j]), numpy.ma.array([1, 2], mask=[0, 1])):
            with self.assertRaises(TypeError):
                chip.array(wrong, bits=8)

    def test_operations(self):
        a, chip = self.a, self.chip
        wide, flag, more = chip.array([1, 2, 3], bits=9), chip.array([True, False, True]), chip.array([1, 2], bits=8)
        self.refused("width", 2, lambda: a + wide)
        self.refused("size", 2, lambda: a + more)
        self.refused("kind", 1, lambda: flag + flag)
        self.refused("kind", 2, lambda: a & flag)
        self.refused("kind", 3, lambda: simdram.where(a, a, a))
        self.refused("range", 1, lambda: a + 256)
        self.refused("range", 1, lambda: a - -1)
        self.refused("width", 2, lambda: a + chip.array([1, 2], bits=7))
        self.refused("unknown", None, lambda: simdram.apply("ad", a, a))
        self.refused("width", None, lambda: simdram.op("op f(s: bit) -> y: word { serial up () { y = s; } }")(flag))
        self.refused("arity", None, lambda: simdram.op("op f(a: word) -> y: word { y = not(a); }")(a, a))
        for wrong in (lambda: a + 1.5, lambda: a << a, lambda: bool(a > 1), lambda: simdram.where(True, 1, 2),
                      lambda: a + "b", lambda: simdram.compute(5), lambda: simdram.op(5), lambda: simdram.scan(chip, 5, a=a)):
            with self.assertRaises(TypeError):
                wrong()
        with self.assertRaisesRegex(ValueError, "different chips"):
            a + simdram.Chip(banks=1, rows=96, words=1).array([1, 2, 3], bits=8)

    def test_a_chip_without_room_is_as_before(self):
        before = self.chip.image.file()
        small = [self.chip.array([k], bits=12) for k in range(4)]
        z = small[0] * small[1]
        self.assertIn("bbop_trsp_init", self.refused("no_rows", None, z.numpy))
        self.assertEqual([one.numpy().tolist() for one in small], [[0], [1], [2], [3]])
        del small[2:]
        self.assertEqual(z.numpy().tolist(), [0])
        del small, z
        self.assertEqual(objects(self.chip), [(0, 8)])
        self.assertEqual(self.chip.image.file()[:38], before[:38])

    def test_a_full_table(self):
        chip = simdram.Chip(banks=1, rows=1006, words=1)
        all_of_it = [chip.array([k % 2], bits=1) for k in range(256)]
        said = self.refused("table_full", None, lambda: chip.array([1], bits=1))
        self.assertIn("a chip has at most 256 arrays at once", said)
        both = all_of_it[0] + all_of_it[1]
        self.refused("table_full", None, both.numpy)
        del all_of_it[3:]
        self.assertEqual(both.numpy().tolist(), [1])
        self.assertEqual([one.numpy().tolist() for one in all_of_it], [[0], [1], [0]])

    def test_arrays_that_are_gone_while_an_expression_needs_them(self):
        b = self.chip.array([5, 5, 5], bits=8)
        z = self.a + b
        del b
        other = self.chip.array([9, 9, 9], bits=8)
        self.assertEqual((z.numpy().tolist(), other.numpy().tolist()), ([6, 7, 8], [9, 9, 9]))

    def test_stopped(self):
        with self.assertRaisesRegex(simdram.Stopped, "(?s)scan ended with status 15: query line 1 syntax.*column 1"):
            simdram.scan(self.chip, "a >= 10", a=self.a)
        said = self.refused("no_object", 0, lambda: simdram.scan(self.chip, "ge(b, 10)", a=self.a))
        self.assertIn("no object has the name b\n  objects: a", said)
        said = self.refused("slice", 0, lambda: simdram.scan(self.chip, "ge(a[4:9], 1)", a=self.a))
        self.assertIn("the highest bit of a is 7", said)
        said = self.refused("range", 0, lambda: simdram.scan(self.chip, "ge(a, 256)", a=self.a))
        self.assertIn("a has 8 bits, which hold 0 to 255", said)
        self.assertEqual(simdram.scan(self.chip, "ge(query, 2)", query=self.a).count, 2)
        self.refused("bad_name", None, lambda: simdram.scan(self.chip, "ge(a, 1)", a_name_of_seventeen=self.a))


if __name__ == "__main__":
    unittest.main()

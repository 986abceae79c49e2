"""Signed arrays and other widths, beside NumPy."""

import operator
import random
import unittest

from support import needs_numpy, needs_program, numpy

import simdram


@needs_numpy
@needs_program
class Signed(unittest.TestCase):
    """Two's complement, beside NumPy's signed types."""

    def same(self, found, expected):
        self.assertEqual((found.numpy().dtype, found.numpy().tolist()), (expected.dtype, expected.tolist()), found.text)

    def drawn(self, kind, count=24):
        info, dice = numpy.iinfo(kind), random.Random(7)
        numbers = [info.min, info.max, 0, -1, 1, info.min + 1]
        numbers += [dice.randrange(info.min, info.max + 1) for _ in range(count - len(numbers))]
        dice.shuffle(numbers)
        return numpy.array(numbers, dtype=kind)

    def test_every_operator(self):
        for kind in ("i1", "i2", "i4", "i8"):
            chip = simdram.Chip(banks=1, rows=1006, words=1)
            x, y = self.drawn(kind), self.drawn(kind)[::-1].copy()
            a, b = chip.array(x, signed=True), chip.array(y, signed=True)
            self.same(a, x)
            signs = [operator.add, operator.sub, operator.and_, operator.or_, operator.xor, operator.eq, operator.ne,
                     operator.gt, operator.ge, operator.lt, operator.le]
            for sign in signs + [operator.mul] * (kind in ("i1", "i2")):
                self.same(sign(a, b), sign(x, y))
                self.same(sign(a, -3), sign(x, numpy.array(-3, kind)))
                self.same(sign(5, b), sign(numpy.array(5, kind), y))
            for found, expected in ((-a, -x), (~a, ~x), (abs(a), numpy.abs(x)), (+a, x), (a << 1, x << numpy.array(1, kind)),
                                    (simdram.minimum(a, b), numpy.minimum(x, y)), (simdram.maximum(a, b), numpy.maximum(x, y)),
                                    (simdram.maximum(a, 0), numpy.maximum(x, numpy.array(0, kind))),
                                    (simdram.where(a > b, a, b), numpy.where(x > y, x, y))):
                self.same(found, expected)
            for places in (0, 1, 2, 3, 7):
                self.same(a >> places, x >> numpy.array(places, kind))
            self.assertEqual((a >> 99).numpy().tolist(), numpy.where(x < 0, -1, 0).tolist())

    def test_quotients_and_remainders(self):
        chip = simdram.Chip(banks=1, rows=1006, words=1)
        x, y = self.drawn("i1", 64), self.drawn("i1", 64)[::-1].copy()
        y[y == 0] = 7
        a, b = chip.array(x, signed=True), chip.array(y, signed=True)
        expected = numpy.array([[one // two, one % two] for one, two in zip(x.tolist(), y.tolist())]).astype("i1")
        for found in (divmod(a, b), (a // b, a % b)):
            self.same(found[0], expected[:, 0])
            self.same(found[1], expected[:, 1])
        self.same(a // -3, x // numpy.array(-3, "i1"))
        self.same(a % 5, x % numpy.array(5, "i1"))
        self.assertEqual((a % 0).numpy().tolist(), x.tolist())

    def test_constants_of_both_signs(self):
        for bits in (1, 2, 5, 8, 64, 65, 128):
            chip = simdram.Chip(banks=1, rows=1006, words=1)
            least, most = -(1 << bits - 1), (1 << bits - 1) - 1
            x = [least, most, -1, 0]
            a = chip.array(x, bits=bits, signed=True)
            self.assertEqual(a.numpy().tolist(), x)
            for number in (least, most, 0, -1):
                for sign in (operator.gt, operator.ge, operator.lt, operator.le, operator.eq, operator.ne):
                    self.assertEqual(sign(a, number).numpy().tolist(), [sign(one, number) for one in x], (bits, number, sign))
            self.assertEqual((a + least).numpy().tolist(), [(one + 2 * least) % (1 << bits) + least for one in x])
            for number in (least - 1, most + 1):
                with self.assertRaisesRegex(simdram.Refused, "range"):
                    chip.array([number], bits=bits, signed=True)
            self.assertEqual(int(chip.array(least, bits=bits, signed=True).numpy()), least)

    def test_commands(self):
        chip = simdram.Chip(banks=1, rows=300, words=1)
        a, b = chip.array([-3, 4], bits=8, signed=True), chip.array([5, -128], bits=8, signed=True)
        for array, most in ((a > b, 42), (a >= b, 42), (a < 0, 9), (-a, 50), (a >> 1, 50), (a + b, 73)):
            self.assertLessEqual(array.cost.aap + array.cost.ap, most, array.text)
        self.assertIn("y = maj(not(a), b, s0);", (a > b).text)

    def test_texts_are_canonical(self):
        chip = simdram.Chip(banks=1, rows=300, words=1)
        a, b = chip.array([-3, 4], bits=8, signed=True), chip.array([5, -128], bits=8, signed=True)
        for z in (simdram.where((a > b) & (a >= 3), -a, a >> 1), simdram.where(a > b, a, 0), a < 0):
            self.assertEqual("".join(one.text for one in simdram.ops(z.text).values()), z.text)

    def test_what_is_not_allowed(self):
        chip = simdram.Chip(banks=1, rows=300, words=1)
        a, b = chip.array([-3], bits=8, signed=True), chip.array([3], bits=8)
        for sign in (operator.add, operator.gt, operator.floordiv):
            with self.assertRaisesRegex(TypeError, "of a signed and an unsigned array"):
                sign(a, b)
        self.assertEqual((a.astype(signed=False) + b).numpy().tolist(), [0])
        with self.assertRaisesRegex(TypeError, "a is signed, and a query compares unsigned numbers"):
            simdram.scan(chip, "ge(a, 3)", a=a)
        with self.assertRaisesRegex(simdram.Refused, "signed=True places numbers below 0"):
            chip.array([-3], bits=8)

    def test_results_keep_the_sign(self):
        chip = simdram.Chip(banks=1, rows=300, words=1)
        a = chip.array([-3, 4], bits=8, signed=True)
        own = simdram.op("op own(a: word) -> y: word, z: bit { y = not(a); z = or_red(a); }")
        word, bit = own(a)
        self.assertEqual((word.numpy().tolist(), bit.numpy().tolist()), ([2, -5], [True, True]))
        self.assertEqual((simdram.bitcount(a).numpy().dtype, simdram.bitcount(a).numpy().tolist()), (numpy.dtype("u1"), [7, 1]))
        self.assertEqual(repr(a), "<simdram.Array 2, 8 bits, signed>")


@needs_numpy
@needs_program
class Widths(unittest.TestCase):
    """`astype`."""

    def test_between_numpys_types(self):
        chip = simdram.Chip(banks=1, rows=1006, words=1)
        for kind in ("i1", "u1", "i2", "u4", "i8"):
            info = numpy.iinfo(kind)
            x = numpy.array([info.min, info.max, 0, 1, info.max // 3], dtype=kind)
            a = chip.array(x, signed=kind[0] == "i")
            for other in ("i1", "u1", "u2", "i4", "u8", bool):
                found, expected = a.astype(other).numpy(), x.astype(other)
                self.assertEqual((found.dtype, found.tolist()), (expected.dtype, expected.tolist()), (kind, other))

    def test_bits(self):
        chip = simdram.Chip(banks=1, rows=1006, words=1)
        a = chip.array([-3, 100], bits=8, signed=True)
        wide = a.astype(bits=100)
        self.assertEqual((wide.numpy().tolist(), wide.bits, wide.signed), ([-3, 100], 100, True))
        self.assertEqual(a.astype(bits=3).numpy().tolist(), [-3, -4])
        self.assertEqual(a.astype(bits=3, signed=False).numpy().tolist(), [5, 4])
        self.assertEqual(a.astype(bits=16, signed=False).numpy().tolist(), [65533, 100])
        flags = a > 0
        self.assertEqual((flags.astype(bits=8).numpy().tolist(), (flags.astype(bits=8) + 7).numpy().tolist()), ([0, 1], [7, 8]))
        self.assertIs(flags.astype(bool), flags)
        self.assertEqual(int(chip.array(300, bits=16).astype(bits=8).numpy()), 44)
        for wrong in ({"dtype": "f4"}, {"dtype": "u1", "bits": 8}):
            with self.assertRaises((TypeError, simdram.Refused)):
                a.astype(**wrong)
        with self.assertRaisesRegex(simdram.Refused, "bad_number"):
            a.astype(bits=129)

    def test_the_host_moves_nothing(self):
        chip = simdram.Chip(banks=1, rows=300, words=1)
        x = numpy.array([200, 100], dtype=numpy.uint8)
        a = chip.array(x)
        total = (a & 127).astype(bits=16) + a.astype("u2")
        self.assertEqual(total.numpy().tolist(), ((x & 127).astype("u2") + x).tolist())
        self.assertEqual(total.cost.aap, 16 + 16 + 129)
        self.assertEqual((total.cost.host_reads, total.cost.host_writes), (0, 8))
        wide = a.astype(bits=16)
        self.assertEqual((wide.cost.aap, wide.cost.ap, wide.cost.host_reads, wide.cost.host_writes), (16, 0, 0, 8))
        self.assertRegex(wide.script, r"^bbop_trsp_init (v\d+), 2, 16\nbbop_e0 \1\[0:8\], v\d+, 2, 8\nfill \1\[8:16\], 0\n$")
        before = chip.host_reads, chip.host_writes
        narrow = a.astype(bits=4)
        self.assertEqual((narrow.cost.commands, narrow.script, chip.host_reads, chip.host_writes), (0, "", *before))
        narrow.numpy()
        self.assertEqual((chip.host_reads - before[0], chip.host_writes - before[1]), (4, 0))

    def test_the_same_width_moves_nothing(self):
        chip = simdram.Chip(banks=1, rows=300, words=1)
        total = chip.array([200, 100], bits=8) + chip.array([1, 2], bits=8)
        seen = total.astype(signed=True)
        self.assertEqual((seen.numpy().tolist(), total.numpy().tolist()), ([-55, 102], [201, 102]))
        self.assertEqual((total.script, total.cost), (seen.script, seen.cost))
        self.assertEqual(seen.cost.aap, 65)

    def test_a_dot_product(self):
        """A product of words that are widened is one with all its bits, and takes what it takes."""
        chip = simdram.Chip(banks=1, rows=600, words=1)
        a, b = (chip.array(numpy.arange(3, dtype=numpy.uint8) + k) for k in range(2))
        z = (a.astype(bits=16) * b.astype(bits=16)).astype(bits=8)
        self.assertEqual(z.numpy().tolist(), [0, 2, 6])
        product = simdram.product(a, b)
        self.assertEqual((z.cost.aap, z.cost.ap, z.cost.commands), (product.cost.aap, product.cost.ap, 611))
        self.assertEqual((z.cost.host_reads, z.cost.host_writes), (0, 8 + 8))
        self.assertEqual((z + z * a).cost.commands, z.cost.commands + (a + a * b).cost.commands)


if __name__ == "__main__":
    unittest.main()

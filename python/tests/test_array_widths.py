"""Arrays that are bits of others: slices, shifts, joins, structured types, whole products and products of matrices, beside NumPy."""

import gc
import random
import unittest

from beside_numpy import numbers, objects
from support import needs_numpy, needs_program, numpy

import simdram


def in_twos(held, bits):
    """Numbers modulo 2^bits as signed ones."""
    return (held + 2**(bits - 1)) % 2**bits - 2**(bits - 1)


@needs_numpy
@needs_program
class Bits(unittest.TestCase):
    def setUp(self):
        self.chip = simdram.Chip(banks=2, rows=1006, words=1)
        self.dice = random.Random(11)

    def drawn(self, bits, count=100, signed=False):
        held = numbers(self.dice, bits, (count,))
        held = in_twos(held, bits) if signed else held
        return self.chip.array(held, bits=bits, signed=signed), held

    def same(self, array, expected, commands=None):
        found = array.numpy()
        self.assertTrue((found.astype(object) == expected).all(), f"{array.script}\n{found}\n{expected}")
        if commands is not None:
            self.assertEqual((array.cost.per_bank.commands, array.cost.host_reads), (commands, 0), array.script)

    def test_other_widths(self):
        for bits in (1, 2, 7, 8, 33, 64, 65, 128):
            for signed in (False, True):
                a, x = self.drawn(bits, signed=signed)
                for to in (1, 3, 8, 64, 100, 128):
                    wanted = in_twos(x, to) if signed else x % 2**to
                    self.same(a.astype(bits=to), wanted, 0 if to <= bits else to)

    def test_shifts(self):
        for bits in (1, 2, 8, 13, 128):
            for signed in (False, True):
                a, x = self.drawn(bits, signed=signed)
                for places in (0, 1, 2, bits // 2, bits - 1, bits, bits + 3):
                    self.same(a >> places, x >> places, None if places >= bits else bits if places and (not signed or bits > 1) else 0)
                    up = x << places
                    self.same(a << places, in_twos(up, bits) if signed else up % 2**bits, None if places >= bits else bits if places else 0)

    def test_the_high_half_is_a_slice(self):
        a, x = self.drawn(8)
        high, low = (a >> 4).astype(bits=4), a.astype(bits=4)
        self.same(high, x >> 4, 0)
        self.assertEqual(high.script, "")
        self.same(high + low, ((x >> 4) + x) % 16, 37)
        self.assertRegex((high + low).script, r"^bbop_trsp_init (v\d+), 100, 4\nbbop_e0 \1, (v\d+)\[0:4\], \2\[4:8\], 100, 4\n$")
        self.same(simdram.concat(low, high), x, 0)
        self.same(simdram.concat(high, low), x >> 4 | x % 16 << 4, 8)
        self.same((a << 3 >> 5).astype(bits=3), x % 32 >> 2, 0)
        self.same(simdram.bit(a, 7), x > 127, 0)
        self.same((a & 0x3c) >> 2, x >> 2 & 15, 8)
        self.same((a & 0x3c).astype(bits=6), x & 0x3c, 8)
        self.same((a & 15).astype(bits=4), x & 15, 0)
        self.same(simdram.where(simdram.bit(a, 0), high, low), numpy.where(x % 2 == 1, x >> 4, x % 16))

    def test_bits_of_what_is_not_computed(self):
        (a, x), (b, y) = self.drawn(8), self.drawn(8)
        z = a + b
        self.same((z >> 4).astype(bits=4), (x + y) % 256 >> 4, 73)
        parts = (z * b).astype(bits=3), simdram.bit(z * b, 7), z
        simdram.compute(*parts)
        for part, wanted in zip(parts, ((x + y) * y % 8, (x + y) * y % 256 > 127, (x + y) % 256)):
            self.same(part, wanted)

    def test_an_object_stays_while_bits_of_it_are_read(self):
        self.chip = simdram.Chip(banks=1, rows=64, words=1)
        a, x = self.drawn(16, 9)
        high = (a >> 8).astype(bits=8)
        high.numpy()
        del a
        self.assertEqual(objects(self.chip), [(0, 16)])
        b, _ = self.drawn(16, 9)
        self.same(high, x >> 8, 0)
        del high, b
        gc.collect()
        self.assertEqual(objects(self.chip), [])

    def test_random(self):
        """Trees of slices, joins, shifts, sums and products of odd widths."""
        for seed in range(25):
            self.dice = dice = random.Random(seed)
            self.chip = simdram.Chip(banks=1, rows=1006, words=1)
            pool = [self.drawn(dice.choice((1, 3, 4, 8, 13)), 40) for _ in range(3)]
            for _ in range(6):
                (a, x), (b, y) = dice.choice(pool), dice.choice(pool)
                low, to = dice.randrange(a.bits), dice.randint(1, 20)
                pool.append(dice.choice((
                    lambda: (a.astype(bits=to), x % 2**to), lambda: (a >> low, x >> low), lambda: (a << low, (x << low) % 2**a.bits),
                    lambda: (simdram.concat(a, simdram.bit(b, 0)), x | y % 2 << a.bits), lambda: (simdram.product(a, b), x * y),
                    lambda: (a.astype(bits=to) + b.astype(bits=to), (x + y) % 2**to),
                    lambda: ((a >> low).astype(bits=a.bits - low), x >> low)))())
                if pool[-1][0].bits > 60:
                    pool.pop()
            for array, wanted in pool:
                self.same(array, wanted)

    def test_refused(self):
        a, _ = self.drawn(8)
        with self.assertRaisesRegex(simdram.Refused, "slice"):
            simdram.bit(a, 8)
        with self.assertRaisesRegex(simdram.Refused, "bad_number"):
            simdram.concat(*[a] * 17)
        with self.assertRaisesRegex(simdram.Refused, "kind"):
            simdram.product(a, a > 3)
        with self.assertRaisesRegex(TypeError, "the fields of this array are none"):
            a["r"]
        with self.assertRaisesRegex(ValueError, "no product of matrices"):
            a @ a

    def test_scans_of_bits(self):
        a, x = self.drawn(8)
        high = (a >> 4).astype(bits=4)
        found = simdram.scan(self.chip, "and(ge(h, 8), lt(l, 8))", h=high, l=a.astype(bits=4))
        self.assertEqual(found.count, ((x >> 4 >= 8) & (x % 16 < 8)).sum())
        writes = self.chip.host_writes
        self.assertEqual(simdram.scan(self.chip, "and(ge(h, 8), lt(a, 200))", h=high, a=a).count, ((x >= 128) & (x < 200)).sum())
        self.assertEqual(self.chip.host_writes - writes, 8 * 2)


@needs_numpy
@needs_program
class Records(unittest.TestCase):
    def test_pixels(self):
        dice = numpy.random.default_rng(5)
        pixels = numpy.zeros((6, 5), dtype=[("r", "u1"), ("g", "u1"), ("b", "u1")])
        for name in pixels.dtype.names:
            pixels[name] = dice.integers(0, 256, (6, 5))
        chip = simdram.Chip(banks=1, rows=256, words=1)
        p = chip.array(pixels)
        self.assertEqual((p.bits, p.numpy().dtype, (p.numpy() == pixels).all()), (24, pixels.dtype, True))
        self.assertTrue(((p["r"] + p["b"]).numpy() == pixels["r"] + pixels["b"]).all())
        mean = (p["r"] >> 1) + (p["b"] >> 1)
        self.assertTrue((mean.numpy() == (pixels["r"] >> 1) + (pixels["b"] >> 1)).all())
        self.assertEqual((mean.cost.commands, mean.cost.host_writes, mean.cost.host_reads), (89, 24, 0))

    def test_nibbles_and_signs(self):
        held = numpy.array([(3, 12, -4, True), (15, 0, 3, False)], dtype=[("low", "u1"), ("high", "u1"), ("s", "i1"), ("f", "?")])
        chip = simdram.Chip(banks=1, rows=128, words=1)
        p = chip.array(held, bits={"low": 4, "high": 4, "s": 3})
        self.assertEqual((p.bits, p.numpy().tolist()), (12, held.tolist()))
        self.assertEqual((p["low"] + p["high"]).numpy().tolist(), [15, 15])
        self.assertEqual(simdram.where(p["f"], p["s"], -p["s"]).numpy().tolist(), [-4, -3])
        for wrong in ({"low": 3}, {"none": 4}):
            with self.assertRaises(simdram.Refused):
                chip.array(held, bits=wrong)


@needs_numpy
@needs_program
class Matrices(unittest.TestCase):
    def test_whole_products(self):
        chip = simdram.Chip(banks=1, rows=1006, words=16)
        dice = random.Random(3)
        for bits, others, commands in ((4, 4, 145), (8, 8, 611), (8, 3, None), (1, 1, None), (2, 13, None), (64, 64, None)):
            x, y = (numbers(dice, width, (500,)) for width in (bits, others))
            a, b = chip.array(x, bits=bits), chip.array(y, bits=others)
            z = simdram.product(a, b)
            self.assertEqual((z.bits, z.numpy().tolist()), (bits + others, (x * y).tolist()))
            if commands:
                self.assertEqual((z.cost.per_bank.commands, z.cost.host_reads), (commands, 0))
                wide = a.astype(bits=2 * bits) * b.astype(bits=2 * bits)
                self.assertEqual((wide.numpy().tolist(), wide.cost.per_bank.commands), ((x * y).tolist(), commands))

    def test_four_bits_with_sums_of_sixteen(self):
        dice = numpy.random.default_rng(4)
        x, y = dice.integers(0, 16, (7, 12)).astype("u1"), dice.integers(0, 16, (12, 5)).astype("u1")
        chip = simdram.Chip(banks=1, rows=256, words=2)
        a, b = chip.array(x, bits=4), chip.array(y, bits=4)
        z = a @ b
        self.assertEqual((z.bits, z.numpy().dtype, z.numpy().tolist()), (16, numpy.dtype("u2"), (x.astype("u2") @ y.astype("u2")).tolist()))
        # for each of 12 pairs a product of 145 and eight zeros, and 11 sums of 145
        self.assertEqual((z.cost.commands, z.cost.host_reads), (12 * (145 + 8) + 11 * 145, 4 + 4))
        self.assertEqual(z.cost.host_writes, 4 + 4 + 12 * (4 + 4))
        self.assertEqual((a @ y[:, 0]).numpy().tolist(), (x.astype(int) @ y[:, 0]).tolist())
        self.assertEqual(numpy.matmul(x, b).numpy().tolist(), (x.astype(int) @ y.astype(int)).tolist())
        signed = chip.array(x.astype(int) - 8, bits=4, signed=True) @ chip.array(y.astype(int) - 8, bits=4, signed=True)
        self.assertEqual(signed.numpy().tolist(), ((x.astype(int) - 8) @ (y.astype(int) - 8)).tolist())
        self.assertEqual(simdram.matmul(a, b, bits=8).numpy().tolist(), ((x.astype(int) @ y) % 256).tolist())


if __name__ == "__main__":
    unittest.main()

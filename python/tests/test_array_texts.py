"""Ops and queries of a designer's own, on arrays."""

import random
import unittest

from support import needs_numpy, needs_program, numpy

import simdram


@needs_numpy
@needs_program
class Ops(unittest.TestCase):
    """Ops of a designer's own."""

    def test_results_and_arguments(self):
        chip = simdram.Chip(banks=1, rows=300, words=1)
        x = numpy.array([[3, 10], [15, 200]], dtype=numpy.uint8)
        a = chip.array(x)
        mac = simdram.op("op mac(a: word, b: word, c: word) -> y: word { t = mul(a, b); y = add(t, c); }")
        z = mac(a, a, chip.array(1, bits=8))
        self.assertEqual((z.numpy().tolist(), str(z.cost)), ((x * x + 1).tolist(), "aap=335 ap=36"))
        self.assertEqual(mac(a, 3, 2).numpy().tolist(), (x * 3 + 2).tolist())
        both = simdram.op("op both(a: word, s: bit) -> q: word, r: bit "
                          "{ t = not(a); q = if_else(a, t, s); r = not(s); }")
        kept, turned = both(a, a > 10)
        self.assertEqual(kept.numpy().tolist(), numpy.where(x > 10, x, ~x).tolist())
        self.assertEqual(turned.numpy().tolist(), (x <= 10).tolist())
        spread = simdram.op("op spread(s: bit) -> y: word { serial up () { y = s; } }")
        self.assertEqual(spread(a > 10, bits=5).numpy().tolist(), (31 * (x > 10)).tolist())
        again = simdram.op("op mac(a: word, b: word, c: word) -> y: word { t = add(a, b); y = sub(t, c); }")
        self.assertEqual((mac(a, a, a) - again(a, a, a)).numpy().tolist(), (x * x).tolist())

    def test_refused_texts(self):
        for text, line in (("op f(a: word) -> y: word { y = ad(a); }", "ops line 1 unknown"),
                           ("op f(", "ops line 1 syntax"),
                           ("op f(a: word) -> y: bit { y = not(a); }", "ops line 1 kind")):
            with self.assertRaisesRegex(simdram.Stopped, line) as caught:
                simdram.op(text)
            self.assertEqual((caught.exception.status, caught.exception.line), (4, line))
            self.assertRegex(str(caught.exception), r"ops line 1 column \d+: ")

    def test_a_text_of_several_ops(self):
        text = "op f(a: word, b: word) -> y: word { y = add(a, b); } op g(a: word) -> y: word { y = not(a); }"
        found = simdram.ops(text)
        self.assertEqual(list(found), ["f", "g"])
        self.assertEqual(found["g"].text, simdram.op("op g(a: word) -> y: word { y = not(a); }").text)
        chip = simdram.Chip(banks=1, rows=200, words=1)
        a = chip.array([1, 2], bits=8)
        self.assertEqual(found["f"](a, simdram.op(text, name="g")(a)).numpy().tolist(), [255, 255])
        for name, said in ((None, "this one has f, g"), ("h", "no op h; it has f, g")):
            with self.assertRaisesRegex(ValueError, said):
                simdram.op(text, name=name)

    def test_costs_of_an_op(self):
        text = "op f(a: word, b: word) -> y: word { y = add(a, b); } op g(a: word) -> y: word { y = not(a); }"
        add, turned = simdram.ops(text).values()
        self.assertEqual({bits: one.commands for bits, one in add.costs([4, 8, 16, 32]).items()}, {4: 37, 8: 73, 16: 145, 32: 289})
        self.assertEqual(str(turned.cost(8)), "aap=16 ap=0 rows=0")
        self.assertEqual(add.costs([]), {})
        with self.assertRaises(simdram.Refused):
            add.cost(129)


@needs_numpy
@needs_program
class Scans(unittest.TestCase):
    """Scans beside NumPy's count."""

    def test_counts(self):
        dice = random.Random(5)
        chip = simdram.Chip(banks=2, rows=256, words=1)
        x = numpy.array([[dice.randrange(256) for _ in range(9)] for _ in range(11)], dtype=numpy.uint8)
        a = chip.array(x)
        other = chip.array(x ^ 85)
        found = simdram.scan(chip, "and(ge(a, 10), not(eq(a, 200)))", a=x)
        self.assertEqual((found.count, found.elements), (((x >= 10) & (x != 200)).sum(), x.size))
        self.assertEqual(simdram.scan(chip, "and(ge(a, 10), not(eq(a, 200)))", a=a), found)
        of_two = simdram.scan(chip, "or(lt(v1, 99), gt(v2, 3))", v1=other, v2=a)
        self.assertEqual(of_two.count, (((x ^ 85) < 99) | (x > 3)).sum())
        self.assertEqual(simdram.scan(chip, "eq(a, 1)", a=a + 1).count, (x == 0).sum())
        self.assertEqual(simdram.scan(chip, "and(ge(a, 3), lt(b, 99))", a=a, b=a).count, ((x >= 3) & (x < 99)).sum())
        self.assertEqual(found.cost, simdram.Cost(172, 32, 2))


if __name__ == "__main__":
    unittest.main()

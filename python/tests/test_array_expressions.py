"""Random expressions of arrays against NumPy's, how they are cut into ops, and what is freed."""

import gc
import operator
import random
import unittest

from beside_numpy import Beside, Tree, objects, ones, shape_of
from support import needs_numpy, needs_program, numpy

import simdram


@needs_numpy
@needs_program
class Expressions(Beside):
    """Random expressions, and how they are cut."""

    def test_random_expressions(self):
        dice = random.Random(3)
        for case in range(60):
            bits = dice.choice((1, 2, 3, 5, 8, 8, 11, 16, 33, 64, 65, 128))
            banks = dice.randrange(1, 3)
            chip = simdram.Chip(banks=banks, rows=1006 if bits > 16 else 300, words=1)
            tree = Tree(dice, chip, bits, shape_of(dice, 64 * banks), dice.randrange(1, 4), bits <= 8)
            found, expected = (tree.bit if case % 4 == 0 else tree.word)(dice.randrange(1, 4))
            self.same(found, expected)
            self.check_ops(found.text)

    def check_ops(self, text):
        """Each op has at most four sources and sixteen statements."""
        for op in filter(None, text.split("}\n")):
            head, *statements = op.strip().splitlines()
            self.assertLessEqual(head.partition(" -> ")[0].count(":"), 4)
            self.assertLessEqual(len(statements), 16)

    def test_few_rows_make_smaller_ops(self):
        x = numpy.array([3, 200, 7, 91], dtype=numpy.uint8)
        texts = {}
        for rows in (256, 104, 96, 80):
            chip = simdram.Chip(banks=1, rows=rows, words=1)
            a, b = chip.array(x), chip.array(x[::-1])
            z = (a & b) + (a | b) - (a ^ b) + (b << 1) - (a >> 1)
            self.assertEqual(z.numpy().tolist(), ((x & x[::-1]) + (x | x[::-1]) - (x ^ x[::-1]) + (x[::-1] << 1)
                                                  - (x >> 1)).tolist())
            self.assertEqual(objects(chip)[:2], [(0, 8), (8, 8)])
            texts[rows] = z.text.count("op ")
        self.assertEqual(texts[256], 1)
        self.assertEqual(sorted(texts.values()), [texts[rows] for rows in (256, 104, 96, 80)])
        self.assertGreater(texts[80], 2)

    def test_texts_are_canonical(self):
        chip = simdram.Chip(banks=1, rows=256, words=1)
        a = chip.array([3, 200, 7], bits=8)
        quotient, rest = divmod(a + 1, ~a)
        simdram.compute(quotient, rest)
        for z in (quotient, simdram.where(a > 3, a, 0) * a):
            self.assertEqual(simdram.op(z.text).text, z.text)

    def test_what_fits_is_one_op(self):
        chip = simdram.Chip(banks=1, rows=300, words=1)
        x = numpy.arange(8, dtype=numpy.uint8)
        a, b, c, d = (chip.array(x + k) for k in range(4))
        z = simdram.where((a + b) > (c + d), (a ^ b) + (c ^ d), (a + b) - (d & c)) + (a + b)
        self.assertEqual(z.text.count("op "), 1)
        self.assertEqual(z.text.count("= add(a, b)"), 1)
        first, second = (x ^ (x + 1)) + ((x + 2) ^ (x + 3)), (2 * x + 1) - ((x + 3) & (x + 2))
        expected = numpy.where((x + x + 1) > (2 * x + 5), first, second) + 2 * x + 1
        self.assertEqual(z.numpy().tolist(), expected.tolist())
        sixteen = a
        for k in range(16):
            sixteen = sixteen ^ (b if k % 2 else c)
        self.assertEqual(sixteen.text.count("op "), 1)
        self.assertEqual((sixteen + 1).text.count("op "), 2)
        seventeen = a
        for k in range(17):
            seventeen = seventeen ^ (b if k % 2 else c)
        self.assertEqual(seventeen.text.count("op "), 2)
        self.assertEqual(seventeen.numpy().tolist(), (x ^ (x + 2)).tolist())

    def test_many_sources_and_statements(self):
        chip = simdram.Chip(banks=1, rows=1006, words=1)
        x = [numpy.array([e * 7 + k * 31 & 255 for e in range(10)], dtype=numpy.uint8) for k in range(20)]
        arrays = [chip.array(one) for one in x]
        total = arrays[0]
        for array in arrays[1:]:
            total = total + array
        self.assertEqual(total.numpy().tolist(), sum(x).astype(numpy.uint8).tolist())
        self.assertLess(total.script.count("bbop_e"), 8)
        total = chip.array(x[0])
        for k in range(400):
            total = (total ^ arrays[k % 20]) + 1 if k % 50 == 0 else total ^ arrays[k % 20]
        expected = x[0]
        for k in range(400):
            expected = (expected ^ x[k % 20]) + 1 if k % 50 == 0 else expected ^ x[k % 20]
        self.assertEqual(total.numpy().tolist(), expected.astype(numpy.uint8).tolist())

    def test_an_array_that_becomes_another(self):
        chip = simdram.Chip(banks=1, rows=128, words=1)
        x = numpy.arange(5, dtype=numpy.uint8)
        a = first = chip.array(x)
        expected = x
        for _ in range(12):
            a += 3
            a ^= first
            expected = (expected + 3) ^ x
        self.assertEqual(a.numpy().tolist(), expected.tolist())

    def test_any_operation_by_its_name(self):
        chip = simdram.Chip(banks=1, rows=256, words=1)
        x = numpy.array([-128, -5, 0, 7, 127], dtype=numpy.int8)
        a = chip.array(x.view(numpy.uint8))
        self.assertEqual(simdram.apply("relu", a).numpy().tolist(), numpy.maximum(x, 0).tolist())
        self.assertEqual(simdram.apply("abs", a).numpy().tolist(), numpy.abs(x.astype(int)).tolist())
        self.assertEqual(simdram.apply("xor_red", a).numpy().tolist(), [ones(int(one) & 255) % 2 == 1 for one in x])
        self.assertEqual([one.numpy().tolist() for one in simdram.apply("divmod", a, 10)],
                         [(x.view(numpy.uint8) // 10).tolist(), (x.view(numpy.uint8) % 10).tolist()])

    def test_values_that_several_parts_read(self):
        dice = random.Random(4)
        for case in range(6):
            chip = simdram.Chip(banks=1, rows=1006, words=1)
            values = [numpy.array([dice.randrange(256) for _ in range(9)], dtype=numpy.uint8) for _ in range(7)]
            pool = [(chip.array(one), one) for one in values]
            for _ in range(40):
                (first, one), (second, two) = dice.choice(pool), dice.choice(pool[-9:])
                sign = dice.choice((operator.add, operator.sub, operator.xor, operator.and_))
                pool.append((sign(first, second), sign(one, two)))
            last = pool[-1 - case % 2:]
            simdram.compute(*(array for array, _ in last))
            for array, expected in last:
                self.same(array, expected)
            self.check_ops(last[0][0].text)
            del first, second, array
            last[:] = pool[7:] = []
            self.assertEqual(objects(chip), [(8 * k, 8) for k in range(7)])

    def test_two_scripts_and_no_room_in_the_second(self):
        chip = simdram.Chip(banks=1, rows=100, words=1)
        array = chip.array([1, 100, 77], bits=8)
        kept, before = array, chip.image
        for k in range(35):
            parts = ["shl1" if k >> place & 1 else "not" for place in range(6)]
            targets, sources = [*(f"t{at}" for at in range(5)), "y"], ["a", *(f"t{at}" for at in range(5))]
            lines = [f"{target} = {name}({source});" for target, name, source in zip(targets, parts, sources)]
            array = simdram.op(f"op own(a: word) -> y: word {{ {' '.join(lines)} }}")(array)
        lines = [f"t{at} = not({f't{at - 1}' if at else 'a'});" for at in range(12)]
        array = simdram.op(f"op large(a: word) -> y: word {{ {' '.join(lines)} y = not(t11); }}")(array)
        with self.assertRaisesRegex(simdram.Refused, "no_rows"):
            array.numpy()
        self.assertIs(chip.image, before)
        self.assertEqual((kept.numpy().tolist(), objects(chip)), ([1, 100, 77], [(0, 8)]))

    def test_one_op_at_two_widths(self):
        chip = simdram.Chip(banks=1, rows=128, words=1)
        flags = chip.array([True, False, True])
        spread = simdram.op("op spread(s: bit) -> y: word { serial up () { y = s; } }")
        narrow, wide = spread(flags, bits=5), spread(flags, bits=7)
        simdram.compute(narrow, wide)
        self.assertEqual((narrow.numpy().tolist(), wide.numpy().tolist()), ([31, 0, 31], [127, 0, 127]))

    def test_two_widths(self):
        chip = simdram.Chip(banks=1, rows=300, words=1)
        a, b = chip.array([1, 9, 3], bits=8), chip.array([5, 5, 5], bits=8)
        c, d = chip.array([1000, 2000, 3000], bits=12), chip.array([1, 2, 3], bits=12)
        z = simdram.where(a > b, c + d, c - d)
        self.assertEqual((z.numpy().tolist(), z.text.count("op "), z.bits), ([999, 2002, 2997], 2, 12))

    def test_what_is_computed_is_used_again(self):
        chip = simdram.Chip(banks=1, rows=300, words=1)
        a, b = chip.array([1, 9, 3], bits=8), chip.array([5, 5, 5], bits=8)
        product = a * b
        z = product + a
        self.assertEqual(product.numpy().tolist(), [5, 45, 15])
        before = chip.cost
        self.assertEqual(z.numpy().tolist(), [6, 54, 18])
        # one object is made, and one sum taken; the cost is that of the product too, once however often it is read
        self.assertEqual(chip.cost.commands - before.commands, 8 + 73)
        self.assertEqual((z.text.count("mul"), z.cost.commands), (1, product.cost.commands + 73))
        self.assertEqual(((z + product) ^ z).cost.commands, product.cost.commands + 73 + 73 + 56)

    def test_two_results_of_one_op(self):
        chip = simdram.Chip(banks=1, rows=300, words=1)
        a, b = chip.array([1, 9, 3], bits=8), chip.array([5, 5, 2], bits=8)
        low, high = simdram.minimum(a, b), simdram.maximum(a, b)
        simdram.compute(low, high)
        self.assertEqual((low.numpy().tolist(), high.numpy().tolist()), ([1, 5, 2], [5, 9, 3]))
        self.assertEqual(low.text.count("op "), 1)
        three = [a + b, a - b, (a + b) ^ a]
        simdram.compute(*three)
        self.assertEqual([one.numpy().tolist() for one in three], [[6, 14, 5], [252, 4, 1], [7, 7, 6]])
        again = a + b, a + b
        simdram.compute(*again)
        self.assertEqual([one.numpy().tolist() for one in again], [[6, 14, 5]] * 2)

    def test_more_than_32_ops(self):
        chip = simdram.Chip(banks=1, rows=128, words=1)
        array, expected = chip.array([1, 100, 77], bits=8), numpy.array([1, 100, 77])
        for k in range(35):
            body, held = "a", "a"
            text = ""
            for place in range(6):
                target = "y" if place == 5 else f"t{place}"
                text += f"{target} = {'shl1' if k >> place & 1 else 'not'}({body}); "
                body = target
                expected = expected * 2 % 256 if k >> place & 1 else 255 - expected
            array = simdram.op(f"op own(a: word) -> y: word {{ {text} }}")(array)
        self.assertEqual(array.numpy().tolist(), expected.tolist())
        self.assertEqual(array.text.count("op "), 35)
        self.assertEqual(array.script.count("bbop_own") + array.script.count("bbop_e"), 35)
        self.assertEqual(objects(chip), [(8, 8)])


@needs_numpy
@needs_program
class Objects(unittest.TestCase):
    """Objects are placed and freed."""

    def test_everything_goes(self):
        chip = simdram.Chip(banks=1, rows=200, words=1)
        a = chip.array([1, 2], bits=8)
        for _ in range(50):
            z = (a + 1) * a
            self.assertEqual(z.numpy().tolist(), [2, 6])
        del z
        self.assertEqual((a + 1).numpy().tolist(), [2, 3])
        self.assertEqual(objects(chip), [(0, 8)])

    def test_a_source_stays_while_an_expression_has_it(self):
        chip = simdram.Chip(banks=1, rows=200, words=1)
        z = chip.array([1, 2], bits=8) + chip.array([3, 4], bits=8)
        gc.collect()
        other = chip.array([9, 9], bits=8)
        self.assertEqual((z.numpy().tolist(), other.numpy().tolist()), ([4, 6], [9, 9]))

    def test_costs(self):
        for banks, count in ((1, 64), (2, 65)):
            chip = simdram.Chip(banks=2, rows=200, words=1)
            a = chip.array(numpy.arange(count), bits=8)
            both = a + chip.array(numpy.arange(count), bits=8)
            self.assertEqual(both.cost, simdram.Cost(65 * banks, 8 * banks, banks, host_writes=2 * 8 * banks))
            self.assertEqual((a & 1).cost, simdram.Cost(8 * banks, 0, banks, host_writes=8 * banks))
            self.assertEqual(both.cost.per_bank, simdram.Cost(65, 8))
            self.assertEqual(both.cost.commands, 73 * banks)
            self.assertEqual(a.cost, simdram.Cost(host_writes=8 * banks))
        self.assertEqual(str(both.cost), "aap=130 ap=16 over 2 banks, aap=65 ap=8 in each")

    def test_rows_of_the_host(self):
        chip = simdram.Chip(banks=2, rows=200, words=1)
        a = chip.array(numpy.arange(65), bits=8)
        b = chip.array([1, 2, 3], bits=5)
        self.assertEqual((chip.host_writes, chip.host_reads), (2 * 8 + 5, 0))
        (a + a).numpy(), (b > 1).numpy(), chip.array(3, bits=8).numpy()
        self.assertEqual((chip.host_writes, chip.host_reads), (2 * 8 + 5, 2 * 8 + 1))
        self.assertEqual(((a + a).cost.host_writes, (a + a).cost.host_reads), (2 * 8, 0))
        self.assertEqual((chip.cost.host_writes, chip.cost.host_reads), (2 * 8 + 5, 2 * 8 + 1))


if __name__ == "__main__":
    unittest.main()

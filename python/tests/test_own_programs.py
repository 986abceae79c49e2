"""Programs of a designer's own in NumPy, and the verdicts of `verify` as values."""

import re
import unittest
import warnings

import support
from support import needs_numpy, needs_program, numpy

import simdram
from simdram.rules.verdicts import Verdict, verdict_of, verdicts_of

ADDER = """program add(a: word, b: word) -> y: word
  AAP C1 {DCC1, T0, T3}
  for i in 0..n {
    AAP b[i] ~DCC0; AAP DCC0 ~DCC0+T0; AAP ~DCC1 T2; AAP a[i] ~DCC1+T1
    AP {T0, T1, T2}; AAP {DCC1, T0, T3} T1; AAP {DCC0, T1, T2} y[i]
  }
"""
XOR = """program xor(a: word, b: word) -> y: word
  for i in 0..n {
    AAP a[i] ~DCC0+T0; AAP b[i] ~DCC1+T1; AAP C0 T2
    AP {DCC0, T1, T2}; AP {DCC1, T0, T3}; AAP C1 T2; AAP {T0, T1, T2} y[i]
  }
"""
ADD_OP = "op add(a: word, b: word) -> y: word { y = add(a, b); }"
XOR_OP = "op other(a: word, b: word) -> y: word { y = xor(a, b); }"


class Verdicts(unittest.TestCase):
    def test_each_line(self):
        text = ("add right aap=41 ap=24\nsub wrong a=3 b=5 gives 7 not 254\nmax wrong a=3 b=5 gives 3 not 5 from T1 s4\n"
                "mul unknown nodes\ndiv bad_walk 17 register\nfoo no_entry\nbar other_kinds\nverified 1 of 7 at 8\n")
        self.assertEqual(verdicts_of(text), [
            Verdict("add", "right", 41, 24), Verdict("sub", "wrong", operands={"a": 3, "b": 5}, gives=(7,), wanted=(254,)),
            Verdict("max", "wrong", operands={"a": 3, "b": 5}, gives=(3,), wanted=(5,), start=("T1", "s4")),
            Verdict("mul", "unknown", why="nodes"), Verdict("div", "bad_walk", at=17, why="register"), Verdict("foo", "no_entry"),
            Verdict("bar", "other_kinds")])
        self.assertEqual(verdict_of("q wrong a=7 b=2 gives 3 0 not 3 1").wanted, (3, 1))
        self.assertIsNone(verdict_of("verified 1 of 7 at 8"))
        self.assertEqual([bool(verdict) for verdict in verdicts_of(text)], [True] + [False] * 6)


@needs_numpy
@needs_program
class OwnPrograms(unittest.TestCase):
    def setUp(self):
        self.x, self.y = numpy.arange(40, dtype=numpy.uint8), numpy.arange(40, dtype=numpy.uint8) * 5
        self.chip = simdram.Chip(1, 256, 1)
        self.a, self.b = self.chip.array(self.x), self.chip.array(self.y)

    def test_a_call(self):
        add = simdram.program(ADDER)
        with self.assertWarnsRegex(simdram.Unverified, "add was never verified at width 8"):
            z = add(self.a, self.b)
        self.assertTrue((z.numpy() == self.x + self.y).all())
        self.assertEqual((str(z.cost), z.text), ("aap=49 ap=8", ADDER))

    def test_its_costs(self):
        add = simdram.program(ADDER)
        self.assertEqual((str(add.cost(8)), add.costs([1, 32])[32].commands), ("aap=49 ap=8 rows=0", 225))
        self.assertEqual([(row.commands, row.times) for row in add.profile(8).parts], [(1, 1), (56, 8)])
        with warnings.catch_warnings():
            warnings.simplefilter("ignore")
            self.assertEqual([row.commands for row in add(self.a, self.b).profile().ops], [57])
            found = (add(self.a ^ self.b, self.b) & self.a).profile()
        self.assertEqual([row.what for row in found.ops], ["e0", "add", "e1"])
        self.assertEqual([row.commands for row in found.statements], [56, 32])

    def test_beside_ops(self):
        add = simdram.program(ADDER)
        with warnings.catch_warnings():
            warnings.simplefilter("ignore")
            z = add(add(self.a, self.b) ^ self.a, 3)
        self.assertTrue((z.numpy() == ((self.x + self.y) ^ self.x) + 3).all())

    def test_two_results(self):
        both = simdram.program("program both(a: word) -> y: word, z: bit\n  for i in 0..n { AAP a[i] y[i] }\n  AAP a[0] z\n")
        with warnings.catch_warnings():
            warnings.simplefilter("ignore")
            y, z = both(self.a)
        self.assertTrue((y.numpy() == self.x).all() and (z.numpy() == (self.x % 2 == 1)).all())

    def test_faults(self):
        with self.assertRaisesRegex(ValueError, "line 2 column 6: name"):
            simdram.program("program f(a: word) -> y: word\n  AP T9\n")
        with self.assertRaisesRegex(ValueError, "text of one program, and this has 2"):
            simdram.program(ADDER + XOR)
        with self.assertRaises(TypeError):
            simdram.program(5)
        with self.assertRaises(simdram.Refused):
            simdram.program(ADDER)(self.a)

    @needs_program
    def test_verdicts(self):
        add, xor = simdram.program(ADDER), simdram.program(XOR)
        verdict = add.verify(ADD_OP, 8)
        self.assertEqual((verdict.is_right, verdict.aap, verdict.ap), (True, 49, 8))
        with warnings.catch_warnings():
            warnings.simplefilter("error")
            add(self.a, self.b)
        # T3 is read before it is set: of one bit wrong where it holds 1, of eight wrong from zeros too
        self.assertEqual(xor.verify(XOR_OP, 1).start, ("T3",))
        verdict = xor.verify(XOR_OP, 8)
        self.assertEqual((verdict.kind, verdict.start), ("wrong", ()))
        self.assertEqual(verdict.wanted, (verdict.operands["a"] ^ verdict.operands["b"],))
        self.assertNotEqual(verdict.gives, verdict.wanted)
        with self.assertWarnsRegex(simdram.Unverified, "xor is wrong at width 8"):
            xor(self.a, self.b)
        with self.assertRaisesRegex(simdram.Stopped, "line 1"):
            add.verify("op add(a: word) -> y: word { y = q; }", 8)

    @needs_program
    def test_the_page(self):
        page = (support.TOP / "docs" / "NUMPY.md").read_text(encoding="utf-8")
        names = {"simdram": simdram, "a": self.a, "b": self.b}
        exec(re.search(r"```py\n(.*?)```", page, re.DOTALL)[1], names)
        self.assertEqual(str(names["z"].cost), "aap=49 ap=8")


if __name__ == "__main__":
    unittest.main()

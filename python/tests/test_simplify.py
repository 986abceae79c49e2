"""The tool `simplify`: what it finds, what is compared, and how it ends."""

import contextlib
import dataclasses
import io
import os
import pathlib
import random
import tempfile
import unittest
import unittest.mock

from guessed_costs import Guessed
from random_ops import Maker
from support import TOP, needs_program, program

from simdram.launcher import run_program
from simdram.launcher.faults import Fault
from simdram.launcher.settings import Settings
from simdram.rules.ops_rules import read_ops
from simdram.rules.verdicts import RIGHT, UNKNOWN
from simdram.simplify import equal, simplify_tool, sums
from simdram.simplify.equal import Comparer
from simdram.simplify.outcome import WRONG, Outcome
from simdram.simplify.simplifier import Options, Simplifier
from simdram.simplify.search import Search
from simdram.simplify.statement_cache import StatementCache
from simdram.simplify.timed import Timed, spent

KERNELS = TOP / "bench" / "kernels"
# those of the table that are always done; SIMDRAM_KERNELS=1 does all, and more random ops
SOME = ("sat_add", "thresh", "xor_and", "dead_mul", "match", "select", "sum_if", "gray", "csel", "same")
ALL = os.environ.get("SIMDRAM_KERNELS", "") not in ("", "0")
RANDOM_OPS = 60 if ALL else 8
SLOW = 600.0


def table():
    """Of each kernel its commands at 8 and 32, which may only fall."""
    lines = (KERNELS / "costs").read_text(encoding="utf-8").splitlines()
    rows = (line.split() for line in lines if line and not line.startswith("#"))
    return {name: (int(eight), int(wide)) for name, eight, wide in rows}


class Searcher(Simplifier):
    """Finds texts, and compares none."""

    def compared(self, found, until):
        return Outcome(found)


def searched(text, options):
    """The best text that was found for each op, not compared."""
    return [one.simpler for one in Searcher(program(), options).outcomes(text.encode())]


def kernels():
    """The kernels, by name."""
    return {op.name: op for path in sorted(KERNELS.glob("*.ops")) for op in read_ops(path.read_bytes())}


@needs_program
class Simplified(unittest.TestCase):
    """Calls of the tool, in a folder, with a cache of their own."""

    @classmethod
    def setUpClass(cls):
        cls.top = tempfile.TemporaryDirectory(prefix="simdram_")
        cls.addClassCleanup(cls.top.cleanup)
        patch = unittest.mock.patch.dict(os.environ, {"SIMDRAM_CACHE": os.path.join(cls.top.name, "cache")})
        patch.start()
        cls.addClassCleanup(patch.stop)

    def setUp(self):
        self.folder = pathlib.Path(tempfile.mkdtemp(dir=self.top.name))

    def path(self, name, text=None):
        """A file's path, which is written first where a text is given."""
        if text is not None:
            (self.folder / name).write_text(text, encoding="utf-8")
        return str(self.folder / name)

    def call(self, *words):
        """The status, and what is said on both streams."""
        out, err = io.StringIO(), io.StringIO()
        with contextlib.redirect_stdout(out), contextlib.redirect_stderr(err):
            status = simplify_tool.main([*words, "--seconds", str(SLOW)], Settings())
        return status, out.getvalue(), err.getvalue()

    def shown(self, path):
        """The canonical form of a text."""
        ended = run_program.run(["show", path], path=program())
        self.assertEqual(ended.status, 0, ended.out)
        return ended.out

    # what it finds

    def test_the_table_may_only_fall(self):
        costs, ops = table(), kernels()
        self.assertEqual(set(costs), set(ops))
        names = [name for name in ops if ALL or name in SOME]
        for k in range(0, len(names), 24):
            text = "".join(ops[name].text() for name in names[k:k + 24])
            for one in searched(text, Options((8, 32), SLOW)):
                with self.subTest(one.op.name):
                    self.assertTrue(one.is_whole)
                    self.assertLessEqual((one.after[8].commands, one.after[32].commands), costs[one.op.name])
                    new = dataclasses.replace(one.op, body=one.body)
                    verdicts = Comparer(Timed(program())).equal(one.op, new, (1, 2, 3, 8), one.program).verdicts
                    self.assertEqual(set(verdicts.values()), {RIGHT})

    def test_a_text_of_ones_own(self):
        ops = self.path("a.ops", "# mine\nop hold(a: word, b: word) -> y: word { y = max(a, b); }  # as it is\n"
                                 "op sat(a: word, b: word) -> y: word { t = add(a, b); o = gt(a, t); f = ones(); y = if_else(f, t, o); }\n")
        new = self.path("new.ops")
        status, out, err = self.call(ops, new, "--widths", "4,8")
        self.assertEqual((status, err), (0, ""))
        first, second = out.splitlines()
        self.assertEqual(first, "hold n=4 41 -> 41 rows 1 -> 1, n=8 81 -> 81 rows 1 -> 1; unchanged: nothing cheaper found")
        self.assertRegex(second, r"sat n=4 82 -> \d+ rows 10 -> \d+, n=8 162 -> (89|90) rows 18 -> 9; equal at 4,8")
        made = pathlib.Path(new).read_text(encoding="utf-8")
        self.assertTrue(made.startswith("# mine\nop hold(a: word, b: word) -> y: word { y = max(a, b); }  # as it is\nop sat("))
        ended = run_program.run(["compile", new, self.path("prog")], path=program())
        self.assertEqual(ended.status, 0)
        verified = run_program.run(["verify", ops, self.path("prog"), "5"], path=program())
        self.assertIn("verified 2 of 2 at 5", verified.out)

    def test_new_is_canonical_and_no_dearer_again(self):
        ops = self.path("a.ops", kernels()["sum_if"].text())
        new, again = self.path("new.ops"), self.path("again.ops")
        self.assertEqual(self.call(ops, new, "--widths", "8")[0], 0)
        text = pathlib.Path(new).read_text(encoding="utf-8")
        self.assertEqual(self.shown(new), text)
        costs = searched(text, Options((8,), SLOW, compared=()))[0]
        self.assertLessEqual(costs.after[8].commands, costs.before[8].commands)
        self.assertEqual(self.call(new, again, "--widths", "8")[0], 0)
        self.shown(again)

    def test_rows_are_kept(self):
        text = kernels()["times5"].text()
        for keeps, check in ((False, self.assertGreater), (True, self.assertLessEqual)):
            one = searched(text, Options((8,), SLOW, keeps, compared=()))[0]
            check(one.after[8].rows, one.before[8].rows)

    def test_random_ops_are_equal(self):
        draws = random.Random(58)
        maker, changed = Maker(draws), 0
        for _ in range(RANDOM_OPS):
            op = maker.op()
            measured = Guessed((8,))
            found = Search(op, measured, measured.of_text(op.text())[0]).run()
            new = dataclasses.replace(op, body=found.body)
            changed += found.is_changed
            verdicts = Comparer(Timed(program())).equal(op, new, (1, 2, 3, 5)).verdicts if found.is_changed else {}
            self.assertNotIn("wrong", verdicts.values(), op.text() + new.text())
            self.assertEqual(set(verdicts.values()) - {RIGHT, UNKNOWN}, set())
        self.assertGreater(changed, RANDOM_OPS // 2)

    # what is compared

    def test_a_planted_fault_ends_as_wrong(self):
        def without_carry(self, a, b):
            carry = self.graph.state("up", 0, lambda now: self.graph.gate("and", a, b))
            return self.graph.gate("xor", self.graph.gate("xor", a, b), carry)

        text = "op f(a: word, b: word) -> y: word { t = add(a, b); y = copy(t); }\n"
        ops, new = self.path("a.ops", text), self.path("new.ops")
        with unittest.mock.patch.object(sums.Sums, "do_add", without_carry):
            status, out, err = self.call(ops, new, "--widths", "4")
        self.assertEqual(status, 1)
        self.assertRegex(out, r"f n=4 41 -> 41 rows 5 -> 5; equal at no width; wrong at 3,4, a fault of this tool: left as it was")
        self.assertIn("as it was:\nop f(", err)
        self.assertIn("as it was simplified:\nop f(", err)
        self.assertEqual(pathlib.Path(new).read_text(encoding="utf-8"), text)

    def test_what_is_not_known_stays(self):
        text = "op f(a: word, b: word) -> y: word { t = add(a, b); y = copy(t); }\n"
        ops, new = self.path("a.ops", text), self.path("new.ops")
        with unittest.mock.patch.object(Comparer, "_verdict", lambda self, folder, width: UNKNOWN if width == 4 else RIGHT):
            status, out, _ = self.call(ops, new, "--widths", "2,4")
            self.assertEqual(status, 0)
            self.assertIn("equal at 2; not known at 4: left as it was", out)
            self.assertEqual(pathlib.Path(new).read_text(encoding="utf-8"), text)
            os.remove(new)
            status, out, _ = self.call(ops, new, "--widths", "2,4", "--unvalidated")
        self.assertEqual(status, 0)
        self.assertIn("not known at 4", out)
        self.assertTrue(pathlib.Path(new).read_text(encoding="utf-8").startswith("# not compared at 4\nop f("))

    def test_products_are_compared_as_unknowns(self):
        old, new = (read_ops(f"op f(a: word, b: word, c: word) -> y: word {{ t = mul({pair}); {rest} }}".encode())[0] for pair, rest in
                    (("a, b", "y = add(t, c);"), ("b, a", "serial up (k = 0) { y = xor(t, xor(c, k)); k = maj(t, c, k); }")))
        self.assertEqual(Comparer(Timed(program())).equal(old, new, (16,)), equal.Equality({16: RIGHT}, True))
        wrong = read_ops(b"op f(a: word, b: word, c: word) -> y: word { t = mul(a, b); y = sub(t, c); }")[0]
        self.assertEqual(Comparer(Timed(program())).equal(old, wrong, (1, 2)).at(WRONG), [2])

    # how it ends

    def test_faults_of_a_text_are_told(self):
        ops, new = self.path("a.ops", "op f(a: word) -> y: word { y = nott(a); }\n"), self.path("new.ops")
        status, out, err = self.call(ops, new)
        self.assertNotEqual(status, 0)
        self.assertEqual(out, "")
        self.assertIn("line 1 unknown", err)
        self.assertIn("there is no word operation nott", err)
        self.assertFalse(os.path.exists(new))

    def test_words_that_are_wrong(self):
        ops = self.path("a.ops", "op f(a: word) -> y: word { y = not(a); }\n")
        other = self.path("image", "SDMIxxxx")
        for words in ((ops, ops), (ops, other), (ops, "--widths", "0"), (ops, "--widths", "x")):
            with self.assertRaises(Fault):
                self.call(*words)
        with self.assertRaises(Fault):
            simplify_tool.main([ops, "--seconds", "0"], Settings())

    def test_without_new_the_text_is_printed(self):
        status, out, err = self.call(self.path("a.ops", "op f(a: word) -> y: word { t = not(a); y = not(t); }\n"), "--widths", "8")
        self.assertEqual((status, out), (0, "op f(a: word) -> y: word {\n  y = copy(a);\n}\n"))
        self.assertEqual(err, "f n=8 32 -> 8 rows 8 -> 0; equal at 8\n")

    def test_a_broken_cache_is_none(self):
        ops = self.path("a.ops", "op f(a: word, b: word) -> y: word { t = xor(a, b); y = and(t, b); }\n")
        for text in ("{", "[1]", '{"x": 3, "y": {"8": [1]}}'):
            with tempfile.TemporaryDirectory(prefix="simdram_") as folder, \
                    unittest.mock.patch.dict(os.environ, {"SIMDRAM_CACHE": folder}):
                path = StatementCache(program()).path
                path.write_text(text, encoding="utf-8")
                self.assertEqual(StatementCache(program()).kept, {})
                self.assertEqual(self.call(ops, "--widths", "4")[0], 0)
                self.assertTrue(StatementCache(program()).kept)

    def test_the_top_bit(self):
        """However it is asked for, the top bit is a state that takes each bit."""
        half = "o = ones(); h = shr1(o);"
        bodies = (f"{half} y = gt(a, h);", f"{half} m = not(h); y = ge(a, m);", f"{half} m = not(h); t = and(a, m); y = or_red(t);",
                  f"{half} m = not(h); t = and(a, m); z = zero(); e = eq(t, z); y = not(e);", "r = relu(a); y = gt(a, r);",
                  "r = relu(a); e = eq(r, a); y = not(e);")
        text = "".join(f"op f{k}(a: word) -> y: bit {{ {body} }}\n" for k, body in enumerate(bodies))
        text += f"op low(a: word) -> y: bit {{ {half} y = ge(h, a); }}\n"
        for one in Simplifier(program(), Options((1, 2, 8), SLOW)).outcomes(text.encode()):
            found = " ".join(one.simpler.text.split("{", 1)[1].split())
            self.assertEqual(found, "serial up (y = 1) { y = not(a); } }" if one.simpler.op.name == "low" else "serial up (y = 0) { y = a; } }")
            self.assertTrue(one.is_taken)

    def test_an_empty_text(self):
        self.assertEqual(self.call(self.path("a.ops", "# nothing\n")), (0, "# nothing\n", ""))

    def test_it_ends_in_time(self):
        text, seconds, start = kernels()["sad2"].text(), 2.0, spent()
        outcome, = Simplifier(program(), Options((8,), seconds)).outcomes(text.encode())
        self.assertLess(spent() - start, seconds + 1.5)
        self.assertFalse(outcome.simpler.is_whole)
        self.assertNotEqual(outcome.kind, WRONG)

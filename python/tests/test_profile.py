"""The word profile, and profiles of ops and arrays."""

import csv
import io
import unittest

import support
from support import TOP, needs_numpy, needs_program, numpy
from test_tools import Folder

import simdram
from simdram.assembler.walks import executions
from simdram.costs.profile import of_file
from simdram.files.program import Program
from simdram.launcher.settings import Settings
from simdram.rules.word_ops import TAKES_GIVES

MAC = "op mac(a: word, b: word, c: word) -> y: word {\n  t = mul(a, b);\n  y = add(t, c);\n}\n"


def every_op():
    """A text with each word operation as an op."""
    kinds = {"w": "word", "b": "bit", "x": "word"}
    lines = []
    for name, (takes, gives) in TAKES_GIVES.items():
        sources = ", ".join(f"{letter}: {kinds[kind]}" for letter, kind in zip("abc", takes)) or "a: word"
        results = ", ".join(f"{letter}: {kinds[kind]}" for letter, kind in zip("yz", gives))
        lines.append(f"op o_{name}({sources}) -> {results} {{ {', '.join('yz'[:len(gives)])} = {name}({', '.join('abc'[:len(takes)])}); }}\n")
    return "".join(lines)


@needs_program
class Counts(Folder):
    def test_each_operation_has_the_counts_of_cost(self):
        (self.folder / "all.ops").write_text(every_op())
        for ops in (str(self.folder / "all.ops"), str(TOP / "examples" / "serial" / "serial.ops")):
            for one in of_file(ops, [1, 2, 7, 32], Settings()):
                for rows in (one.statements, one.parts):
                    self.assertEqual((sum(row.aap for row in rows), sum(row.ap for row in rows)), (one.cost.aap, one.cost.ap), one.name)

    def test_statements_and_parts(self):
        (self.folder / "mac.ops").write_text(MAC)
        found = of_file(str(self.folder / "mac.ops"), [8], Settings())[0]
        self.assertEqual([(row.what, row.commands) for row in found.statements], [("line 2, t = mul(a, b);", 290), ("line 3, y = add(t, c);", 73)])
        inner = max(found.parts, key=lambda row: row.commands)
        self.assertEqual((inner.times, inner.aap, inner.ap), (21, 168, 21))
        self.assertRegex(inner.what, r"in the loop at \d+, in the loop at \d+, upwards: line 2")
        turns = [row for row in found.parts if "turn" in row.what]
        self.assertEqual([(row.times, row.what.partition("turn ")[2][:6]) for row in turns], [(4, "1 of 2"), (4, "2 of 2")])

    def test_instructions(self):
        code = self.compiled("op f(a: word, b: word) -> y: word { y = add(a, b); }").find("f").code
        self.assertEqual(executions(code, 5)[0], 1)
        self.assertEqual(max(executions(code, 5)), 5)

    def test_words(self):
        self.compiled(MAC, "mac")
        text = self.call("profile", "mac.ops", "8").stdout
        self.assertEqual(text.splitlines()[:3], ["mac at n = 8: 363 commands, aap=327 ap=36", "  share  commands  aap  ap  statement",
                                                 "  79.9%       290  262  28  line 2, t = mul(a, b);"])
        self.assertEqual(self.call("profile", "mac", "8", "--ops", "mac.ops").stdout, text)
        self.assertNotIn("statement", self.call("profile", "mac", "8").stdout)
        rows = list(csv.DictReader(io.StringIO(self.call("profile", "mac.ops", "8", "--csv", "--op", "mac", "16").stdout, newline="")))
        self.assertEqual([row["commands"] for row in rows if row["kind"] == "statement"], ["290", "73", "1158", "145"])
        self.assertAlmostEqual(sum(float(row["share"]) for row in rows if row["kind"] == "part" and row["width"] == "8"), 1, 4)

    def test_stuck(self):
        self.call("from-hex", str(TOP / "examples" / "refused" / "stuck.hex"), "stuck")
        self.assertEqual(Program.load(str(self.folder / "stuck")).entries[0].name, "index")
        self.assertIn("index at n = 8: bad_walk 1 index\n", self.call("profile", "stuck", "8").stdout)

    def test_faults(self):
        self.compiled(MAC, "mac")
        (self.folder / "bad.ops").write_text("op f(a: word) -> y: word { y = no(a); }")
        for words, said in ((["mac", "129"], "N takes widths from 1 to 128"), (["mac", "8", "--op", "f"], "no entry f"),
                            (["mac.ops", "8", "--ops", "mac.ops"], "--ops goes with one"), (["none", "8"], "none: "),
                            (["bad.ops", "8"], "bad.ops line 1 column 32: unknown")):
            ended = self.call("profile", *words)
            self.assertEqual(ended.returncode, 2, ended.stderr)
            self.assertIn(said, ended.stderr)
            self.assertNotIn("Traceback", ended.stderr)


@needs_numpy
@needs_program
class Arrays(unittest.TestCase):
    def test_sums(self):
        chip = simdram.Chip(banks=2, rows=400, words=1)
        for count in (3, 100):
            x = [chip.array(numpy.arange(count) + k, bits=4 + 4 * (count > 3)) for k in range(6)]
            z = x[0] * x[1] + x[2] * x[3] + (x[4] * x[5] + 3)
            found = z.profile()
            self.assertEqual(found.cost, z.cost)
            for rows in (found.ops, found.instructions):
                self.assertEqual((sum(row.aap for row in rows), sum(row.ap for row in rows)), (z.cost.aap, z.cost.ap))
            filled = sum(row.commands for row in found.ops if row.what == "fill")
            self.assertEqual(sum(row.commands for row in found.statements) + filled, z.cost.commands)
            products = [row for row in found.statements if "mul(" in row.what]
            self.assertGreater(sum(row.commands for row in products), z.cost.commands / 2)
            self.assertIn(f"{z.cost.commands} commands, {z.cost}", str(found))
        self.assertEqual(str(x[0].profile()), "0 commands, aap=0 ap=0")

    def test_of_an_op(self):
        mac = simdram.op(MAC)
        self.assertEqual([row.commands for row in mac.profile(8).statements], [290, 73])


if __name__ == "__main__":
    unittest.main()

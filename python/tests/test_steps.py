"""The word steps: frames, old values, subscripts, loops inside loops, and the bits of numbers."""

import json
import pathlib
import random
import re
import subprocess
import tempfile
import unittest

import support
from support import TOP, needs_program, op_text
from test_profile import every_op
from test_words import called

from simdram.files.program import BNEZ, DONE, SETI, Entry, Instruction, Program
from simdram.launcher.faults import Fault
from simdram.steps.iterations import execution
from simdram.steps.one_column import Column, numbers_of
from simdram.steps.steps_tool import View

OPS = """op sum(a: word, b: word) -> y: word { y = add(a, b); }
op product(a: word, b: word) -> y: word { y = mul(a, b); }
op both(a: word, b: word) -> q: word, r: word { q, r = divmod(a, b); }
op saturated(a: word, b: word) -> y: word {
  serial up (c = 0) { let x = xor(a, b); t = xor(x, c); c = maj(a, b, c); }
  o = ones();
  y = if_else(o, t, c);
}
op chosen(a: word, s: bit) -> y: word { t = bitcount(a); y = if_else(t, a, s); }
op less(a: word, b: word) -> l: bit { serial up (l = 0) { l = maj(not(a), b, l); } }
"""
VALUES = {"sum": lambda a, b: [a + b & 255], "product": lambda a, b: [a * b & 255], "both": lambda a, b: [a // b, a % b],
          "saturated": lambda a, b: [min(255, a + b)], "less": lambda a, b: [int(a < b)]}


@needs_program
class Pages(unittest.TestCase):
    @classmethod
    def setUpClass(cls):
        kept = tempfile.TemporaryDirectory()
        cls.addClassCleanup(kept.cleanup)
        cls.folder = pathlib.Path(kept.name)
        cls.ops = str(cls.folder / "p.ops")
        (cls.folder / "p.ops").write_text(OPS)
        subprocess.run([support.program(), "compile", "p.ops", "p"], cwd=cls.folder, check=True, capture_output=True)
        cls.program = Program.load(str(cls.folder / "p"))

    def call(self, *words):
        return called(*words, cwd=self.folder)

    def data(self, *words):
        ended = self.call("steps", "p", *words, "--ops", "p.ops", "--html", "p.html")
        self.assertEqual(ended.returncode, 0, ended.stderr)
        return json.loads((self.folder / "p.html").read_text().partition("const parts = ")[2].partition(";\n")[0])

    def test_a_frame_marks_what_a_command_changes(self):
        for name in VALUES:
            for one in View(self.program.find(name), op_text(self.program.find(name), self.ops)).shown:
                before = one.start
                for step in one.done:
                    words = step.text.replace(",", "").split()
                    after = {**step.cells, **step.rows}
                    # what has another text has changed, but for a row that is shown for the first time
                    self.assertEqual({cell for cell in one.start if before[cell] != after[cell]},
                                     set(step.changed) & set(one.start), step)
                    self.assertLessEqual(set(step.changed) - set(one.start), {words[-1]}, step)
                    before = after
        # the state is in three cells when the part begins, and the first command changes one other
        product = View(self.program.find("product"), op_text(self.program.find("product"), self.ops)).shown[-1]
        self.assertEqual((product.done[0].text, product.done[0].changed), ("AAP C1, B1", ["T1"]))
        self.assertEqual((product.start["T3"], product.start["DCC1"]), ("s", "s"))

    def test_what_a_row_held_before(self):
        accumulated = View(self.program.find("product"), op_text(self.program.find("product"), self.ops)).shown[-1]
        rows = [step.rows.get("y[r4]") for step in accumulated.done]
        self.assertIn("old y[r4]", rows)
        self.assertNotIn("y[r4]", " ".join(rows[-1:]))
        self.assertEqual({step.rows["a[r3]"] for step in accumulated.done[1:]}, {"a[r3]"})

    def test_a_register_that_is_set_again(self):
        (self.folder / "f.micro").write_text("program f(a: word) -> y: bit\nAAP a[1] T1\nAAP a[2] ~DCC0\nAAP C0 T2\n"
                                             "AAP {DCC0, T1, T2} y\n")
        self.assertEqual(self.call("assemble", "f.micro", "f.prog").returncode, 0)
        said = self.call("steps", "f.prog", "f", "--with", "a=2", "--width", "4").stdout
        for shown in ("AAP a[1], B1", "AAP a[2], B5", "y[0] = v1=1", "v1 = and(a[1], ~a[2])", "a[1]=1", "~a[2]=1"):
            self.assertIn(shown, said)
        self.assertEqual(self.call("steps", "f.prog", "f", "--html", "f.html").returncode, 0)
        step = json.loads((self.folder / "f.html").read_text().partition("const parts = ")[2].partition(";\n")[0])[0]["steps"][-1]
        self.assertEqual(step["rows"], {"a[1]": "a[1]", "a[2]": "a[2]", "y[0]": "v1"})

    def test_rows_that_may_be_one(self):
        (self.folder / "g.micro").write_text("program g(a: word) -> y: word\nSETN r0\nl:\nSUBI r0 1\nAAP y[0] T0\nAAP a[r0] y[r0]\n"
                                             "AAP y[0] T1\nBNEZ r0 l\n")
        self.assertEqual(self.call("assemble", "g.micro", "g.prog").returncode, 0)
        said = self.call("steps", "g.prog", "g").stdout
        self.assertIn("AAP y[0], B0    old y[0]", said)
        self.assertIn("now y[0]", said)

    def test_a_program_that_is_not_of_the_text(self):
        (self.folder / "hand.micro").write_text("program saturated(p: word, q: word) -> y: word\nscratch t0: bit, t1: bit\n"
                                                "AAP p[0] T1\nAAP T1 t1\nAAP t1 y[0]\n")
        self.assertEqual(self.call("assemble", "hand.micro", "hand.prog").returncode, 0)
        ended = self.call("steps", "hand.prog", "saturated", "--ops", "p.ops")
        lines = ended.stdout.splitlines()
        self.assertEqual(lines[0], "hand.prog has another saturated than p.ops compiles to: its operands have their names, and nothing "
                                   "is said of statements")
        self.assertEqual(lines[1], "from instruction 0 (hand.micro line 3), once")
        self.assertIn("AAP t1, y[0]", ended.stdout)
        said = self.call("profile", "hand.prog", "8", "--ops", "p.ops", "--op", "saturated").stdout
        self.assertEqual(said.splitlines()[1], lines[0])
        self.assertNotIn("line ", said)
        self.assertEqual(self.call("steps", "hand.prog", "saturated", "--ops", "p.ops", "--html", "hand.html").returncode, 0)
        self.assertIn(lines[0], (self.folder / "hand.html").read_text())
        self.assertNotIn("another", self.call("steps", "p", "saturated", "--ops", "p.ops").stdout)

    def test_what_a_subscript_is(self):
        accumulated = View(self.program.find("product"), op_text(self.program.find("product"), self.ops)).shown[-1]
        names = [name for name, _ in accumulated.subscripts]
        self.assertEqual(names, ["r3", "r4"])
        for name, what in accumulated.subscripts:
            self.assertRegex(what, r"^set to \w+ at instruction \d+( and raised by 1 at \d+)?, raised by 1 at \d+ in each iteration "
                                   r"of the loop \d+ to \d+$")
            self.assertIn(f" {name} is {what}", " ".join(" ".join(accumulated.lines).split()))
        once = View(self.program.find("sum"), op_text(self.program.find("sum"), self.ops)).shown[-1]
        self.assertEqual([name for name, _ in once.subscripts], ["i"])

    def test_loops_inside_loops(self):
        data = self.data("product")
        outer, inner = data[-2:]
        self.assertEqual((len(outer["loops"]), len(inner["loops"])), (1, 2))
        self.assertEqual(inner["loops"][0], outer["loops"][0])
        text = (self.folder / "p.html").read_text()
        self.assertIn("let part = 0, at = 0, round = 0, place = 0;", text)
        self.assertNotIn("@", text.partition("const parts")[0])

    def order(self):
        text = (self.folder / "p.html").read_text()
        found = re.search(r"const order = (.*), isWhole = (.*);", text)
        return json.loads(found[1]), json.loads(found[2])

    def test_the_page_walks_through_the_whole_operation(self):
        """The arrow keys go through as many commands as `cost` counts, in the order in which they are executed."""
        for name in VALUES:
            given = ["--with", "a=200,b=77", "--width", "8"]
            data = self.data(name, *given)
            order, is_whole = self.order()
            cost = self.call("cost", "p", "8").stdout.splitlines()[self.program.entries.index(self.program.find(name))]
            counts = [int(number) for number in re.findall(r"a?ap=(\d+)", cost)]
            self.assertEqual((sum(len(data[part]["steps"]) for part, _ in order), is_whole), (sum(counts), True), name)
            for part, one in enumerate(data):
                self.assertEqual([k for other, k in order if other == part], list(range(len(one["iterations"]))))
        self.data("product", "--with", "a=3,b=5", "--width", "32")
        self.assertFalse(self.order()[1])
        self.assertEqual(len(self.data("product")), len(self.order()[0]))

    def test_the_page_says_its_keys_and_cells(self):
        data = self.data("product")
        text = (self.folder / "p.html").read_text()
        for key in ("&rarr;", "&uarr;", "Page Down", "Home", "End"):
            self.assertIn(f"<kbd>{key}</kbd>", text)
        said = [step["text"] for part in data for step in part["steps"]]
        self.assertIn("AAP C0, B12 {T0, T1, T2}", said)
        self.assertFalse([one for one in said if re.search(r"B\d+(,|$)", one)])

    def test_a_start_is_walked_through(self):
        (self.folder / "w.micro").write_text("program w(a: word) -> y: word\nscratch t0: bit, w0: word\nAAP T3 T1\nAAP t0 T2\nAAP w0[n - 1] T0\n"
                                             "AAP {T0, T1, T2} y[0]\n")
        self.assertEqual(self.call("assemble", "w.micro", "w.prog").returncode, 0)
        for start, given in (("T3", "T3: y = 0"), ("T3,t0", "T3 t0: y = 1"), ("t0 w0[1],y[1]", "t0 w0[1] y[1]: y = 3"), ("zeros", "zeros: y = 0")):
            said = self.call("steps", "w.prog", "w", "--with", "a=0", "--width", "2", "--from", start).stdout.splitlines()
            self.assertEqual(said[0], f"a = 0 at the width 2 from {given}")
        for start, fault in (("T9", "T9 is no cell"), ("w0[2]", "w0[2] is no cell and no row"), ("t1", "t1 is no"), ("a[0]", "a[0] is no"), ("y[5]", "y[5] is no")):
            ended = self.call("steps", "w.prog", "w", "--with", "a=0", "--width", "2", "--from", start)
            self.assertEqual((ended.returncode, ended.stderr.count("\n")), (2, 1), ended.stderr)
            self.assertIn(fault, ended.stderr)
        self.assertIn("--from goes with --with", self.call("steps", "w.prog", "w", "--from", "T3").stderr)

    def test_bits_are_those_of_the_values(self):
        """Where two cells have one text, they have one bit, and a complement has the other."""
        for name in VALUES:
            entry = self.program.find(name)
            self.agree(name, View(entry, op_text(entry, self.ops), execution(entry, op_text(entry, self.ops), "a=11,b=6", 8)).shown)

    def agree(self, name, shown):
        """The bits of an operation's parts are those of the values that are shown."""
        for one in shown:
            for each in one.bits:
                known = {}
                for step, bits in zip(one.done, each["bits"]):
                    for text, bit in ((text, bits[key]) for key, text in {**step.cells, **step.rows}.items() if bits[key] != "?"):
                        bare = text.lstrip("~")
                        bit = int(bit) ^ text.startswith("~")
                        if bare != "?":
                            self.assertEqual(known.setdefault(bare, bit), bit, (name, one.part.title(), step, bare))
                self.assertEqual((known.get("0", 0), known.get("1", 1)), (0, 1))

    def test_bits_of_every_operation(self):
        """The same of each word operation, at widths where loops have no iteration, one, and several."""
        (self.folder / "all.ops").write_text(every_op())
        subprocess.run([support.program(), "compile", "all.ops", "all"], cwd=self.folder, check=True, capture_output=True)
        dice = random.Random(9)
        for entry in Program.load(str(self.folder / "all")).entries:
            for width in (1, 2, 3, 7):
                given = ",".join(f"{name}={dice.randrange(1, 2 if kind == 'bit' else 1 << width)}"
                                 for name, kind in zip("abc", entry.sources))
                text = op_text(entry, self.folder / "all.ops")
                self.agree(entry.name, View(entry, text, execution(entry, text, given, width)).shown)

    def test_results(self):
        dice = random.Random(8)
        for name, function in VALUES.items():
            entry = self.program.find(name)
            for _ in range(20):
                a, b = dice.randrange(256), dice.randrange(1, 256)
                column = Column(entry, 8, [a, b]).run()
                self.assertGreater(len(column.path), 0)
                self.assertEqual([int(column.result(k)) for k in range(len(entry.results))], function(a, b), (name, a, b))

    def test_iterations(self):
        data = self.data("product", "--with", "a=3,b=5")
        self.assertEqual([len(part["iterations"]) for part in data], [4, 4, 7, 21])
        self.assertEqual([part["title"].partition("turn ")[2][:6] for part in data], ["1 of 2", "2 of 2", "", ""])
        self.assertEqual({each["inside"] for part in data[:-1] for each in part["iterations"]}, {""})
        inner = data[-1]
        self.assertEqual([each["registers"][3] for each in inner["iterations"][:6]], list(range(1, 7)))
        (outer, _), (first, _) = inner["loops"]
        self.assertEqual([each["inside"] for each in inner["iterations"]],
                         [f"{k} of 7 of the loop at {outer}, {i} of {7 - k} of the loop at {first}"
                          for k in range(1, 8) for i in range(1, 8 - k)])
        for each in inner["iterations"]:
            for step, bits in zip(inner["steps"], each["bits"]):
                self.assertEqual(len(bits), len(step["cells"]) + len(step["rows"]))
        self.assertEqual(inner["counted"], "21")
        self.assertEqual(self.data("product", "--with", "a=3,b=5", "--width", "32")[-1]["counted"], "the first 300")
        ended = self.call("steps", "p", "both", "--ops", "p.ops", "--with", "a=200,b=7", "--iteration", "3")
        self.assertEqual(ended.stdout.splitlines()[0], "a = 200, b = 7 at the width 8: q = 28, r = 4")
        self.assertIn("iteration 3 of ", ended.stdout)

    def test_a_bit_among_the_operands(self):
        ended = self.call("steps", "p", "chosen", "--ops", "p.ops", "--with", "a=6,s=1", "--width", "4")
        self.assertEqual(ended.stdout.splitlines()[0], "a = 6, s = 1 at the width 4: y = 2")
        self.assertIn("s=1", ended.stdout)

    def test_wrong_numbers(self):
        for words, said in ((["--with", "a=3"], "gives no number for b"), (["--with", "a=3,c=4"], "--with takes a=NUMBER,b=NUMBER"),
                            (["--with", "a=3,b=x"], "and not b=x"), (["--with", "a=300,b=1", "--width", "8"], "8 bits hold 0 to 255"),
                            (["--width", "8"], "--width goes with --with"), (["--with", "a=1,b=2", "--width", "129"], "is 1 to 128"),
                            (["--with", "a=1,b=2", "--iteration", "0"], "--iteration is 1 or more")):
            ended = self.call("steps", "p", "sum", *words)
            self.assertEqual((ended.returncode, len(ended.stderr.splitlines())), (2, 1), ended.stderr)
            self.assertIn(said, ended.stderr)
        self.assertEqual(numbers_of("a=300,b=1", ["a", "b"], ["word", "bit"], None), ([300, 1], 16))
        with self.assertRaises(Fault):
            numbers_of("a=1,b=2", ["a", "b"], ["word", "bit"], 8)

    def test_an_endless_loop_ends(self):
        code = (Instruction(SETI, 1, 1), Instruction(BNEZ, 1, 0), Instruction(DONE))
        with self.assertRaisesRegex(Fault, "executes over 1,000,000 instructions at the width 8"):
            Column(Entry("f", ("word",), ("word",), 0, 0, code), 8, [3]).run()

    def test_an_unset_row_has_no_bit(self):
        stuck = TOP / "examples" / "exec" / "xor.hex"
        self.assertEqual(called("from-hex", str(stuck), "x.prog", cwd=self.folder).returncode, 0)
        entry = Program.load(str(self.folder / "x.prog")).entries[0]
        column = Column(entry, 4, [3] * len(entry.sources)).run()
        self.assertRegex(column.result(0), r"^(\d+|[01?]+)$")


if __name__ == "__main__":
    unittest.main()

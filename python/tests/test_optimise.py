"""Fewer commands at one width: what the launcher, the tools and arrays make of it."""

import pathlib
import subprocess
import tempfile
import unittest
import unittest.mock

import support
from support import needs_numpy, needs_program, numpy
from test_words import called

import simdram
from simdram.assembler import assemble
from simdram.assembler.at_width import branch, choice, choices, earlier, test
from simdram.assembler.reading import readable_lines
from simdram.assembler.walks import walk
from simdram.files.program import BNEZ, Entry, Instruction, Program
from simdram.optimise.named_rows import scratch, stays_in_words, with_fewer_rows
from simdram.optimise.search import entries_of, is_made_of

OPS = """op twice(a: word) -> y: word { t = add(a, a); y = add(t, t); }
op less(a: word, b: word) -> y: word { y = sub(a, b); }
"""
WORK = "3000"


@needs_program
class Optimised(unittest.TestCase):
    """Two ops, of which one takes fewer commands at the width 3."""

    @classmethod
    def setUpClass(cls):
        kept = tempfile.TemporaryDirectory()
        cls.addClassCleanup(kept.cleanup)
        cls.folder = pathlib.Path(kept.name)
        (cls.folder / "p.ops").write_text(OPS)
        subprocess.run([support.program(), "compile", "p.ops", "p"], cwd=cls.folder, check=True, capture_output=True)
        cls.ended = called("optimise", "p.ops", "p", "3", "three", "1", WORK, cwd=cls.folder)
        cls.program, cls.three = (Program.load(str(cls.folder / name)) for name in ("p", "three"))

    def call(self, *words):
        return called(*words, cwd=self.folder)

    def test_the_report_is_the_programs(self):
        self.assertEqual(self.ended.returncode, 0, self.ended.stderr)
        lines = self.ended.stdout.splitlines()
        self.assertRegex(lines[0], r"^twice 56 to \d+$")
        self.assertRegex("\n".join(lines[1:]), r"^less (as it was|19 to \d+)\noptimised \d of 2 at 3$")

    def test_cost_tells_the_lines_count(self):
        after = int(self.ended.stdout.split()[3])
        self.assertEqual(len(walk(self.three.find("twice"), 3)), after)
        said = self.call("cost", "three", "3").stdout.splitlines()[0].split()
        self.assertEqual(sum(int(word.partition("=")[2]) for word in said[1:3]), after)
        self.assertEqual(self.call("cost", "three", "4,5").stdout, self.call("cost", "p", "4,5").stdout)

    def test_a_choice_is_known_again(self):
        new, old = self.three.find("twice"), self.program.find("twice")
        found = choice(new)
        self.assertEqual((found.width, found.elsewhere), (3, old))
        self.assertEqual(walk(found.here, 3), walk(new, 3))
        self.assertEqual((branch(new, 3), branch(new, 4), branch(new, None), branch(old, 3)), (found.here, old, old, old))
        self.assertIsNone(choice(old))
        for at in (0, 1, 3, 7):
            code = (*new.code[:at], Instruction(BNEZ, 2, 1), *new.code[at + 1:])
            self.assertIsNone(choice(Entry(new.name, new.sources, new.results, new.bits, new.words, code)))

    def test_the_text_has_an_if_and_assembles_to_the_same_commands(self):
        new = self.three.find("twice")
        lines = readable_lines(new)
        self.assertIn("  if n == 3 {", lines)
        self.assertTrue(any("for i in" in line for line in lines[lines.index("  } else {"):]), lines)
        again = assemble("\n".join(lines).encode()).entries[0]
        for n in (*range(1, 8), 31, 128):
            self.assertEqual(walk(again, n), walk(new, n), n)
        self.assertIn("if n == 3 {", self.call("disassemble", "three").stdout)

    def test_steps_show_the_code_of_one_width(self):
        shown = self.call("steps", "three", "twice", "--width", "3").stdout.splitlines()
        self.assertEqual(shown[:2], ["at the width 3 alone", "from instruction 0, once"])
        self.assertEqual(len(shown) - 3 - sum(" = " in line and line.startswith("  ") for line in shown), len(walk(self.three.find("twice"), 3)))
        others = self.call("steps", "three", "twice").stdout.splitlines()
        self.assertEqual(others[0], "at all widths but 3")
        self.assertEqual(others[1:], self.call("steps", "p", "twice").stdout.splitlines())
        self.assertIn("a = 1 at the width 3: y = 4", self.call("steps", "three", "twice", "--with", "a=1", "--width", "3").stdout)
        self.assertIn("--width goes with --with", self.call("steps", "p", "twice", "--width", "3").stderr)

    def test_a_call_goes_on_from_what_it_wrote(self):
        before = self.folder / "again"
        before.write_bytes((self.folder / "three").read_bytes())
        ended = self.call("optimise", "p.ops", "p", "3", "again", "2", "0")
        self.assertEqual((ended.returncode, ended.stdout), (0, "twice as it was\nless as it was\noptimised 0 of 2 at 3\n"))
        self.assertEqual(before.read_bytes(), (self.folder / "three").read_bytes())
        self.assertFalse((self.folder / "again~").exists())
        ended = self.call("optimise", "p.ops", "p", "2", "again", "2", WORK)
        widths = [one.width for one in choices(Program.load(str(before)).find("twice"))[0]]
        self.assertEqual((ended.returncode, sorted(widths)), (0, [2, 3]))
        self.assertEqual(self.call("verify", "p.ops", "again", "1-5").returncode, 0)

    def test_another_program_is_kept_and_not_gone_on_from(self):
        (self.folder / "other.ops").write_text("op twice(a: word) -> y: word { y = copy(a); }")
        self.call("compile", "other.ops", "other")
        self.assertFalse(entries_of(str(self.folder / "p"), str(self.folder / "other"))[1])
        self.assertFalse(is_made_of(self.program.find("twice"), self.three.find("twice")))
        ended = self.call("optimise", "p.ops", "p", "3", "other", "1", "0")
        self.assertEqual(ended.returncode, 0)
        self.assertTrue((self.folder / "other~").exists())

    def test_rows_that_no_command_names_are_given_back(self):
        ended = self.call("optimise", "p.ops", "p", "3", "rows", "1", "0", "--rows")
        self.assertIn("less rows 1 to 0, right at 3\n", ended.stdout)
        self.assertEqual(Program.load(str(self.folder / "rows")).find("less").bits, 0)
        self.assertEqual(self.call("verify", "p.ops", "rows", "1-6").returncode, 0)

    def test_rows_stay_where_verify_does_not_say_right(self):
        (self.folder / "wrong.ops").write_text("op less(a: word, b: word) -> y: word { y = add(a, b); }\n")
        ended = self.call("optimise", "wrong.ops", "p", "3", "stay", "1", "0", "--rows")
        self.assertIn("less wrong\n", ended.stdout)
        self.assertIn("less rows 1 as they were, as verify does not say right\n", ended.stdout)
        self.assertIn("simdram explain wrong.ops p 3", ended.stderr)
        self.assertEqual(Program.load(str(self.folder / "stay")).find("less").bits, 1)

    def test_rows_are_numbered_anew(self):
        text = """program f(a: word) -> y: word
        scratch t0: bit, t1: bit, w0: word, w1: word
          AAP a[0] t1
          AAP t1 y[0]
          for i in 1..n { AAP a[i] w1[i]; AAP w1[i] y[i] }
        """
        old = assemble(text.encode()).entries[0]
        new = with_fewer_rows(old)
        self.assertEqual((new.bits, new.words, scratch(old, 4), scratch(new, 4)), (1, 1, 10, 5))
        self.assertEqual([str(row) for row in new.code[0].rows], ["s0[0]", "t0"])

    def test_words_stay_that_are_reached_from_the_word_before(self):
        text = """program inv(a: word) -> y: word
        scratch w: word, v: word, u: word
          if n == 4 {
            for i in 0..n { AAP a[i] ~DCC0; AAP DCC0 y[i] }
          } else {
            for i in 0..n { AAP a[i] u[i]; AAP C0 w[n+i]; AAP u[i] ~DCC0; AAP DCC0 y[i]; AAP C0 w[i] }
          }
        """
        entry = assemble(text.encode()).entries[0]
        self.assertFalse(stays_in_words(entry))
        self.assertEqual(with_fewer_rows(entry), entry)
        (self.folder / "inv.ops").write_text("op inv(a: word) -> y: word { y = not(a); }")
        (self.folder / "inv").write_bytes(Program([entry]).file())
        ended = self.call("optimise", "inv.ops", "inv", "4", "inv4", "1", "0", "--rows")
        self.assertEqual((ended.returncode, ended.stdout), (0, "inv as it was\noptimised 0 of 1 at 4\n"))
        self.assertEqual(self.call("verify", "inv.ops", "inv4", "1-9").returncode, 0)

    def test_refusals_are_the_programs(self):
        for words, status in ((("p.ops", "p", "3"), 1), (("p", "p.ops", "3", "n"), 4), (("p.ops", "p.ops", "3", "n"), 1),
                              (("p.ops", "nothing", "3", "n"), 2)):
            self.assertEqual(self.call("optimise", *words).returncode, status, words)
        self.assertFalse((self.folder / "n").exists())

    def test_simplify_writes_a_program_of_the_better_start(self):
        ended = self.call("simplify", "p.ops", "simpler.ops", "--width", "2", "two", "--seconds", "2")
        self.assertEqual(ended.returncode, 0, ended.stderr)
        lines = ended.stdout.splitlines()[-3:]
        self.assertRegex(lines[0], r"^twice 38 to \d+$")
        self.assertEqual(int(lines[0].split()[-1]), len(walk(Program.load(str(self.folder / "two")).find("twice"), 2)))
        self.assertEqual(self.call("verify", "p.ops", "two", "2").returncode, 0)
        self.assertIn("N of --width", self.call("simplify", "p.ops", "--width", "0", "two").stderr)


class Tests(unittest.TestCase):
    def test_jumps_lead_to_earlier_places(self):
        self.assertEqual([one.number for one in earlier(test(4, 20), 2)][2:4], [2, 18])


@needs_numpy
@needs_program
class Arrays(unittest.TestCase):
    def test_a_chip_does_ops_of_a_width_by_fewer_commands(self):
        with tempfile.TemporaryDirectory() as folder, unittest.mock.patch.dict("os.environ", {"SIMDRAM_CACHE": folder}):
            x = numpy.array([0, 1, 2, 3], dtype=numpy.uint8)
            costs = []
            for optimise in ((), 2, [2, 3]):
                chip = simdram.Chip(banks=1, rows=256, words=1, optimise=optimise)
                a, b = chip.array(x, bits=2), chip.array(x[::-1].copy(), bits=2)
                found = simdram.where(a > b, a, b)
                self.assertEqual(found.numpy().tolist(), [3, 2, 2, 3])
                costs.append(found.cost.aap + found.cost.ap)
                self.assertIn("op e0(", found.text)
            self.assertLess(costs[1], costs[0])
            self.assertEqual(costs[1], costs[2])
            self.assertEqual(len(list(pathlib.Path(folder).glob("entry-*.json"))), 1)
            for kept in pathlib.Path(folder).glob("entry-*.json"):  # what is kept is not trusted
                kept.write_text(kept.read_text().replace('"entry": "5344', '"entry": "0044'))
            chip = simdram.Chip(banks=1, rows=256, words=1, optimise=2)
            a, b = chip.array(x, bits=2), chip.array(x[::-1].copy(), bits=2)
            self.assertEqual(simdram.where(a > b, a, b).numpy().tolist(), [3, 2, 2, 3])
        with self.assertRaises(simdram.Refused):
            simdram.Chip(optimise=129)


if __name__ == "__main__":
    unittest.main()

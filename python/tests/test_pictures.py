"""Formulas of n, tables of costs in their formats, and pictures of several files."""

import fractions
import os
import unittest
import unittest.mock

import support
from support import TOP, needs_program
from test_tools import Folder

from simdram.costs.formulas import value
from simdram.costs.picture import Line, Picture, number, stepped, svg
from simdram.costs.table_formats import as_csv, as_latex, as_markdown
from simdram.launcher.faults import Fault

FIRST = "op f(a: word, b: word) -> y: word { y = add(a, b); }\nop g(a: word) -> y: word { y = not(a); }\n"
SECOND = "op f(a: word, b: word) -> y: word { t = add(a, b); y = not(t); }\nop h(a: word) -> y: word { y = copy(a); }\n"


class Formulas(unittest.TestCase):
    def test_values(self):
        for text, found in (("11*n*n+15*n-n//2", 234), ("8*n+1", 33), ("n*ceil(log2(n+1))", 12), ("-n**2", -16), ("2^n", 16), ("2**3**2", 512),
                            ("(n+1)*(n-1)", 15), ("n/3", fractions.Fraction(4, 3)), ("floor(n/3)", 1), ("1.5*n", 6), ("--n", 4),
                            ("7-2-1", 4), ("24/4/2", 3), ("log2(8)", 3), ("2**-n", 1 / 16)):
            self.assertEqual(value(text, 4), found, text)

    def test_faults(self):
        for text in ("", "m", "n+", "f(n)", "True", "(n", "n)", "8n", "log2 n", "a.b", "n;1", "__import__", "(" * 300, "n" * 300):
            with self.assertRaisesRegex(Fault, "is no formula of n"):
                value(text, 3)
        for text in ("n//0", "n/0", "log2(0)", "9**9**9", "(-8)**0.5", "0**-1", "2**n**n**n"):
            with self.assertRaisesRegex(Fault, "has no value at n = 3"):
                value(text, 3)

    def test_brackets_may_nest(self):
        self.assertEqual(value("(" * 99 + "n" + ")" * 99, 5), 5)


class Formats(unittest.TestCase):
    ROWS = [["name", "own_ratio", "stuck"], ["a|b", "0.500", ""], ["c_d & 5%", "", ""]]

    def test_each(self):
        self.assertEqual(as_csv(self.ROWS), "name,own_ratio,stuck\na|b,0.500,\nc_d & 5%,,\n")
        self.assertEqual(as_markdown(self.ROWS), "| name | own ratio |\n| --- | ---: |\n| a\\|b | 0.500 |\n| c_d & 5% |  |\n")
        self.assertEqual(as_latex(self.ROWS).splitlines()[2:6], [r"name & own ratio \\", r"\hline", r"a|b & 0.500 \\", r"c\_d \& 5\% &  \\"])


class Pictures(unittest.TestCase):
    def test_marks(self):
        self.assertEqual(stepped(64, 10), [0, 10, 20, 30, 40, 50, 60])
        self.assertEqual([number(one) for one in (1334, 70.0, 1e-06, 39.684)], ["1,334", "70", "1e-06", "39.68"])
        rates = Picture([Line("a", [(2e-6, 1), (3e-4, 0)], "#000")], "x", "y", True)
        self.assertEqual([round(mark, 9) for mark in rates.x.marks(10)], [1e-5, 1e-4])
        self.assertEqual(rates.place(2e-6, 0)[0] + 720, rates.place(3e-4, 0)[0])

    def test_names_are_escaped(self):
        self.assertIn("&lt;b&gt;: 3 at 2", svg(Picture([Line("<b>", [(1, 2), (2, 3)], "#000", True)], "x", "y")))


@needs_program
class SideBySide(Folder):
    def setUp(self):
        super().setUp()
        self.compiled(FIRST, "first")
        self.compiled(SECOND, "second")

    def test_a_table(self):
        text = self.call("cost-table", "first", "second", "--widths", "8", "--csv").stdout
        self.assertEqual(text.splitlines(), [
            "name,width,first_aap,first_ap,first_commands,first_rows,second_aap,second_ap,second_commands,second_rows,second_ratio",
            "f,8,65,8,73,1,81,8,89,9,1.219", "g,8,16,0,16,0,,,,,", "h,8,,,,,8,0,8,0,"])
        self.assertIn("& 1.219", self.call("cost-table", "--format", "latex", "--widths", "8", "first", "second").stdout)
        self.assertEqual(self.call("cost-table", "first", "first").returncode, 2)
        self.assertEqual(self.call("cost-table", "first", "second", "--banks", "2").returncode, 2)

    def test_a_picture(self):
        ended = self.call("plot", "first", "second", "p.svg", "--to", "4", "--ops", "f", "--curve", "paper=9*n-20")
        self.assertEqual((ended.returncode, ended.stderr), (0, ""))
        drawn = (self.folder / "p.svg").read_text()
        for said in ("f of first: 37 at 4", "f of second: 45 at 4", "paper: 16 at 4"):
            self.assertIn(said, drawn)
        self.assertEqual(drawn.count("<polyline"), 3)
        self.assertEqual(drawn.count("stroke-dasharray"), 1)

    def test_entries_columns_and_totals(self):
        self.assertEqual(self.call("cost-table", "first", "second", "--widths", "8,30-31", "--total", "--ops", "f", "--csv").stdout,
                         "name,n=8,n=30,n=31\nf of first,73,271,280\nf of second,89,331,342\n")
        self.assertEqual(self.call("cost-table", "first", "--widths", "8", "--columns", "aap_per_bank,scratch_rows", "--csv").stdout,
                         "name,width,aap_per_bank,scratch_rows\nf,8,65,1\ng,8,16,0\n")
        self.assertEqual(self.call("cost-table", "first", "second", "--widths", "8", "--columns", "commands,ratio", "--ops", "f,h", "--csv").stdout,
                         "name,width,first_commands,second_commands,second_ratio\nf,8,73,89,1.219\nh,8,,8,\n")
        head = self.call("cost-table", "first", "--words", "2", "--csv").stdout.splitlines()[0]
        self.assertIn("commands_per_element_of_128_in_a_row", head)
        for words, said in ((["--ops", "k"], "the entries: f, g"), (["--columns", "k"], "--columns takes aap_per_bank, "), (["--widths", "4-2"], "as 4,8,16-20"),
                            (["--columns", "aap", "--total"], "leave out --columns")):
            ended = self.call("cost-table", "first", *words)
            self.assertEqual((ended.returncode, len(ended.stderr.splitlines())), (2, 1), ended.stderr)
            self.assertIn(said, ended.stderr)

    def test_a_picture_with_a_logarithmic_axis(self):
        ended = self.call("plot", "first", "second", "p.svg", "--widths", "4,8-10", "--column", "aap", "--log", "--curve", "n=n-8")
        self.assertEqual((ended.returncode, ended.stderr), (0, ""))
        drawn = (self.folder / "p.svg").read_text()
        for said in (">AAP</text>", "f of first: 81 at 10", "h of second: 10 at 10", "n: 2 at 10", ">100</text>"):
            self.assertIn(said, drawn)

    def test_a_walk_that_never_ends_is_walked_once(self):
        (self.folder / "m").write_text("program f(a: word) -> y: word\n  for i in 0..n { AAP a[i] y[i] }\n"
                                       "program g(a: word) -> y: word\nagain: AAP a[0] y[0]\nJMP again\n")
        (self.folder / "program").write_text(f'#!/bin/sh\necho "$1 $2" >> calls\nexec {support.program()} "$@"\n')
        (self.folder / "program").chmod(0o755)
        self.assertEqual(self.call("assemble", "m", "p").returncode, 0)
        with unittest.mock.patch.dict(os.environ, SIMDRAM_PROGRAM="./program"):
            ended = self.call("plot", "p", "p.svg", "--to", "8")
        self.assertEqual((ended.returncode, ended.stderr), (0, "simdram: g is left out: its execution is stuck, bad_walk 1 budget at n = 1\n"))
        self.assertIn("f: 8 at 8", (self.folder / "p.svg").read_text())
        calls = (self.folder / "calls").read_text().splitlines()
        self.assertEqual((calls.count("cost p"), len(calls)), (1, 8))

    def test_endings(self):
        for name in ("p.pdf", "p", "p.svg.gz", "p.JPEG"):
            ended = self.call("plot", "first", name, "--to", "2")
            self.assertEqual((ended.returncode, ended.stderr.count("\n")), (2, 1))
            self.assertIn("a picture's name ends in .svg or .png", ended.stderr)
            self.assertFalse((self.folder / name).exists())
        self.assertEqual(self.call("plot", "first", "p.SVG", "--to", "2").returncode, 0)

    def test_faults(self):
        for words, said in ((["--curve", "paper"], "NAME=FORMULA"), (["--curve", "p=8n"], "a product has a *"), (["--ceiling", "g=n"], "--ceiling names g"),
                            (["--ops", "k"], "no entry is called k"), (["--curve", "p=1", "--curve", "p=2"], "another name each"), (["--curve", "p=0-n"], "below 0")):
            ended = self.call("plot", "first", "second", "p.svg", "--to", "2", *words)
            self.assertEqual((ended.returncode, len(ended.stderr.splitlines())), (2, 1), ended.stderr)
            self.assertIn(said, ended.stderr)
        self.assertIn("OUT is missing", self.call("plot", "first").stderr)

    def test_png(self):
        try:
            import matplotlib  # noqa: F401
        except ImportError:
            ended = self.call("plot", "first", "p.png", "--to", "2")
            self.assertEqual(ended.returncode, 2)
            self.assertIn("a PNG needs matplotlib", ended.stderr)
            return
        for _ in range(2):
            self.assertEqual(self.call("plot", "first", "p.png", "--to", "2", "--curve", "p=n/2").returncode, 0)
        self.assertTrue((self.folder / "p.png").read_bytes().startswith(b"\x89PNG"))
        text = TOP / "examples" / "serial" / "serial.ops"
        (self.folder / "t.png").write_bytes(text.read_bytes())
        self.assertIn("it holds text; nothing was done", self.call("plot", "first", "t.png", "--to", "2").stderr)


if __name__ == "__main__":
    unittest.main()

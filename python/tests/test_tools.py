"""The words report, cost-table, plot, steps, trace-text and from-hex."""

import csv
import io
import json
import pathlib
import subprocess
import tempfile
import unittest

import support
from support import TOP, needs_program, op_text
from test_words import called

from simdram.costs.report import object_of
from simdram.files.from_hex import bytes_in
from simdram.files.program import Program
from simdram.launcher.faults import Fault
from simdram.steps.cell_values import ONE, UNKNOWN, ZERO, complemented, majority, row_value
from simdram.steps.steps_tool import WIDEST, View

SERIAL = TOP / "examples" / "serial" / "serial.ops"
BIG = """op big(alpha_long_name1: word, beta_longer_name: word, sel: bit) -> result_of_it_all: word, carry_out: bit {
  t0 = mul(alpha_long_name1, beta_longer_name);
  serial down (carry_out = 0, s2 = 1) {
    let x = xor(alpha_long_name1, t0);
    let y = xor(x, beta_longer_name);
    let z = xor(y, sel);
    let w = xor(z, carry_out);
    result_of_it_all = xor(w, s2);
    carry_out = maj(x, y, z);
    s2 = xor(maj(w, sel, y), and(x, carry_out));
  }
}
"""


class Folder(unittest.TestCase):
    def setUp(self):
        kept = tempfile.TemporaryDirectory()
        self.addCleanup(kept.cleanup)
        self.folder = pathlib.Path(kept.name)

    def call(self, *words):
        return called(*words, cwd=self.folder)

    def compiled(self, text, name="p"):
        (self.folder / f"{name}.ops").write_text(text)
        subprocess.run([support.program(), "compile", f"{name}.ops", name], cwd=self.folder, check=True, capture_output=True)
        return Program.load(str(self.folder / name))


class Reports(unittest.TestCase):
    TEXT = "1 ok aap=477 ap=8\n2 y: 17 200\n3 refused no_object 2\n4 refused bad_walk 1 index\nvote aap=36 flips=1\n" \
           "total aap=477 ap=8 writes=96 reads=96 refused=2\n"

    def test_each_line(self):
        made = object_of(self.TEXT)
        self.assertEqual(made["instructions"], [
            {"number": 1, "status": "ok", "aap": 477, "ap": 8}, {"number": 2, "status": "printed", "name": "y", "values": [17, 200]},
            {"number": 3, "status": "refused", "word": "no_object", "at": [2]},
            {"number": 4, "status": "refused", "word": "bad_walk", "at": [1, "index"]}])
        self.assertEqual(made["totals"], {"aap": 477, "ap": 8, "writes": 96, "reads": 96, "refused": 2})
        self.assertEqual(made["vote"], {"aap": 36, "flips": 1})

    def test_no_report(self):
        for text in ("script line 1 lex\n", "1 ok aap=1 ap=1\n", ""):
            with self.assertRaises(Fault):
                object_of(text)


@needs_program
class Banks(Folder):
    def test_one_bank_and_one_element(self):
        banks = TOP / "examples" / "banks"
        self.call("init", "2", "128", "1", "i.img")
        report = self.call("run", str(banks / "banks.ops"), "p", str(banks / "banks.bbop"), "i.img", "o.img").stdout
        (self.folder / "r").write_text(report)
        made = json.loads(self.call("report", "--json", "r", "--script", str(banks / "banks.bbop"), "--image", "i.img").stdout)
        cost = self.call("cost", "p", "8").stdout.split()
        one = made["instructions"][8]
        self.assertEqual((one["aap"], one["banks"], f"aap={one['aap_per_bank']}", f"ap={one['ap_per_bank']}"), (130, 2, cost[1], cost[2]))
        self.assertAlmostEqual(one["commands_per_element"], 146 / 70)
        self.assertIn("all banks: aap=502", self.call("report", "r").stdout)
        # two banks of 128 rows are written and read by the simulator, and 8 rows in each of two banks by `print`
        self.assertEqual((made["totals"]["host_writes"], made["totals"]["host_reads"]), (0, 16))
        self.assertIn("reads=272 refused=0 host_writes=0 host_reads=16", self.call("report", "--image", "i.img", "r").stdout)
        self.call("init", "4", "128", "1", "i.img")
        self.assertIn("it is of another image", self.call("report", "--image", "i.img", "r").stderr)
        self.assertIn("--script needs --image", self.call("report", "--script", str(banks / "banks.bbop"), "r").stderr)

    def test_cost_table(self):
        self.compiled("op f(a: word, b: word) -> y: word { y = add(a, b); }\nop g(a: word) -> y: word { y = not(a); }")
        rows = list(csv.DictReader(io.StringIO(self.call("cost-table", "p", "--widths", "8,16", "--banks", "4", "--csv").stdout)))
        self.assertEqual([(row["name"], row["width"], row["commands_per_bank"], row["commands_all_banks"]) for row in rows],
                         [("f", "8", "73", "292"), ("f", "16", "145", "580"), ("g", "8", "16", "64"), ("g", "16", "32", "128")])
        self.assertEqual(self.call("cost-table", "p", "--widths", "129").returncode, 2)


@needs_program
class Plots(Folder):
    def test_a_picture(self):
        self.compiled("op f(a: word, b: word) -> y: word { y = add(a, b); }")
        self.assertEqual(self.call("plot", "p", "p.svg", "--to", "4", "--ceiling", "f=9*n+1").returncode, 0)
        self.assertIn("f: 37 at 4", (self.folder / "p.svg").read_text())

    def test_a_stuck_walk_is_left_out(self):
        stuck = bytes_in(str(TOP / "examples" / "refused" / "stuck.hex"))
        right = self.compiled("op f(a: word) -> y: word { y = not(a); }")
        both = Program([*right.entries, *Program.read(stuck).entries])
        (self.folder / "both").write_bytes(both.file())
        ended = self.call("plot", "both", "p.svg", "--to", "2")
        self.assertEqual(ended.returncode, 0, ended.stderr)
        self.assertIn("index is left out: its execution is stuck, bad_walk 1 index at n = 1", ended.stderr)
        self.assertIn("f: 4 at 2", (self.folder / "p.svg").read_text())
        self.assertEqual(self.call("plot", "none", "p.svg").returncode, 2)


class CellValues(unittest.TestCase):
    def test_majorities(self):
        a, b, c = map(row_value, "abc")
        self.assertEqual(majority([a, complemented(a), b]), b)
        self.assertEqual(majority([a, a, UNKNOWN]), a)
        self.assertEqual(majority([a, b, UNKNOWN]), UNKNOWN)
        self.assertEqual(majority([ZERO, a, b]).text, "and(a, b)")
        self.assertEqual(majority([a, ONE, b]).text, "or(a, b)")
        self.assertEqual(majority([c, b, a]).text, "M(a, b, c)")
        # the same function in another spelling
        self.assertEqual(complemented(majority([a, b, c])).pattern, majority([complemented(x) for x in (a, b, c)]).pattern)


@needs_program
class Steps(Folder):
    def test_a_full_adder_by_name(self):
        entry = self.compiled(SERIAL.read_text()).find("maj_add")
        once, last, each = View(entry, op_text(entry, str(SERIAL))).shown
        self.assertEqual(once.lines[0], "from instruction 0, once: line 25, serial up (c = 0) { .. }")
        self.assertIn("in the loop at 7, in its last round: line 25", last.lines[0])
        self.assertIn("in the loop at 7, in each round but the last, upwards:\n  line 25", "\n".join(each.lines))
        # the carry stands in cells from one position to the next, and goes to its row at the last one
        for one in (last, each):
            self.assertTrue({"old c", "~old c"} & set(one.done[0].cells.values()), one.done[0].cells)
            self.assertTrue({"k", "~k"} & set(one.done[-1].cells.values()), one.done[-1].cells)
            self.assertIn("M(a[i], m, ~k)", [one.done[-1].rows["y[i]"], *(value for _, value in one.said)])
        self.assertEqual(last.done[-1].rows["c"], "k")
        self.assertNotIn("c", each.done[-1].rows)

    def test_states_in_cells_have_names(self):
        entry = self.compiled("op less(a: word, b: word) -> l: bit {\n  serial up (l = 0) { l = maj(not(a), b, l); }\n}\n").find("less")
        for ops, name in ((None, "y"), (str(self.folder / "p.ops"), "l")):
            start, last, each = View(entry, op_text(entry, ops)).shown
            self.assertIn("0", start.done[-1].cells.values())
            for one in (last, each):
                self.assertIn(f"old {name}", {value.lstrip("~").replace("[0]", "") for value in one.done[0].cells.values()})
            self.assertEqual(len(last.done), 3)

    def test_bodies_that_take_turns(self):
        entry = self.compiled("op every(a: word) -> y: bit {\n  y = and_red(a);\n}\n").find("every")
        found = View(entry, op_text(entry, str(self.folder / "p.ops"))).shown
        self.assertEqual([one.part.said.rpartition("in the loop at ")[2] for one in found[2:4]], ["15, turn 1 of 2, upwards", "15, turn 2 of 2, upwards"])
        self.assertFalse([one.part.said for one in (*found[:2], *found[4:]) if "turn" in one.part.said])
        # what a turn finds in a cell is what the one before has left there, and what follows finds what either has left
        for one, held in ((found[2], "M(a[i], old T3, ~old T1)"), (found[3], "M(a[i], old T1, ~old T0)"), (found[4], "and(old T1, old T3)")):
            self.assertEqual([text for _, text in one.said], [held])

    def test_turns_each_with_a_last_round(self):
        turn = "BNEZ r5 on{0}\nAAP a[r3] y[r3]\nBNEZ r4 out\non{0}: AAP a[r3] T{0}\nADDI r3 1\nSUBI r5 1\n"
        (self.folder / "t").write_text("program f(a: word) -> y: word\nSETT r5\nSETI r3 0\nSETI r4 1\ntop: " + turn.format(1)
                                       + turn.format(2) + "BNEZ r4 top\nout: DONE\n")
        self.assertEqual(self.call("assemble", "t", "p").returncode, 0)
        found = View(Program.load(str(self.folder / "p")).find("f"), None).shown
        self.assertEqual([one.part.said for one in found], [f"in the loop at 3, turn {turn} of 2, {which}" for turn in (1, 2)
                                                            for which in ("in its last round", "in each round but the last, upwards")])

    def test_bodies_between_jumps(self):
        entry = self.compiled("op ones(a: word) -> y: word {\n  y = bitcount(a);\n}\n").find("ones")
        found = View(entry, op_text(entry, str(self.folder / "p.ops"))).shown
        # of a level: where it has no pair, an even or an odd number of elements, two parts of a pair, and the end; the lowest level
        # stands for itself, and the others in a loop
        level = [(0, 1), (0, 2), (0, 2), (1, 1), (1, 2), (0, 1)]
        inside = [(1, 2), *((loops + 1, ways) for loops, ways in level[1:])]
        self.assertEqual([(one.part.said.count("in the loop at"), one.part.said.count("if r")) for one in found], level + inside)
        self.assertRegex(found[-3].part.said, r"^in the loop at \d+, if r2 > 0 at \d+, in the loop at (\d+), upwards$")
        # the sum stands in a cell from pair to pair, and goes to its row at the end
        for one in (found[-3], found[-1]):
            self.assertEqual(one.start["DCC0"], "old DCC0")
        self.assertEqual(found[-1].done[-1].rows["y[i]"], "~old DCC0")

    def test_lines_are_short_and_values_have_numbers(self):
        entry = self.compiled(BIG).find("big")
        for ops in (None, str(self.folder / "p.ops")):
            parts = View(entry, op_text(entry, ops)).shown
            self.assertLessEqual(max(len(line) for one in parts for line in one.lines), WIDEST)
            self.assertTrue(parts[-1].said)
        self.assertIn("downwards:\n  line 3", "\n".join(parts[-1].lines))
        self.assertIn("upwards:\n  line 2", "\n".join(parts[0].lines))
        names = {value.lstrip("~") for step in parts[-1].done for value in step.cells.values()}
        self.assertTrue({"x", "y", "z", "w"} & names, names)

    def test_the_page(self):
        self.compiled(BIG)
        ended = self.call("steps", "p", "big", "--ops", "p.ops", "--html", "p.html")
        self.assertEqual(ended.returncode, 0, ended.stderr)
        page = (self.folder / "p.html").read_text()
        self.assertNotIn("NAME</title>", page)
        data = json.loads(page.partition("const parts = ")[2].partition(";\n")[0])
        self.assertGreaterEqual(max(len(part["steps"]) for part in data), 40)

    def test_faults(self):
        self.compiled(BIG)
        for words in (["steps", "p", "none"], ["steps", "none", "big"], ["steps", "p.ops", "big"], ["steps", "p", "big", "--ops", "p"]):
            ended = self.call(*words)
            self.assertEqual((ended.returncode, len(ended.stderr.splitlines())), (2, 1), ended.stderr)


class Texts(Folder):
    def test_from_hex(self):
        (self.folder / "n").write_text("53 44 # two\n4D50\n")
        self.assertEqual(self.call("from-hex", "n", "f").returncode, 0)
        self.assertEqual((self.folder / "f").read_bytes(), b"SDMP")
        (self.folder / "n").write_text("53\n5\n")
        ended = self.call("from-hex", "n", "f")
        self.assertEqual(ended.returncode, 2)
        self.assertIn("n line 2: '5' is not a sequence of bytes", ended.stderr)

    @needs_program
    def test_files_of_another_kind_stay(self):
        self.compiled("op f(a: word) -> y: word { y = not(a); }")
        text = (self.folder / "p.ops").read_text()
        (self.folder / "n").write_text("53 44")
        (self.folder / "p.svg").write_text(text)
        for words in (["from-hex", "n"], ["plot", "p", "--to", "2"], ["steps", "p", "f", "--html"]):
            ended = self.call(*words, "p.svg")
            self.assertEqual((ended.returncode, len(ended.stderr.splitlines())), (2, 1), ended.stderr)
            self.assertIn("p.svg: ", ended.stderr)
            self.assertIn("it holds text; nothing was done", ended.stderr)
            self.assertEqual((self.folder / "p.svg").read_text(), text, words)
            self.assertEqual([self.call(*words, "made.svg").returncode for _ in range(2)], [0, 0], words)
            self.assertEqual(self.call(*words, "made.svg", "--force").returncode, 0)
            (self.folder / "made.svg").unlink()

    @needs_program
    def test_no_program_and_no_report(self):
        self.compiled("op f(a: word) -> y: word { y = not(a); }")
        for words, said in ((["plot", "p.ops", "x.svg"], "p.ops: byte 0 magic: no program file"),
                            (["cost-table", "none"], "none: cannot read"), (["report", "p"], "p: no report: it holds a program file"),
                            (["report", "p.ops"], "line 1 is no line of a report: 'op f"), (["from-hex", "p", "x"], "p line 1: 'SDMP"),
                            (["explain", "p.ops", "p"], "name a program file and a width"),
                            (["explain", "p", "p.ops"], "p.ops is an operation text, which tells nothing about p, a program file")):
            ended = self.call(*words)
            self.assertEqual((ended.returncode, len(ended.stderr.splitlines())), (2, 1), ended.stderr)
            self.assertIn(said, ended.stderr)
        self.assertIn("a width is 1 to 128, and not 900", self.call("plot", "p", "x.svg", "--to", "900").stderr)

    def test_trace_text(self):
        note = TOP / "examples" / "replay" / "and.trace.hex"
        self.call("from-hex", str(note), "t")
        self.assertEqual(self.call("trace-text", "t").stdout.splitlines()[0].split()[:2], ["bank", "0"])
        self.assertEqual(self.call("trace-text", "n").returncode, 2)


if __name__ == "__main__":
    unittest.main()

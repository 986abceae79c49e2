"""The text for microprograms: both layers, faults with their places, and the words assemble, disassemble and link."""

import pathlib
import re
import subprocess
import tempfile
import unittest

import support
from support import TOP, needs_program
from test_profile import every_op
from test_tools import Folder
from test_words import called

from simdram.assembler import Breach, assemble
from simdram.assembler.at_width import one_width, other_width
from simdram.assembler.forms import Form
from simdram.assembler.reading import raw_text, readable_text
from simdram.assembler.walks import Stuck, walk
from simdram.files.from_hex import bytes_in
from simdram.files.program import Program
from simdram.launcher.faults import FileFault

CASE_HEX = re.compile(r"^hex \S+((?: [0-9A-Fa-f ]+)?(?:\n\|[0-9A-Fa-f ]*(?:#.*)?)*)$", re.MULTILINE)
FEWEST = TOP / "examples" / "fewest"
FLOWS = ("mul", "div", "rem", "divmod", "bitcount", "abs", "relu", "and_red", "or_red", "xor_red")
HEAD = "program f(a: word, b: word, s: bit) -> y: word, z: bit\nscratch c: bit, w: word\n"


def example_programs():
    """The program files that examples and cases have as bytes, and those of the text of examples/fewest."""
    found = [assemble((FEWEST / "fewest.micro").read_bytes()).file()]
    found += [bytes_in(str(path)) for path in sorted((TOP / "examples").glob("*/*.hex"))]
    for path in sorted((TOP / "crates" / "transcripts" / "data").glob("*.case")):
        found += [case_bytes(match) for match in CASE_HEX.finditer(path.read_text(encoding="utf-8"))]
    for data in found:
        try:
            yield Program.read(data)
        except FileFault:
            pass


def case_bytes(match):
    """The bytes of a line `hex` of a case and its rows."""
    lines = [line.partition("#")[0].lstrip("| ") for line in match[1].splitlines()]
    return bytes.fromhex("".join(lines))


def lines_of(text):
    """The instructions of one program as a listing has them, from its body."""
    return [str(one) for one in assemble((HEAD + text).encode()).entries[0].code]


def issued(text, n):
    """The row commands of a body at a width."""
    return walk(assemble((HEAD + text).encode()).entries[0], n)


class Raw(unittest.TestCase):
    def test_listings_assemble_to_the_same_bytes(self):
        programs = list(example_programs())
        self.assertGreater(len(programs), 20)
        for program in programs:
            self.assertEqual(assemble(raw_text(program).encode()).file(), program.file())

    @needs_program
    def test_compiled_programs(self):
        with tempfile.TemporaryDirectory() as folder:
            for path in sorted((TOP / "examples").glob("*/*.ops")):
                prog = pathlib.Path(folder) / "prog"
                ended = subprocess.run([support.program(), "compile", str(path), str(prog)], capture_output=True, check=False)
                if ended.returncode:
                    continue
                program = Program.load(str(prog))
                text = raw_text(program)
                self.assertEqual(assemble(text.encode()).file(), prog.read_bytes(), path)
                listed = subprocess.run([support.program(), "list", str(prog)], capture_output=True, text=True, check=True).stdout
                self.assertEqual("".join(line + "\n" for line in text.splitlines() if not line.startswith("program ")), listed)

    def test_numbers_and_labels(self):
        self.assertEqual(lines_of("0 SETN r1\nagain: AAP a[r1] y[0]\n2 BNEZ r1 again\nBNEZ r1 0\nDONE"),
                         ["SETN r1", "AAP s0[r1] y[0]", "BNEZ r1 1", "BNEZ r1 0", "DONE"])

    def test_names_of_rows(self):
        self.assertEqual(lines_of("AAP s0[0] t0; AAP s w0[r2]; AAP ~DCC0 z; AAP {T2, T0, T1} T3+T2; AAP C1 p31; AP B13"),
                         ["AAP s0[0] t0", "AAP s2[0] w0[r2]", "AAP B5 z[0]", "AAP B12 B10", "AAP C1 p31", "AP B13", "DONE"])


class Structured(unittest.TestCase):
    def test_loops(self):
        up = [((3, 0, i), (2, 0, i)) for i in range(5)]
        self.assertEqual(issued("for i in 0..n { AAP a[i] y[i] }", 5), up)
        self.assertEqual(issued("for i in n-1..0 { AAP a[i] y[i] }", 5), up[::-1])
        self.assertEqual(issued("for i in 1..n { AAP a[i - 1] y[n - i] }", 4), [((3, 0, i - 1), (2, 0, 4 - i)) for i in (1, 2, 3)])
        self.assertEqual(issued("for i in 1..n { AAP a[i - 1] y[n - i] }", 1), [])
        self.assertEqual(issued("for i in 3..n-2 { AAP a[i] y[i] }", 2), [])
        self.assertEqual(issued("for i in n-3..1 { AAP a[i] y[i] }", 6), [((3, 0, i), (2, 0, i)) for i in (3, 2, 1)])

    def test_loops_in_loops(self):
        for n in (1, 2, 3, 7):
            self.assertEqual(issued("for o in 0..n { for i in 0..n - o { AAP a[i] y[o + i] } }", n),
                             [((3, 0, i), (2, 0, o + i)) for o in range(n) for i in range(n - o)])
            self.assertEqual(issued("for o in n-1..0 { for i in n-1..o { AAP a[n - 1 - i] w[i] } AAP b[o] T0 }", n),
                             [command for o in range(n - 1, -1, -1) for command in
                              [*[((3, 0, n - 1 - i), (5, 0, i)) for i in range(n - 1, o - 1, -1)], ((3, 1, o), (0, 0, 0))]])

    def test_next_leaves_a_loop(self):
        body = "for i in 0..n { AAP a[i] T0; next; AAP a[i] T1; next; AAP a[i] T2 }"
        for n in range(1, 8):
            self.assertEqual(issued(body, n), [((3, 0, i), (0, i % 3, 0)) for i in range(n)])

    def test_choices(self):
        body = "for i in 0..n { if i == n - 1 { AAP C0 y[i] } else { AAP C1 y[i] } }\nif n != 1 { AP T0 }"
        for n in (1, 2, 5):
            top = [((1, 0, 0), (2, 0, n - 1))] + [((0, 0, 0),)] * (n != 1)
            self.assertEqual(issued(body, n), [((1, 1, 0), (2, 0, i)) for i in range(n - 1)] + top)

    def test_a_choice_by_the_width(self):
        body = "if n == 3 { AP T0 } else { if n != 5 { AP T1 } else { AP T2 } }\nif n == 1 { AP T3 }"
        for n in range(1, 9):
            self.assertEqual(issued(body, n), [((0, 0 if n == 3 else 2 if n == 5 else 1, 0),)] + [((0, 3, 0),)] * (n == 1))
        body = "for i in 0..n { if i == 2 { AP T0 } else { AAP a[i] T1 } }"
        for n in range(1, 6):
            self.assertEqual(issued(body, n), [((0, 0, 0),) if i == 2 else ((3, 0, i), (0, 1, 0)) for i in range(n)])

    def test_loops_with_a_step(self):
        for n in range(1, 10):
            for step in (2, 3):
                self.assertEqual(issued(f"for i in 0..n step {step} {{ AAP a[i] T0 }}", n), [((3, 0, i), (0, 0, 0)) for i in range(0, n, step)])
                self.assertEqual(issued(f"for i in n-1..0 step {step} {{ AAP a[i] T0; AAP b[n - 1 - i] T1 }}", n),
                                 [command for i in range(n - 1, -1, -step)
                                  for command in (((3, 0, i), (0, 0, 0)), ((3, 1, n - 1 - i), (0, 1, 0)))])
                self.assertEqual(issued(f"for i in 0..n step {step} {{ AP T0; next; AAP a[i] T1 }}", n),
                                 [command for k, i in enumerate(range(0, n, step)) for command in ([((0, 0, 0),)] if k % 2 == 0 else
                                                                                                    [((3, 0, i), (0, 1, 0))])])
        self.assertEqual(issued("for i in 1..n step 2 { for j in i..n step 3 { AAP a[j] y[i] } }", 9),
                         [((3, 0, j), (2, 0, i)) for i in range(1, 9, 2) for j in range(i, 9, 3)])

    def test_straight_code_may_name_any_number_of_rows(self):
        body = "".join(f"AAP a[{k}] T0; AAP b[n - {k + 1}] T1; AAP T0 y[{k}]\n" for k in range(12))
        expected = [command for k in range(12) for command in (((3, 0, k), (0, 0, 0)), ((3, 1, 11 - k), (0, 1, 0)), ((0, 0, 0), (2, 0, k)))]
        self.assertEqual(issued(body, 12), expected)
        self.assertEqual(issued(f"if n == 12 {{ {body} }} else {{ for i in 0..n {{ AAP a[i] y[i] }} }}", 12), expected)
        self.assertEqual(issued(f"for i in 0..2 {{ {body} }}", 12), expected * 2)

    def test_one_width(self):
        body = "width 4\nAAP a[n - 1] T0\nAAP a[0] y[3]\nfor i in 0..n { AAP b[i] y[i] }\n"
        entry = assemble((HEAD + body).encode()).entries[0]
        self.assertEqual((one_width(entry), other_width(entry, 4), other_width(entry, 5)), (4, "", "f is a program for the width 4 alone"))
        self.assertEqual(walk(entry, 4), [((3, 0, 3), (0, 0, 0)), ((3, 0, 0), (2, 0, 3)), *(((3, 1, i), (2, 0, i)) for i in range(4))])
        for n in (1, 2, 3, 5, 8, 127, 128):
            with self.assertRaises(Stuck):
                walk(entry, n)
        text = readable_text(Program([entry]))
        self.assertIn("\nwidth 4\n  AAP a[3] T0\n", text)
        self.assertEqual(walk(assemble(text.encode()).entries[0], 4), walk(entry, 4))
        self.assertEqual(assemble(raw_text(Program([entry])).encode()).file(), Program([entry]).file())
        jumps = assemble((HEAD + "width 2\nSETI r0 2\nl: AAP a[0] T0\nSUBI r0 1\nBNEZ r0 l\nAP T0; SETI r5 1; BNEZ r5 past; AP T1; past: DONE\n")
                         .encode()).entries[0]
        text = readable_text(Program([jumps]))
        self.assertIn("width 2\n", text)
        again = assemble(text.encode()).entries[0]
        self.assertEqual((one_width(again), walk(again, 2)), (2, walk(jumps, 2)))
        self.assertIsNone(one_width(assemble((HEAD + "SETN r0\nSUBI r0 4\nBNEZ r0 l\nAP T0\nl: SUBI r0 1\nDONE\n").encode()).entries[0]))

    def test_a_jump_of_its_own(self):
        self.assertEqual(lines_of("JMP past\nAP T0\npast: DONE"), ["SETI r0 1", "BNEZ r0 3", "AP B0", "DONE"])

    def test_registers_that_the_text_names_are_not_given_out(self):
        self.assertEqual(lines_of("SETN r0\nfor i in 0..n { AAP a[i] y[r0] }")[1:3], ["SETN r1", "SETI r2 0"])


class Faults(unittest.TestCase):
    def fault(self, body, head=HEAD):
        with self.assertRaises(Breach) as raised:
            assemble((head + body).encode())
        data = (head + body).encode()
        answer = raised.exception.answer("f", data)
        return answer.place, answer.kind, " ".join([answer.rule, *answer.right])

    def test_places(self):
        for body, place, kind, said in (
                ("AAP T2+T3 y[0]", "line 3 column 5", "row", "cannot be activated first"),
                ("  AAP T0 C1", "line 3 column 10", "row", "cannot be written"),
                ("AAP T0 b[0]", "line 3 column 8", "row", "b is a source"),
                ("AAP T0 T1+T2", "line 3 column 8", "row", "the pairs are"),
                ("AP {T0, T1, T3}", "line 3 column 4", "row", "the triples are"),
                ("AP ~T0", "line 3 column 5", "row", "no n-wordline"),
                ("AP y", "line 3 column 4", "row", "`y[i]`"),
                ("AP s[1]", "line 3 column 6", "row", "s is a bit"),
                ("AP q", "line 3 column 4", "name", "there is no row `q`"),
                ("AP a[j]", "line 3 column 6", "name", "here there are n"),
                ("BNEZ r0 9\nDONE", "line 3 column 9", "target", "0 to 1"),
                ("JMP far", "line 3 column 5", "target", "no label far"),
                ("SETN r8", "line 3 column 6", "register", "r0 to r7"),
                ("SETI r0 1024", "line 3 column 9", "number", "at most 1023"),
                ("1 AP T0", "line 3 column 1", "number", "this is instruction 0"),
                ("for i in 0..n {\n AP T0", "line 3 column 15", "syntax", "has no `}`"),
                ("for i in 2..2 { AP T0 }", "line 3 column 1", "loop", "no iteration"),
                ("next", "line 3 column 1", "loop", "no loop"),
                ("AP T0 T1", "line 3 column 7", "syntax", "ends with its line"),
                ("FOO r1", "line 3 column 1", "syntax", "the instructions are"),
                ("x: AP T0\nx: AP T1", "line 4 column 1", "twice", "its own name"),
                ("AP T0 @", "line 3 column 7", "lex", "no token begins"),
                ("program f(a: word) -> y: word", "line 3 column 9", "twice", "f already")):
            found = self.fault(body)
            self.assertEqual(found[:2], (place, kind), body)
            self.assertIn(said, found[2])

    def test_heads(self):
        for head, place, said in (
                ("program f(y: word) -> q: word\n", "line 1 column 11", "another row in listings"),
                ("program f(a: word, b: word, c: word, d: word, e: word) -> y: word\n", "line 1 column 47", "1 to 4"),
                ("program f(T0: word) -> y: word\n", "line 1 column 11", "take another name"),
                ("program f(a: nibble) -> y: word\n", "line 1 column 14", "`word` or `bit`"),
                ("program f(a: word) -> y: word\nentry f sources=2\n", "line 2 column 17", "`sources=1`"),
                ("program f(a: word) -> y: word\nentry f code=7\n", "line 2 column 14", "`code=1`"),
                ("version 1\nprogram f(a: word) -> y: word, z: word\n", "line 2 column 1", "leave out"),
                ("AP T0\n", "line 1 column 1", "program xor")):
            found = self.fault("", head)
            self.assertEqual(found[0], place, head)
            self.assertIn(said, found[2])

    def test_a_register_too_many(self):
        place, kind, said = self.fault("for i in 0..n { AAP a[i] y[i + 1]; AAP a[i + 2] y[i + 3]; AAP a[i + 4] y[i + 5]; "
                                       "AAP a[i + 6] y[i + 7] }")
        self.assertEqual((place, kind), ("line 3 column 1", "register"))
        self.assertIn("r0 counts the loop over i", said)


class Reading(unittest.TestCase):
    def test_loops_are_found_again(self):
        body = "for o in 1..n { for i in 0..n - o { AAP a[i] y[o + i] } }\nfor i in n-1..0 { AAP b[i] w[n - 1 - i] }"
        entry = assemble((HEAD + body).encode()).entries[0]
        text = readable_text(Program([entry]))
        for line in ("for i in 0..n - 1 {", "for j in 0..n - i - 1 {", "AAP a[j] y[i + j + 1]", "for i in n - 1..0 {",
                     "AAP b[i] w0[n - i - 1]"):
            self.assertIn(line, text)
        self.assertNotIn("BNEZ", text)

    def test_the_texts_of_examples_fewest_are_the_same_commands(self):
        program = assemble((FEWEST / "fewest.micro").read_bytes())
        again = assemble(readable_text(program).encode())
        for one, other in zip(program.entries, again.entries):
            for n in (1, 2, 3, 9):
                self.assertEqual(walk(one, n), walk(other, n), (one.name, n))

    def test_the_page(self):
        page = (TOP / "docs" / "MICROPROGRAMS.md").read_text(encoding="utf-8")
        texts = re.findall(r"```\n(program .*?)```", page, re.DOTALL)
        first, second = (assemble(text.encode()).entries[0] for text in texts)
        self.assertEqual([len(walk(first, n)) for n in (1, 8)], [10, 73])
        self.assertEqual([len(walk(second, n)) for n in (1, 8)], [8, 57])


@needs_program
class Compiled(Folder):
    def test_there_and_back(self):
        """The compiler's programs as text: in loops, or with labels where they are flows."""
        (self.folder / "all.ops").write_text(every_op())
        self.assertEqual(self.call("compile", "all.ops", "p").returncode, 0)
        program, data = Program.load(str(self.folder / "p")), (self.folder / "p").read_bytes()
        self.assertEqual(assemble(raw_text(program).encode()).file(), data)
        again = assemble(readable_text(program).encode())
        for one, other in zip(program.entries, again.entries):
            has_labels = "BNEZ" in readable_text(Program([one]))
            self.assertEqual(has_labels, one.name in {f"o_{name}" for name in FLOWS}, one.name)
            self.assertEqual(one.code == other.code, has_labels, one.name)
            for n in (1, 2, 3, 4, 9, 20):
                self.assertEqual(walk(one, n), walk(other, n), (one.name, n))


class Forms(unittest.TestCase):
    def test_as_text(self):
        n, i = Form.of("n"), Form.of("i")
        self.assertEqual([str(one) for one in (n - i - 1, i.plus(n, 2), Form(3), Form() - i + 1)],
                         ["n - i - 1", "2 * n + i", "3", "-i + 1"])


class Words(unittest.TestCase):
    def setUp(self):
        kept = tempfile.TemporaryDirectory()
        self.addCleanup(kept.cleanup)
        self.folder = pathlib.Path(kept.name)
        (self.folder / "t").write_text("program f(a: word) -> y: word\nfor i in 0..n { AAP a[i] y[i] }\n")

    def call(self, *words):
        return called(*words, cwd=self.folder)

    def test_there_and_back(self):
        self.assertEqual(self.call("assemble", "t", "p").stdout, "assembled 1\n")
        for more in ([], ["--raw"]):
            (self.folder / "again").write_text(self.call("disassemble", *more, "p").stdout)
            self.assertEqual(self.call("assemble", "again", "q").returncode, 0)
            self.assertEqual((self.folder / "p").read_bytes(), (self.folder / "q").read_bytes())
        self.assertIn("for i in 0..n {", self.call("disassemble", "p").stdout)

    def test_a_fault_writes_nothing(self):
        (self.folder / "t").write_text("program f(a: word) -> y: word\n  AP T4\n")
        ended = self.call("assemble", "t", "p")
        self.assertEqual((ended.returncode, ended.stdout, (self.folder / "p").exists()), (2, "", False))
        self.assertEqual(ended.stderr.splitlines()[0], "t line 2 column 6: name")
        ended = self.call("explain", "t")
        self.assertEqual((ended.returncode, ended.stdout.splitlines()[0]), (1, "t line 2 column 6: name"))
        self.assertEqual(self.call("assemble", "t", "t").returncode, 2)
        self.assertEqual(self.call("disassemble", "t").returncode, 2)

    def test_link(self):
        self.call("assemble", "t", "p")
        (self.folder / "u").write_text("program g(a: bit) -> y: bit\nAAP a y\n")
        self.call("assemble", "u", "q")
        self.assertEqual(self.call("link", "p", "q", "both").stdout, "linked 2\n")
        self.assertEqual([one.name for one in Program.load(str(self.folder / "both")).entries], ["f", "g"])
        ended = self.call("link", "p", "both", "again")
        self.assertEqual(ended.returncode, 2)
        self.assertIn("both has an entry f, and so has p", ended.stderr)
        self.assertEqual(self.call("link", "p", "q", "t").returncode, 2)


if __name__ == "__main__":
    unittest.main()

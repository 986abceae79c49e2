"""What the verdicts of `verify` mean, as `explain` says it."""

import pathlib
import re
import shlex
import tempfile
import unittest

from support import needs_program
from test_words import called

from simdram.assembler import assemble
from simdram.rules.ops_rules import shapes_of
from simdram.rules.verdict_answers import answers_on, positions
from simdram.rules.verdicts import verdicts_of

OPS = b"""op f(x: word, s: bit) -> q: word, r: bit { q = copy(x); r = copy(s); }
op g(x: word) -> y: word { y = not(x); }
op h(x: bit, w: word) -> y: word { y = copy(w); }
op gg(x: word) -> y: word { y = copy(x); }
"""
MICRO = b"""program f(x: word, s: bit) -> q: word, r: bit
  for i in 0..n { AAP x[i] q[i] }
  AAP s r
program h(a: word, b: word) -> y: word
  AAP a[0] y[0]
program gg(a: word) -> y: word
  SETI r0 1023
  ADDI r0 1
"""
# r is s or what T3 held at the start: right from zeros alone
WORN = b"""program f(x: word, s: bit) -> q: word, r: bit
  for i in 0..n { AAP x[i] q[i] }
  AAP s T1; AAP C1 T2; AP {T1, T2, T3}; AAP T1 r
"""
# right, by way of the or of the ands of 24 pairs of scratch bits, in an order in which its diagram doubles with each pair
SCATTERED = """program f(x: word, s: bit) -> q: word, r: bit
scratch a: word, b: word, c: word, d: word, e: word, g: word
  AAP C0 T0
  for i in 0..n {
""" + "".join(f"    AAP {one}[i] T1; AAP {other}[i] T2; AAP C0 T3; AP {{T1, T2, T3}}; AAP C1 T1; AP {{T0, T1, T2}}\n"
              for one, other in ("ad", "be", "cg")) + "    AAP x[i] q[i]\n  }\n  AAP s T1; AAP s T2; AP {T0, T1, T2}; AAP T0 r\n"


WITH_G = b"program g(x: word) -> y: word\n  for i in 0..n { AAP T0 y[i] }\n"


def said(lines, n=8, micro=MICRO):
    """What is said of lines of `verify`, each in one line."""
    found = answers_on(verdicts_of(lines), shapes_of("f.ops", OPS), assemble(micro), "f.prog", n)
    return [" ".join(" ".join(answer.lines()).split()) for answer in found]


class Meanings(unittest.TestCase):
    def one(self, line, *parts, n=8, micro=MICRO):
        found, = said(line, n, micro)
        for part in parts:
            self.assertIn(part, found)

    def test_right(self):
        self.assertEqual(said("f right aap=9 ap=0"), [])

    def test_wrong(self):
        self.one("f wrong x=5 s=1 gives 4 1 not 5 1", "f.prog entry f: wrong", "for x=5, s=1 at width 8 it gives q=4 and r=1",
                 "the op means q=5 and r=1: bit 0 of q is wrong", "steps f.prog f --with a=5,b=1 --width 8 --from zeros`")
        self.one("f wrong x=5 s=1 gives 252 0 not 5 1", "bits 0, 3 to 7 of q and r are wrong, where every cell and row but the sources holds 0")
        self.one("f wrong x=128 s=0 gives 0 0 not 128 0", "the top bit of q, 7, is wrong")
        self.one("f wrong x=128 s=0 gives 0 1 not 128 0", "the top bit of q, 7, and r are wrong")
        self.one("f wrong x=1 s=0 gives 0 0 not 1 0", "bit 0 of q is wrong", n=1)
        self.one("g wrong x=3 gives 3 not 252", "it gives 3, and the op means 252: bits 0 to 7 of y are wrong", micro=WITH_G)

    def test_from_a_start(self):
        self.one("f wrong x=0 s=0 gives 0 1 not 0 0 from T3", "r is wrong, where T3 holds 1 at the start and the others 0",
                 "where it holds 0 the result is right, so it depends on what T3 held before the first command: set it before it is read",
                 "steps f.prog f --with a=0,b=0 --width 8 --from T3`", micro=WORN)
        self.one("g wrong x=255 gives 1 not 0 from T0 DCC1 p4", "where T0, DCC1 and p4 hold 1 at the start", "where they hold 0 the result",
                 "set each of them", "--from T0,DCC1,p4`", micro=WITH_G)
        self.one("g wrong x=0 gives 1 not 255 from T0", "the same numbers fail where all cells and rows hold 0 too: they give 0 there", micro=WITH_G)
        self.assertNotIn("depends", said("g wrong x=0 gives 1 not 255 from T0", micro=WITH_G)[0])

    def test_others(self):
        self.one("gg bad_walk 1 register", "f.prog entry gg: bad_walk 1 register", "instruction 1, `ADDI r0 1`, takes a register past 1023 or below 0")
        self.one("g no_entry", "f.prog entry g: no_entry", "the entries are f, h, gg; did you mean gg?", "simdram link")
        self.one("h other_kinds", "whose head is `program h(a: word, b: word) -> y: word`", "the op asks for `program h(x: bit, w: word) -> y: word`")
        self.one("f unknown nodes", "4,000,000 nodes", "at width 8 it is not known", "smaller widths")
        self.one("f unknown depth", "more rows than the comparison has places", "smaller widths")

    def test_each_entry_in_order(self):
        found = said("f wrong x=1 s=0 gives 0 0 not 1 0\ng no_entry\nh other_kinds\nverified 0 of 3 at 8")
        self.assertEqual([text.split(":")[0] for text in found], ["f.prog entry f", "f.prog entry g", "f.prog entry h"])

    def test_positions(self):
        self.assertEqual([positions(bits) for bits in (1, 6, 0b1011, 0b11101110)], ["0", "1 to 2", "0 to 1, 3", "1 to 3, 5 to 7"])


@needs_program
class Calls(unittest.TestCase):
    def setUp(self):
        kept = tempfile.TemporaryDirectory()
        self.addCleanup(kept.cleanup)
        self.folder = pathlib.Path(kept.name)
        (self.folder / "f.ops").write_bytes(OPS.splitlines(True)[0])
        for name, code in (("f.prog", MICRO), ("worn.prog", WORN)):
            (self.folder / name).write_bytes(assemble(code).file())

    def test_explain(self):
        ended = called("explain", "f.ops", "f.prog", "8", cwd=self.folder)
        self.assertEqual((ended.returncode, ended.stdout), (0, "f.ops: no fault\n"))
        ended = called("explain", "f.ops", "worn.prog", "8", cwd=self.folder)
        self.assertEqual((ended.returncode, ended.stdout.splitlines()[0]), (1, "worn.prog entry f: wrong"))
        self.assertIn("T3 holds 1 at the start", " ".join(ended.stdout.split()))

    def test_what_is_proposed_can_be_called(self):
        """Each command that an answer names ends without a fault, and a case of it gives what the verdict says."""
        (self.folder / "two words.prog").write_bytes(assemble(WORN).file())
        (self.folder / "g.ops").write_text("op g(x: word) -> y: word { y = not(x); }\nop h(x: bit, w: word) -> y: word { y = copy(w); }\n"
                                           "op gg(x: word) -> y: word { y = copy(x); }\n")
        (self.folder / "g.prog").write_bytes(assemble(WITH_G + MICRO).file())
        proposed = set()
        for words in (["f.ops", "two words.prog", "4"], ["g.ops", "g.prog", "4"]):
            said = " ".join(called("explain", *words, cwd=self.folder).stdout.split())
            proposed.update(re.findall(r"`simdram ((?:steps|list) [^`]*)`", said))
        self.assertEqual(sorted(one.split()[0] for one in proposed), ["list", "steps", "steps"])
        for one in proposed:
            ended = called(*shlex.split(one), cwd=self.folder)
            self.assertEqual((ended.returncode, ended.stderr), (0, ""), one)
            if one.startswith("steps") and "words" in one:
                self.assertEqual(ended.stdout.splitlines()[0], "a = 0, b = 0 at the width 4 from T3: y = 0, z = 1")

    def test_lines_of_the_text(self):
        """A place in a program file is told with its line of the text, where that lies beside it; an image for `exec` too."""
        text = "# a fault\nprogram f(x: word, s: bit) -> q: word, r: bit\n  AAP s r\n  SETN r0\n  AAP x[r0] q[0]\n"
        (self.folder / "long.prog").write_bytes(assemble(text.encode()).file())
        said = " ".join(called("explain", "f.ops", "long.prog", "8", cwd=self.folder).stdout.split())
        self.assertIn("instruction 2, `AAP s0[r0] y[0]`, names a row past the operand's width", said)
        for name in ("other.micro", "long.micro"):
            (self.folder / name).write_text("program other(x: word) -> y: word\n AP T0\n" if name == "other.micro" else text)
        said = " ".join(called("explain", "f.ops", "long.prog", "8", cwd=self.folder).stdout.split())
        self.assertIn("instruction 2, `AAP s0[r0] y[0]`, long.micro line 5, names a row", said)
        self.assertIn("from instruction 0 (long.micro line 3), once", called("steps", "long.prog", "f", cwd=self.folder).stdout)
        self.assertEqual(called("image", "make", "a.img", "1x64x1", "x:8=1", "s:1=1", "q:8/1", "r:1/1", cwd=self.folder).returncode, 0)
        (self.folder / "a.bbop").write_text("bbop_f q, r, x, s, 1, 8\n")
        ended = called("exec", "long.prog", "a.bbop", "a.img", "out.img", cwd=self.folder)
        self.assertIn("stuck at the width 8, at instruction 2, long.micro line 5", " ".join(ended.stderr.split()))
        (self.folder / "long.micro").write_text(text.replace("SETN", "SETT"))
        self.assertNotIn("long.micro", called("explain", "f.ops", "long.prog", "8", cwd=self.folder).stdout)

    def test_a_program_for_one_width(self):
        (self.folder / "one.micro").write_text("program f(x: word, s: bit) -> q: word, r: bit\nwidth 2\nAAP s r; AAP x[0] q[0]; AAP x[1] q[1]\n")
        self.assertEqual(called("assemble", "one.micro", "one.prog", cwd=self.folder).returncode, 0)
        self.assertEqual(called("verify", "f.ops", "one.prog", "2", cwd=self.folder).stdout, "f right aap=3 ap=0\nverified 1 of 1 at 2\n")
        reason = "f is a program for the width 2 alone"
        for n in ("1", "3"):
            ended = called("verify", "f.ops", "one.prog", n, cwd=self.folder)
            self.assertEqual(ended.returncode, 19)
            self.assertIn(reason, ended.stderr)
            self.assertIn(reason, " ".join(called("explain", "f.ops", "one.prog", n, cwd=self.folder).stdout.split()))
        self.assertIn("at the width 2: y = 3, z = 1", called("steps", "one.prog", "f", "--with", "a=3,b=1", cwd=self.folder).stdout)
        ended = called("steps", "one.prog", "f", "--with", "a=3,b=1", "--width", "4", cwd=self.folder)
        self.assertEqual((ended.returncode, reason in ended.stderr), (2, True))
        self.assertEqual(called("image", "make", "a.img", "1x64x1", "x:8=1", "s:1=1", "q:8/1", "r:1/1", cwd=self.folder).returncode, 0)
        (self.folder / "a.bbop").write_text("bbop_f q, r, x, s, 1, 8\n")
        ended = called("exec", "one.prog", "a.bbop", "a.img", "out.img", cwd=self.folder)
        self.assertEqual((ended.returncode, f"{reason}, and N is 8" in " ".join(ended.stderr.split())), (8, True))

    def test_what_is_missing(self):
        for words in (["f.ops", "f.prog"], ["f.ops", "8"], ["f.ops", "f.prog", "129"], ["f.prog", "8"]):
            ended = called("explain", *words, cwd=self.folder)
            self.assertEqual((ended.returncode, ended.stdout), (2, ""), words)
            self.assertIn("1 to 128" if words != ["f.prog", "8"] else "f.prog", ended.stderr)

    def test_after_a_status(self):
        ended = called("verify", "f.ops", "worn.prog", "2", cwd=self.folder)
        self.assertEqual((ended.returncode, ended.stdout), (19, "f wrong x=0 s=0 gives 0 1 not 0 0 from T3\nverified 0 of 1 at 2\n"))
        self.assertIn("simdram explain f.ops worn.prog 2 says what", ended.stderr)
        self.assertEqual(called("verify", "f.ops", "f.prog", "2", cwd=self.folder).stderr, "")

    def test_unknown(self):
        """A diagram that would have 2^24 nodes is given up."""
        (self.folder / "scattered.prog").write_bytes(assemble(SCATTERED.encode()).file())
        ended = called("verify", "f.ops", "scattered.prog", "8", cwd=self.folder)
        self.assertEqual((ended.returncode, ended.stdout), (20, "f unknown nodes\nverified 0 of 1 at 8\n"))
        self.assertIn("simdram explain f.ops scattered.prog 8 says what", ended.stderr)
        ended = called("verify", "f.ops", "scattered.prog", "1", cwd=self.folder)
        self.assertEqual(ended.stdout.splitlines()[1], "verified 1 of 1 at 1")

    def test_wrong_where_a_diagram_is_given_up(self):
        """A result that such a function may change is found wrong from ones in a few of the cells."""
        text = SCATTERED.replace("AAP s T2", "AAP C1 T2")
        (self.folder / "scattered.prog").write_bytes(assemble(text.encode()).file())
        ended = called("verify", "f.ops", "scattered.prog", "8", cwd=self.folder)
        self.assertEqual(ended.returncode, 19)
        self.assertRegex(ended.stdout, r"^f wrong x=0 s=0 gives 0 1 not 0 0 from w(\d)\[(\d)\] w(\d)\[\2\]\nverified 0 of 1 at 8\n$")


if __name__ == "__main__":
    unittest.main()

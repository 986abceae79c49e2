"""Faults with their places: each kind of text and file, and beside the program on drawn ones."""

import pathlib
import random
import subprocess
import sys
import tempfile
import unittest

import support
from support import TOP, needs_program
from test_words import called

from simdram.files.from_hex import bytes_in
from simdram.files.image import Image, Object
from simdram.files.program import Program
from simdram.files.image import HEAD_MAX, Table
from simdram.rules import word_ops
from simdram.rules.answers import first_fault, no_triples, query_refusals, script_refusals
from simdram.rules.answer import first_breach
from simdram.rules.script_rules import check_flips, read_script
from simdram.rules.ops_rules import read_ops
from simdram.rules.query_rules import read_query

HEAD = "op f(a: word, b: word, s: bit) -> y: word {\n"
# a text, the kind, the line and column, the token, and words of what would be right
OPS = (
    (HEAD + "  y = ad(a, b);\n}", "unknown", "line 2 column 7", "ad", "did you mean add"),
    (HEAD + "  y = add(mul(a, b), b);\n}", "unknown", "line 2 column 11", "mul", "do not nest in word statements"),
    (HEAD + "  y = a + b;\n}", "unknown", "line 2 column 7", "a", "y = add(a, ..)"),
    (HEAD + "  y = add(a, 1);\n}", "syntax", "line 2 column 14", "1", "arguments are names"),
    (HEAD + "  y = add(a, s);\n}", "kind", "line 2 column 14", "s", "add takes a word, a word and gives a word"),
    (HEAD + "  y = add(a);\n}", "kind", "line 2 column 12", ")", "too few arguments"),
    (HEAD + "  y = add(a, b)\n}", "syntax", "line 3 column 1", "}", "allowed here: `;`"),
    (HEAD + "  a = add(a, b);\n}", "twice", "line 2 column 3", "a", "defined names: a, b, s, y"),
    (HEAD + "  t = add(a, b);\n}", "no_result", "line 3 column 1", "}", "assign it before"),
    (HEAD + "  serial up () { y = xr(a, b); }\n}", "unknown", "line 2 column 22", "xr", "did you mean xor"),
    (HEAD + "  y = add(a, @);\n}", "lex", "line 2 column 14", "@", "no token begins with"),
    ("op serial(a: word)", "bad_name", "line 1 column 4", "serial", "a reserved word"),
    ("op f(a: word, b: word, c: word, d: word, e: word)", "too_many", "line 1 column 42", "e", "at most 4 parameters"),
)
SCRIPTS = (
    ("add y, a, b, 4, 8", "syntax", "line 1 column 1", "add", "bbop_add Y, A, B, COUNT, N"),
    ("bbop_add y, a b, 4, 8", "syntax", "line 1 column 15", "b", "a comma"),
    ("print a\nprint", "syntax", "line 2 column 6", "", "form: print OPERAND; OPERAND is NAME"),
    ("load a, -1", "lex", "line 1 column 9", "-", "at least 0"),
    ("bbop_trsp_init a, 0, 8", "bad_number", "line 1 column 19", "0", "is 1 to 4294967295"),
    ("bbop_add y, a, b, 4, 129", "bad_number", "line 1 column 22", "129", "is 1 to 128"),
    ("print " + "n" * 17, "bad_name", "line 1 column 7", "n" * 17, "at most 16 bytes"),
    ("order sead 3", "syntax", "line 1 column 7", "sead", "order seed K"),
    ("print a[]", "syntax", "line 1 column 9", "]", "the number of a bit"),
    ("print a[1:]", "syntax", "line 1 column 11", "]", "NAME[LO:HI] for LO up to, not with, HI"),
    ("print a[1", "syntax", "line 1 column 10", "", "the end where `]` is expected"),
    ("print a[1 2]", "syntax", "line 1 column 11", "2", "`]` is expected"),
    ("print a[1[2]", "syntax", "line 1 column 10", "[", "`]` is expected"),
    ("print a:1", "syntax", "line 1 column 8", ":", "a comma or the end"),
    ("print a[b]", "syntax", "line 1 column 9", "b", "the number of a bit"),
    ("free a[1]", "syntax", "line 1 column 8", "1", "its name alone"),
    ("bbop_trsp_init a[0:4], 4, 4", "syntax", "line 1 column 18", "0", "its name alone"),
    ("print a[128]", "bad_number", "line 1 column 9", "128", "a bit is 0 to 127"),
    ("fill a[128:300], 1", "bad_number", "line 1 column 8", "128", "a bit is 0 to 127"),
    ("fill a[0:129], 1", "bad_number", "line 1 column 10", "129", "at most 128"),
    ("bbop_add y[4:8], a[4:4], b, 4, 4", "bad_number", "line 1 column 22", "4", "LO is below HI"),
)
QUERIES = (
    ("a >= 10", "syntax", "line 1 column 1", "a", "`a >= V` is `ge(a, V)`"),
    ("and(ge(a, 10))", "syntax", "line 1 column 14", ")", "allowed here: `,`"),
    ("ge(10, a)", "syntax", "line 1 column 4", "10", "the name comes first"),
    ("ne(a, 1)", "syntax", "line 1 column 1", "ne", "eq, gt, ge, lt, le"),
    ("eq(a, b)", "syntax", "line 1 column 7", "b", "with a number"),
    ("eq(a[8:4], 1)", "bad_number", "line 1 column 8", "4", "LO is below HI"),
    ("eq(a[128(", "bad_number", "line 1 column 6", "128", "0 to 127"),
    ("eq(a[0:129], 1)", "bad_number", "line 1 column 8", "129", "at most 128"),
    ("eq(a[b], 1)", "syntax", "line 1 column 6", "b", "NAME[LO:HI]"),
    ("eq(a[4, 1)", "syntax", "line 1 column 7", ",", "allowed here: `]`"),
    ("eq(a, 1) eq(b, 2)", "syntax", "line 1 column 10", "eq", "combine two with"),
    ("not(eq(a, 1)", "syntax", "line 1 column 13", "", "the end of the text"),
)


class Texts(unittest.TestCase):
    """Wrong texts of each kind get a line that names the token, and what would be right."""

    def check_all(self, read, cases):
        for text, kind, place, token, right in cases:
            answer = first_breach("file", text.encode(), read)
            self.assertIsNotNone(answer, text)
            self.assertEqual((answer.kind, answer.place), (kind, place), text)
            column, length = answer.caret
            self.assertEqual(answer.shown[column:column + length], token, text)
            lines = answer.lines()
            self.assertIn(right, " ".join(" ".join(lines).split()), text)
            self.assertLessEqual(max(map(len, lines)), 110, text)

    def test_ops(self):
        self.check_all(read_ops, OPS)

    def test_scripts(self):
        self.check_all(read_script, SCRIPTS)

    def test_queries(self):
        self.check_all(read_query, QUERIES)

    def test_flips(self):
        table = Table(1, 64, 1, [])
        cases = (("1 0 0", "syntax", "four numbers"), ("1 0 0 64", "number", "COLUMN is 0 to 63"), ("9 0 0 0", "number", "1 to 4"),
                 ("2 0 0 0\n1 0 0 0", "number", "the K of the line before"), ("1 0 0 0 0", "syntax", "four numbers"), ("1, 0", "syntax", "without commas"),
                 ("1 1 0 0", "number", "BANK is 0 to 0"), ("@", "lex", "no token"))
        for text, kind, right in cases:
            answer = first_breach("file", text.encode(), check_flips, 3, table)
            self.assertEqual(answer.kind, kind, text)
            self.assertIn(right, " ".join(answer.lines()), text)
        self.assertIsNone(first_breach("file", b"1 0 0 0\n# none\n4 0 63 63", check_flips, 3, table))

    def test_right_texts(self):
        for path in (TOP / "examples").rglob("*.ops"):
            if path.name not in ("faulty.ops", "nested.ops"):
                self.assertIsNone(first_breach(path.name, path.read_bytes(), read_ops), path)
        for path in (TOP / "examples").rglob("*.bbop"):
            self.assertIsNone(first_breach(path.name, path.read_bytes(), read_script), path)

    def test_files(self):
        image = (TOP / "examples" / "and" / "and.img").read_bytes()
        cases = ((image[:9], "short", "byte 9"), (b"SDMX" + image[4:], "magic", "byte 0"), (image + b"0", "rest", f"byte {len(image)}"),
                 (image[:8] + b"\x01" + image[9:], "geometry", "byte 8"), (image[:39] + b"1" + image[40:], "object", "byte 39"))
        for data, kind, place in cases:
            answer = first_fault("image", "file", data)
            self.assertEqual((answer.kind, answer.place), (kind, place))
        answer = first_fault("script", "file", image)
        self.assertIn("a script is read here, and the file holds an image", answer.rule)

    def test_what_would_be_right(self):
        image = (TOP / "examples" / "and" / "and.img").read_bytes()
        program = bytes_in(str(TOP / "examples" / "exec" / "xor.hex"))
        trace = bytes_in(str(TOP / "examples" / "replay" / "and.trace.hex"))
        event = 14 + 24 * trace[12] + 4
        for kind, data, word, said in (
            ("image", b"", "short", "the file is empty"), ("image", image[:100], "short", "the file has 100 bytes"),
            ("image", image[:4] + bytes([2]) + image[5:], "version", "the version is 2, and has to be 1"),
            ("image", image + b"0", "rest", "1 byte follows the last field"), ("image", b"op f", "magic", "the file holds text"),
            ("image", image[:14 + 42] + image[14 + 18:14 + 20] + image[14 + 44:], "overlap", "each object has its own adjacent rows"),
            ("program", program[:4] + bytes([7]) + program[5:], "version", "may be 1 to 2"),
            ("program", program[:35] + bytes([15]) + program[36:], "instruction", "kinds of instructions are 0 to 10"),
            ("program", program[:8] + bytes([17]) + program[9:], "directory", "may be 1 to 16"),
            ("program", program[:-8] + program[-16:-8], "no_done", "an entry ends with DONE"),
            ("program", program + b"00", "rest", "2 bytes follow"), ("program", b"", "short", "the file is empty"),
            ("trace", trace[:event] + bytes([9]) + trace[event + 1:], "event", "an event is 0 AAP, 1 AP or 2 WRITE"),
            ("trace", trace[:event + 1] + bytes([5]) + trace[event + 2:], "event", "on bank 5: kinds are 0 to 2, and banks 0 to 0"),
            ("trace", trace[:4] + bytes([2]) + trace[5:], "version", "has to be 1"), ("trace", trace[:-1], "short", "it was cut off"),
            ("trace", trace + b"0", "rest", "nothing may follow"),
        ):
            answer = first_fault(kind, "file", data)
            self.assertEqual(answer.kind, word, (kind, said))
            self.assertIn(said, " ".join(" ".join(answer.lines()).split()))

    def test_an_illegal_row_and_its_rule(self):
        program = bytes_in(str(TOP / "examples" / "exec" / "xor.hex"))
        code = 8 + 27
        for at, row, said in (
            (1, (0, 8, 0), "row 1 is B8: B8 to B11 raise two wordlines, and only the second row may be one of them"),
            (4, (1, 0, 0), "row 2 is C0, a constant; no command may write it"),
            (4, (3, 1, 8), "row 2 is s1[0], a source; no command may write it"),
            (1, (0, 16, 0), "row 1 is B address 16, counted from 0; the chip has 16 B addresses"),
            (1, (3, 2, 8), "row 1 is source 2, counted from 0; xor has 2 sources"),
            (4, (2, 1, 8), "row 2 is result 1, counted from 0; xor has 1 result"),
            (4, (4, 0, 0), "row 2 is bit of scratch 0, counted from 0; xor has no bit of scratch"),
            (4, (5, 0, 8), "row 2 is word of scratch 0, counted from 0; xor has no word of scratch"),
            (4, (6, 32, 0), "row 2 is spill row 32, counted from 0; the chip has 32 spill rows"),
            (1, (3, 0, 9), "row 1 has index 9; an index is 0 to 7 for a register, or 8 for the number 0"),
            (4, (0, 8, 3), "row 2 is a B address with index byte 3; it takes no index, so the byte is 0"),
            (4, (7, 0, 0), "row 2 is of space 7; spaces are 0 to 6"),
        ):
            data = program[:code + at] + bytes(row) + program[code + at + 3:]
            answer = first_fault("program", "file", data)
            self.assertEqual((answer.kind, answer.place, answer.rule), ("row", f"byte {code}", f"instruction 0 of xor, AAP: {said}"))

    def test_an_illegal_operand_and_its_rule(self):
        program = bytes_in(str(TOP / "examples" / "exec" / "xor.hex"))
        code = 8 + 27
        for raw, said in (
            ((1, 8, 0, 0, 0, 0, 0, 0), "SETI, names register 8; registers are 0 to 7"),
            ((4, 0, 9, 0, 0, 0, 0, 0), "MOV, names register 9; registers are 0 to 7"),
            ((1, 0, 0, 4, 0, 0, 0, 0), "SETI, has the number 1024; numbers are 0 to 1023"),
            ((2, 0, 0, 0, 0, 0, 0, 5), "SETN, has 5 in byte 7, which is not named there and has to be 0"),
        ):
            answer = first_fault("program", "file", program[:code] + bytes(raw) + program[code + 8:])
            self.assertEqual((answer.kind, answer.rule), ("instruction", f"instruction 0 of xor, {said}"))

    def test_a_byte_that_is_not_ascii(self):
        for kind in ("ops", "script", "query"):
            answer = first_fault(kind, "file", "# é\n é".encode())
            self.assertEqual((answer.kind, answer.place, answer.caret), ("lex", "line 2 column 2", (1, 1)))
            self.assertIn("begins with the byte 0xc3", answer.rule)

    def test_triples(self):
        table = Table(1, 64, 1, [Object("xa", 1, 0, 4), Object("ya", 1, 1, 4), Object("zb", 1, 2, 4)])
        self.assertEqual(no_triples("file", table)[0].kind, "guard table 2")
        table.objects.pop()
        self.assertIn("za, 4 elements of 1 bits", no_triples("file", table)[0].rule)


class OperationTable(unittest.TestCase):
    def test_as_in_the_sources(self):
        sys.path.insert(0, str(TOP / "bench"))
        from word_ops import word_ops as sources
        known = {one.name: (one.takes, one.gives) for one in sources()}
        ours = {name: tuple(part.replace("x", "w") for part in pair) for name, pair in word_ops.TAKES_GIVES.items()}
        self.assertEqual(ours, known)


class Refusals(unittest.TestCase):
    def found(self, script):
        program = Program.load(self.prog)
        table = Table(1, 64, 1, [Object("a", 8, 0, 4), Object("y", 8, 8, 4), Object("s", 1, 16, 4)])
        entries = {entry.name: entry for entry in program.entries}
        return script_refusals("file", script.encode(), table, entries, lambda *_: None)

    @needs_program
    def test_what_is_said(self):
        with tempfile.TemporaryDirectory() as folder:
            ops = pathlib.Path(folder) / "f.ops"
            ops.write_text("op inc(a: word, b: word) -> y: word { y = add(a, b); }\n")
            self.prog = str(pathlib.Path(folder) / "f.prog")
            subprocess.run([support.program(), "compile", ops, self.prog], check=True, capture_output=True)
            for script, kind, said in (
                ("bbop_trsp_init c, 4, 20", "no_rows", "the longest free piece has 15; the last 32"),
                ("bbop_trsp_init c, 4, 20", "no_rows", "it would fit with 69 rows per bank; this image has 64"),
                ("bbop_ink y, a, a, 4, 8", "no_op", "did you mean inc"),
                ("bbop_inc y, a, y, 4, 8", "overlap 2", "y is a destination and a source"),
                ("bbop_inc y, a, s, 4, 8", "width 2", "s is 1 bit wide"),
                ("bbop_inc y[0:4], a[4:9], a, 4, 4", "slice 1", "a[4:9] has bit 8, and the highest bit of a is 7"),
                ("bbop_inc y[0:4], a[1:4], s[1], 4, 4", "slice 2", "s[1] has bit 1, and the highest bit of s is 0"),
                ("bbop_inc y[0:4], a[1:4], b[9], 4, 4", "no_object 2", "no object has the name b"),
                ("bbop_inc y[0:4], a[1:4], s, 4, 4", "width 1", "a[1:4] is 3 bits wide; inc expects a word of 4 bits"),
                ("bbop_inc y[0:4], a[0:4], y[3:7], 4, 4", "overlap 2", "y[3:7] has bits of y[0:4], a destination, and a result"),
                ("load a[0:2], 1, 2, 3, 4", "range 4", "a[0:2] has 2 bits, which hold 0 to 3"),
                ("fill a[3], 2", "range 1", "a[3] has 1 bit, which holds 0 to 1"),
                ("print y[8]", "slice 0", "y[8] has bit 8"),
                ("bbop_inc y, a, aa, 4, 8", "no_object 2", "did you mean a"),
                ("load a, 1, 2, 3, 256", "range 4", "hold 0 to 255"),
            ):
                answer = self.found(script)[0]
                self.assertEqual(answer.kind, f"instruction 1 refused {kind}", script)
                self.assertIn(said, " ".join(" ".join(answer.lines()).split()), script)

    def test_queries(self):
        table = Table(1, 64, 1, [Object("category", 8, 0, 4), Object("b", 8, 8, 3)])
        for query, kind, said in (("eq(categry, 1)", "no_object 0", "did you mean category"), ("and(eq(category, 1), eq(b, 1))", "count 1", "3 elements"),
                                  ("eq(category, 256)", "range 0", "0 to 255"), ("eq(category[4:9], 16)", "slice 0", "highest bit of category is 7"),
                                  ("eq(category[4:8], 16)", "range 0", "0 to 15"), ("and(eq(category, 1), eq(b[7:9], 1))", "slice 1", "has bit 8")):
            answer = query_refusals("file", query.encode(), table)[0]
            self.assertEqual(answer.kind, f"query refused {kind}")
            self.assertIn(said, " ".join(answer.lines()))


def changed(dice, text, others):
    """A text with a word or two left out, doubled or taken from elsewhere."""
    words = text.replace("(", " ( ").replace(")", " ) ").replace(",", " , ").replace(";", " ; ").split(" ")
    for _ in range(dice.randrange(1, 3)):
        at = dice.randrange(len(words))
        words[at:at + 1] = dice.choice(([], [words[at]] * 2, [dice.choice(words)], [dice.choice(others)]))
        words = words or ["a"]
    return " ".join(words)


@needs_program
class AsTheProgram(unittest.TestCase):
    """On drawn texts the launcher finds the line and the kind that the program prints."""

    def setUp(self):
        kept = tempfile.TemporaryDirectory()
        self.addCleanup(kept.cleanup)
        self.folder = pathlib.Path(kept.name)
        self.dice = random.Random(5)

    def last(self, *words):
        ended = subprocess.run([support.program(), *words], cwd=self.folder, capture_output=True, text=True, check=False)
        return ended.stdout.splitlines()[-1] if ended.returncode and ended.stdout else "ok", ended

    @staticmethod
    def line(what, answer):
        return f"{what} line {answer.place.split()[1]} {answer.kind}" if answer else "ok"

    def test_ops(self):
        texts = [path.read_text() for path in sorted((TOP / "examples").rglob("*.ops"))]
        others = "add xor maj not zero divmod y a q 0 1 2 word bit serial up let { } : -> trsp_init @ op".split() + ["n" * 17]
        for _ in range(120):
            text = changed(self.dice, self.dice.choice(texts), others)
            (self.folder / "f.ops").write_text(text)
            self.assertEqual(self.last("show", "f.ops")[0], self.line("ops", first_breach("f.ops", text.encode(), read_ops)), text)

    def test_scripts(self):
        lines = [line for path in sorted((TOP / "examples").rglob("*.bbop")) for line in path.read_text().splitlines()]
        lines += ["load a[3], 1, 0", "fill a [ 0 : 4 ], 3", "print a[127]", "bbop_add y[4:8], a[0:4], b[ 07 : 11 ], 4, 4", "print a[0:128]"]
        others = ["bbop_", "bbop_9", "0", "129", "order", "seed", "@", "4294967296", "n" * 17, "load", "=", str(2**128), "[", "]", ":",
                  "a[3]", "a[4:4]", "a[9:128]", "a[128:9]", "n" * 17 + "[0:129]", "a[1", "a[:2]", f"a[{2**130}]"]
        subprocess.run([support.program(), "init", "1", "64", "1", "i.img"], cwd=self.folder, check=True)
        (self.folder / "f.ops").write_text("op add(a: word, b: word) -> y: word { y = add(a, b); }")
        for _ in range(240):
            text = changed(self.dice, "\n".join(self.dice.sample(lines, 2) + self.dice.sample(lines[-5:], 1)), others)
            (self.folder / "s").write_text(text)
            said, ended = self.last("run", "f.ops", "p", "s", "i.img", "o.img")
            answer = first_breach("s", text.encode(), read_script)
            self.assertEqual(said if ended.returncode == 6 else "ok", self.line("script", answer), text)

    def test_refusals(self):
        dice = self.dice
        (self.folder / "f.ops").write_text("op add(a: word, b: word) -> y: word { y = add(a, b); }\n"
                                           "op dm(a: word, b: word) -> q: word, r: word { q, r = divmod(a, b); }\n")
        for kind in ("run", "run", "run", "guard"):
            subprocess.run([support.program(), "init", "1", dice.choice(["64", "128"]), "1", "i.img"], cwd=self.folder, check=True)
            (self.folder / "none").write_text("")
            script = "\n".join(self.drawn_line() for _ in range(60))
            (self.folder / "s").write_text(script)
            words = ["run", "f.ops", "p", "s", "i.img", "o.img"] if kind == "run" else ["guard", "f.ops", "p", "s", "i.img", "none", "o.img"]
            ended = self.last(*words)[1]
            refused = [line.split(" ", 2) for line in ended.stdout.splitlines() if " refused " in line]
            entries = {entry.name: entry for entry in Program.load(str(self.folder / "p")).entries}
            table = Table.read((self.folder / "i.img").read_bytes(), "i.img")
            found = script_refusals("s", script.encode(), table, entries, lambda *_: None, kind == "guard")
            self.assertEqual([answer.kind for answer in found], [f"instruction {k} refused {word[8:]}" for k, _, word in
                                                                 ((one[0], one[1], " ".join(one[1:])) for one in refused)])

    def drawn_line(self):
        dice = self.dice
        names = [name + dice.choice(("", "", "", "[0]", "[3]", "[0:4]", "[4:8]", "[2:6]", "[0:8]")) for name in dice.choices("aaabbbyyzq", k=5)]
        free = dice.choice("aabbyyzq")
        count, width = dice.choice([4, 4, 4, 65]), dice.choice([1, 4, 4, 8, 20])
        return dice.choice((f"bbop_trsp_init {free}, {count}, {width}", f"bbop_trsp_init {free}, 4, {dice.choice((4, 8))}", f"free {free}",
                            f"fill {names[0]}, {dice.choice([1, 20])}", f"print {names[0]}", f"load {names[0]}, 1, 2, 3, {dice.choice([4, 99])}",
                            f"bbop_add {', '.join(names[:3])}, {count}, {width}", f"bbop_dm {', '.join(names[:4])}, 4, {width}",
                            f"bbop_add {', '.join(names[:3])}, 4, 4"))

    def test_flips(self):
        Image(1, 64, 1).save(str(self.folder / "i.img"))
        (self.folder / "f.ops").write_text("op add(a: word, b: word) -> y: word { y = add(a, b); }")
        (self.folder / "s").write_text("order in\norder in\norder in\n")
        numbers = ["0", "1", "2", "3", "4", "5", "63", "64"]
        for _ in range(60):
            lines = [self.dice.choices(numbers, k=self.dice.choice([0, 3, 4, 4, 4, 4, 5])) for _ in range(3)]
            text = "\n".join(" ".join(line) + self.dice.choice(["", "", "", " # c", " @", ", 1"]) for line in lines)
            (self.folder / "w").write_text(text)
            said, ended = self.last("guard", "f.ops", "p", "s", "i.img", "w", "o.img")
            answer = first_breach("w", text.encode(), check_flips, 3, Table(1, 64, 1, []))
            self.assertEqual(said if ended.returncode == 18 else "ok", self.line("flips", answer), text)

    def test_a_full_table(self):
        image = Image(1, 320, 1, [Object(f"o{k}", 1, k, 1) for k in range(256)])
        image.save(str(self.folder / "i.img"))
        (self.folder / "q").write_text("eq(o1, 0)")
        said, _ = self.last("scan", "q", "i.img")
        table = Table.read((self.folder / "i.img").read_bytes()[:HEAD_MAX], "i.img")
        self.assertEqual([answer.kind for answer in query_refusals("q", b"eq(o1, 0)", table)], [said])

    def test_after_a_status(self):
        """The launcher says it on standard error, and nothing more on standard output."""
        Image(1, 64, 1).save(str(self.folder / "i.img"))
        for name, text in (("f.ops", HEAD + " y = ad(a, b); }"), ("g.ops", "op add(a: word, b: word) -> y: word { y = add(a, b); }"),
                           ("q", "a >= 3"), ("r", "eq(a, 3)"), ("s", "print"), ("t", "print a"), ("w", "9 0 0 0"), ("long", "print " + "n" * 16)):
            (self.folder / name).write_text(text)
        for words, status, said in (
            (["show", "f.ops"], 4, "f.ops line 2 column 6: unknown"), (["list", "f.ops"], 5, "byte 0: magic"),
            (["run", "g.ops", "p", "s", "i.img", "o.img"], 6, "s line 1 column 6: syntax"), (["scan", "r", "g.ops"], 7, "byte 0: magic"),
            (["run", "g.ops", "p", "t", "i.img", "i.img"], 8, "instruction 1 refused no_object 0"), (["replay", "g.ops", "i.img", "o.img"], 13, "byte 0: magic"),
            (["scan", "q", "i.img"], 15, "ge(a, V)"), (["scan", "r", "i.img"], 16, "query refused no_object 0"),
            (["guard", "g.ops", "p", "long", "i.img", "w", "o.img"], 17, "guard name 1"), (["guard", "g.ops", "p", "t", "i.img", "w", "o.img"], 18, "1 to 2"),
        ):
            ended = called(*words, cwd=self.folder)
            self.assertEqual(ended.returncode, status, (words, ended))
            self.assertIn(said, ended.stderr, words)
            self.assertLessEqual(len(ended.stdout.splitlines()), 2)

    def test_the_word(self):
        (self.folder / "f.ops").write_text(HEAD + " y = ad(a, b); }")
        ended = called("explain", "f.ops", cwd=self.folder)
        self.assertEqual((ended.returncode, ended.stdout.splitlines()[0]), (1, "f.ops line 2 column 6: unknown"))
        self.assertEqual(called("explain", "none", cwd=self.folder).returncode, 2)


class Hints(unittest.TestCase):
    """What is said of texts as other tools write them."""

    def said(self, kind, data):
        return " ".join(" ".join(first_fault(kind, "f", data).lines()).split())

    def test_each(self):
        mark = b"\xef\xbb\xbf"
        for kind, data in (("ops", b"op f(a: word) -> y: word { y = not(a); }"), ("script", b"fill a, 2\n"), ("query", b"eq(a, 2)"),
                           ("micro", b"program f(a: word) -> y: word\n")):
            self.assertIn("the text begins with a byte order mark", self.said(kind, mark + data), kind)
        self.assertIn("the instruction that calls it gives n", self.said("ops", b"op f(a: word[8]) -> y: word { y = not(a); }"))
        self.assertIn("decimal digits, and `0x2` is none", self.said("script", b"fill a, 0x2\n"))
        self.assertNotIn("decimal", self.said("script", b"fill a, 0 x2\n"))


if __name__ == "__main__":
    unittest.main()

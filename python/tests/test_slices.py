"""Operands that are bits of an object: random scripts beside a model of rows, and the worked rows of docs/FORMATS.md."""

import pathlib
import random
import re
import struct
import subprocess
import tempfile
import unittest

import support
from support import needs_program

from scripts_by_rows import OPERATIONS, SPILL_ROWS, TEXT, Operand, Rows

from simdram.costs.report import object_of

COST = re.compile(r"(\w+) at (\d+) aap=(\d+) ap=(\d+) rows=(\d+)")


class Files(unittest.TestCase):
    """A folder with files, in which the program runs."""

    def setUp(self):
        folder = tempfile.TemporaryDirectory()
        self.addCleanup(folder.cleanup)
        self.folder = pathlib.Path(folder.name)

    def run_program(self, *words, status=None):
        """Runs the program, and returns its lines."""
        ended = subprocess.run([support.program(), *words], cwd=self.folder, capture_output=True, text=True, check=False)
        if status is not None:
            self.assertEqual(ended.returncode, status, ended.stdout + ended.stderr)
        return ended.stdout.splitlines()

    def script(self, text):
        (self.folder / "s").write_text(text)


@needs_program
class RandomScripts(Files):
    """Scripts of random instructions on random operands, most of them right."""

    def setUp(self):
        super().setUp()
        (self.folder / "ops").write_text(TEXT)
        self.run_program("compile", "ops", "prog", status=0)
        lines = (COST.fullmatch(line) for line in self.run_program("cost", "prog", "1-128", status=0))
        self.costs = {(line[1], int(line[2])): tuple(map(int, line.group(3, 4, 5))) for line in lines}

    def operand(self, width=None):
        """An operand, of this width if an object has room for it."""
        draws = self.draws
        known = self.known()
        names = list(known)
        if not names or draws.random() < .02:
            return Operand("nothing")
        fit = [name for name in names if width is None or known[name][1] >= width]
        name = draws.choice(fit or names)
        wide = known[name][1]
        if draws.random() < .03:
            low = draws.randrange(min(127, wide + 3))
            return Operand(name, low, draws.randint(low + 1, min(128, wide + 4)))
        if width is None or width > wide or draws.random() < .03:
            width = draws.randint(1, wide)
        if width == wide and draws.random() < .5:
            return Operand(name)
        low = draws.randint(0, wide - width)
        return Operand(name, low, low + width)

    def instruction(self):
        """A line, and what does it on the model's rows, or on a copy of each object."""
        draws, rows = self.draws, self.rows
        pick = draws.random()
        if pick > .95:
            return f"order {draws.choice(('in', 'turns', f'seed {draws.randrange(2**64)}'))}", lambda letter: None
        if pick < .15 or not self.known():
            name = f"o{draws.randrange(8)}"
            count = self.count if draws.random() < .9 else draws.randint(1, 70 * rows.banks)
            width = draws.choice((1, 4, 8, 9, 16, 24, 32, 128, draws.randint(1, 128)))
            return f"bbop_trsp_init {name}, {count}, {width}", lambda letter: rows.init(letter + name, count, width)
        if pick < .2:
            name = draws.choice(list(self.known()))
            return f"free {name}", lambda letter: rows.objects.pop(letter + name) and None
        one = self.operand()
        known = self.known().get(one.name)
        wide = (one.high - one.low if one.high else known[1]) if known else 4
        if pick < .35:
            values = [draws.randrange(2**wide) for _ in range(known[2] if known else 3)]
            if draws.random() < .05:
                values[0] = 2**wide if wide < 128 else 0
            text = ", ".join(map(str, values))
            return f"load {one.written(draws)}, {text}", lambda letter: rows.load(one.of_copy(letter), values)
        if pick < .45:
            value = draws.randrange(2**wide) if draws.random() < .95 else (2**wide if wide < 128 else 0)
            return f"fill {one.written(draws)}, {value}", lambda letter: rows.fill(one.of_copy(letter), value)
        if pick < .65:
            return f"print {one.written(draws)}", lambda letter: self.printed(one, letter)
        op = draws.choice(list(OPERATIONS))
        results, sources, _ = OPERATIONS[op]
        n = draws.choice((1, 2, 3, 4, 8, 9, 16, draws.randint(1, 128)))
        if op == "dm":
            n = min(n, 16)
        operands = [self.operand(n if kind == "w" else 1) for kind in results + sources]
        if len(operands) > 2 and draws.random() < .02:
            operands.pop()
        count = self.known()[operands[0].name][2] if operands[0].name in self.known() else self.count
        words = ", ".join(one.written(draws) for one in operands)
        return (f"bbop_{op} {words}, {count}, {n}",
                lambda letter: rows.bbop(op, [one.of_copy(letter) for one in operands], count, n, self.costs[op, n]))

    def printed(self, one, letter):
        refusal = self.rows.operand_refusal(one.of_copy(letter))
        if refusal:
            return refusal
        self.shown = f"{one.shown()}: {' '.join(map(str, self.rows.values(one.of_copy(letter))))}"
        return None

    def known(self):
        """The objects by their names in a script."""
        objects = self.rows.objects
        return {name[1:]: objects[name] for name in objects if name[0] == "x"} if self.copies != ("",) else objects

    def done(self, do):
        """What an instruction comes to; one that is refused changes nothing."""
        self.shown, before, aap, ap = None, dict(self.rows.objects), self.rows.aap, self.rows.ap
        for letter in self.copies:
            refusal = do(letter)
            if refusal:
                self.rows.objects = before
                return f"refused {refusal}"
        return self.shown or f"ok aap={self.rows.aap - aap} ap={self.rows.ap - ap}"

    def script_of(self, seed, banks, words, copies):
        """Writes a random script and an image for it, and returns its lines and what each comes to."""
        self.draws, self.copies = random.Random(seed), copies
        height = 600 if copies == ("",) else 1006
        self.rows = Rows(banks, height, words)
        self.count = self.draws.randint(1, banks * words * 64)
        lines, wanted, self.tables = [], [], []
        for _ in range(self.draws.randint(20, 60)):
            line, do = self.instruction()
            self.tables.append(dict(self.rows.objects))
            lines.append(line)
            wanted.append(self.done(do))
        self.tables.append(dict(self.rows.objects))
        self.script("\n".join(lines) + "\n")
        self.run_program("init", str(banks), str(height), str(words), "image", status=0)
        return lines, wanted

    def compare(self, seed, lines, wanted, said):
        self.assertTrue(said[-1].startswith("total "), said[-3:])
        for number, (line, want, got) in enumerate(zip(lines, wanted, said), 1):
            self.assertEqual(got, f"{number} {want}", (seed, line))
        self.same_rows()

    def same_total(self, said):
        """The counters are those of the instructions, and of the image that is opened and stored."""
        rows = self.rows
        own = rows.banks * (rows.limit + SPILL_ROWS)
        refused = sum(" refused " in line for line in said)
        self.assertEqual(said[-1], f"total aap={rows.aap} ap={rows.ap} writes={own + rows.loaded} reads={own + rows.printed} refused={refused}")

    def same_rows(self):
        """All rows but those of scratch and the spill group are those of the model, in every bank and column."""
        data = (self.folder / "out").read_bytes()
        banks, rows, words, objects = struct.unpack("<4H", data[6:14])
        self.assertEqual(objects, len(self.rows.objects))
        start, size = 14 + objects * 24, 8 * words
        for bank in range(banks):
            for row in range(self.rows.limit):
                at = start + size * (bank * rows + row)
                if (bank, row) not in self.rows.unknown:
                    self.assertEqual(int.from_bytes(data[at:at + size], "little"), self.rows.cells[bank][row], (bank, row))

    def test_one_bank(self):
        for seed in range(30):
            with self.subTest(seed=seed):
                lines, wanted = self.script_of(seed, 1, 1, ("",))
                said = self.run_program("exec", "prog", "s", "image", "out")
                self.compare(seed, lines, wanted, said)
                self.same_total(said)

    def test_several_banks_and_their_traces(self):
        for seed in range(100, 120):
            with self.subTest(seed=seed):
                lines, wanted = self.script_of(seed, 3, 2, ("",))
                said = self.run_program("trace", "prog", "s", "image", "out", "trace")
                self.compare(seed, lines, wanted, said)
                self.same_total(said)
                self.run_program("replay", "trace", "image", "again", status=0)
                self.assertEqual((self.folder / "again").read_bytes()[14:], (self.folder / "out").read_bytes()[14:])

    def flip(self, k):
        """A cell of one copy of an object that is inverted before instruction k, or none."""
        objects = self.tables[k - 1]
        if not objects or self.draws.random() < .3:
            return ""
        base, width, count = objects[self.draws.choice(list(objects))]
        return f"{k} {self.draws.randrange(self.rows.segments(count))} {base + self.draws.randrange(width)} {self.draws.randrange(64)}\n"

    def test_guarded(self):
        for seed in range(200, 220):
            with self.subTest(seed=seed):
                lines, wanted = self.script_of(seed, 2, 1, ("x", "y", "z"))
                flips = list(filter(None, map(self.flip, range(1, len(lines) + 2))))
                (self.folder / "flips").write_text("".join(flips))
                said = self.run_program("guard", "ops", "prog", "s", "image", "flips", "out")
                self.assertRegex(said[-2], rf"^vote aap=\d+ flips={len(flips)}$")
                self.compare(seed, lines, wanted, said)


@needs_program
class Worked(Files):
    def outcome(self, ops, script):
        """The values that are printed, and the commands of all instructions."""
        (self.folder / "ops").write_text(ops)
        self.script(script)
        self.run_program("init", "1", "256", "8", "image", status=0)
        lines = self.run_program("run", "ops", "prog", "s", "image", "out", status=0)
        counts = [sum(map(int, found)) for found in re.findall(r" ok aap=(\d+) ap=(\d+)", "\n".join(lines))]
        values = {found[1]: [int(word) for word in found[2].split()] for found in
                  (re.match(r"\d+ (\S+): (.+)", line) for line in lines) if found}
        return values, counts

    def test_sign_extension(self):
        values, counts = self.outcome(TEXT, "bbop_trsp_init a, 16, 4\nbbop_trsp_init y, 16, 8\nload a, "
                                      f"{', '.join(map(str, range(16)))}\nbbop_copy y[0:4], a, 16, 4\n"
                                      "bbop_spread y[4:8], a[3], 16, 4\nprint y\n")
        self.assertEqual(values["y"], [v | (240 if v & 8 else 0) for v in range(16)])
        self.assertEqual(sum(counts[2:]), 8)

    def test_shift(self):
        values, counts = self.outcome(TEXT, "bbop_trsp_init a, 3, 8\nbbop_trsp_init y, 3, 8\nload a, 255, 8, 77\n"
                                      "bbop_copy y[0:5], a[3:8], 3, 5\nfill y[5:8], 0\nprint y\nprint a[3:8]\n")
        self.assertEqual(values, {"y": [31, 1, 9], "a[3:8]": [31, 1, 9]})
        self.assertEqual(sum(counts[2:]), 8)

    def test_neighbouring_results(self):
        values, counts = self.outcome(TEXT, "bbop_trsp_init a, 3, 8\nbbop_trsp_init b, 3, 8\nbbop_trsp_init y, 3, 9\n"
                                      "load a, 255, 128, 1\nload b, 255, 127, 2\nbbop_sumc y[0:8], y[8], a, b, 3, 8\nprint y\nprint y[8]\n")
        self.assertEqual(values, {"y": [510, 255, 3], "y[8]": [1, 0, 0]})
        self.assertEqual(counts[-1], 58)

    def test_a_source_of_the_same_object(self):
        values, _ = self.outcome(TEXT, "bbop_trsp_init y, 2, 16\nbbop_trsp_init b, 2, 8\nload y[0:8], 200, 7\nload b, 100, 9\n"
                                 "bbop_add y[8:16], y[0:8], b, 2, 8\nprint y[8:16]\nprint y[0:8]\nprint y\n")
        self.assertEqual(values, {"y[8:16]": [44, 16], "y[0:8]": [200, 7], "y": [200 + 256 * 44, 7 + 256 * 16]})

    def test_a_report_of_slices(self):
        made = object_of("1 a[4:8]: 1 15\n2 a[3]: 0 1\n3 a: 8 255\n4 refused slice 1\ntotal aap=0 ap=0 writes=64 reads=64 refused=1\n")
        self.assertEqual([(one.get("name"), one.get("values"), one.get("at")) for one in made["instructions"]],
                         [("a[4:8]", [1, 15], None), ("a[3]", [0, 1], None), ("a", [8, 255], None), (None, None, [1])])


if __name__ == "__main__":
    unittest.main()

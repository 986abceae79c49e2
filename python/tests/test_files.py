"""The file modules beside the program: what they accept, what they refuse and where, and what they write."""

import random
import struct
import tempfile
import unittest

from support import needs_program

from simdram.files import columns, decode
from simdram.files.image import Image, NoRoom, Object, OutOfRange
from simdram.files.program import Program
from simdram.files.store import load, store
from simdram.files.trace import Address, Event, Trace
from simdram.launcher import run_program
from simdram.launcher.faults import FileFault

OPS = """op mac(a: word, b: word, c: word) -> y: word { t = mul(a, b); y = add(t, c); }
op pick(a: bit, b: word) -> y: bit, z: word { serial down (g = 0) { g = maj(a, not(b), g); z = g; } y = copy(g); }
op dm(a: word, b: word) -> q: word, r: word { q, r = divmod(a, b); }
"""
SCRIPT = """bbop_trsp_init a, 70, 3
bbop_trsp_init b, 70, 3
load a, """ + ", ".join("7" * 70) + """
bbop_mac b, a, a, a, 70, 3
"""
SMALLEST = bytes.fromhex("53444D49 0100 0100 4000 0100 0300"
                         "0161" + "00" * 15 + "01 0000 04000000" "0162" + "00" * 15 + "01 0100 04000000"
                         "0179" + "00" * 15 + "01 0200 04000000" "0C00000000000000 0A00000000000000" + "00" * 496)


def mutated(dice, data, interesting):
    """A file with a byte or a field changed, cut or longer; mostly among its first bytes."""
    out = bytearray(data)
    for _ in range(dice.choice((1, 1, 1, 2))):
        at = dice.randrange(min(len(out), interesting))
        out[at] = dice.choice((0, 1, 2, 255, out[at] ^ 1 << dice.randrange(8), dice.randrange(256)))
    end = dice.randrange(8)
    if end == 0:
        return bytes(out[:dice.randrange(len(out) + 1)])
    return bytes(out) + b"\0" * (end == 1)


class Columns(unittest.TestCase):
    """Numbers, cells and rows."""

    def test_rows_are_the_bits(self):
        self.assertEqual(columns.rows_of(bytes([1, 2, 3]), 1, 2), [0b101, 0b110])
        self.assertEqual(columns.cells_of([0b101, 0b110], 3, 1), bytes([1, 2, 3]))

    def test_there_and_back(self):
        dice = random.Random(1)
        for width in range(1, 129):
            numbers = [dice.getrandbits(width) for _ in range(dice.randrange(1, 70))]
            size = columns.size_of(width)
            rows = columns.rows_of(columns.cells_with(numbers, size), size, width)
            for k, row in enumerate(rows):
                self.assertEqual(row, sum((number >> k & 1) << e for e, number in enumerate(numbers)))
            self.assertEqual(columns.numbers_of(columns.cells_of(rows, len(numbers), size), size), numbers)


class Decode(unittest.TestCase):
    """The decode table."""

    def test_values_by_hand(self):
        self.assertEqual(decode.raised("B", 5), (("DCC0", True),))
        self.assertEqual(decode.raised("B", 14), (("DCC0", False), ("T1", False), ("T2", False)))
        self.assertEqual(decode.raised("D", 7), (("D7", False),))
        self.assertEqual([n for n in range(16) if not decode.legal_first("B", n)], [8, 9, 10, 11])
        self.assertEqual([decode.legal_second(group) for group in "BCD"], [True, False, True])


class Images(unittest.TestCase):
    """Image files."""

    def test_the_smallest(self):
        image = Image.read(SMALLEST)
        self.assertEqual(image.objects, [Object("a", 1, 0, 4), Object("b", 1, 1, 4), Object("y", 1, 2, 4)])
        self.assertEqual((image.get("a"), image.get("b")), ([0, 0, 1, 1], [0, 1, 0, 1]))
        self.assertEqual(image.file(), SMALLEST)

    def test_numbers_over_banks(self):
        dice = random.Random(2)
        for width in (1, 9, 64, 65, 128):
            image = Image(2, 200, 1)
            image.add("x", 3, 2)
            image.add("v", width, 100)
            numbers = [dice.getrandbits(width) for _ in range(100)]
            image.put("v", numbers)
            self.assertEqual(image.get("v"), numbers)
            self.assertEqual(image.get("x"), [0, 0])

    def test_what_does_not_fit_is_named(self):
        image = Image(1, 64, 1)
        image.add("a", 8, 3)
        for values, place, word in (([0, -1, 0], 2, "is -1"), ([0, 0, 256], 3, "is 256")):
            with self.assertRaisesRegex(OutOfRange, f"value {place} of a {word}"):
                image.put("a", values)
        for name, width, count, word in (("a", 1, 1, "exists"), ("b", 25, 1, "no_rows"), ("b", 1, 65, "too_large"),
                                         ("b", 0, 1, "bad_number"), ("b", 129, 1, "bad_number")):
            with self.assertRaises(NoRoom) as caught:
                image.add(name, width, count)
            self.assertEqual(caught.exception.word, word)
        self.assertEqual(image.objects, [Object("a", 8, 0, 3)])

    def test_the_least_free_rows(self):
        image = Image(1, 64, 1)
        for name, width in (("a", 4), ("b", 8), ("c", 4)):
            image.add(name, width, 1)
        image.free("b")
        self.assertEqual([image.add(name, width, 1).base for name, width in (("d", 9), ("e", 3), ("f", 5))], [16, 4, 7])

    def test_a_file_that_is_missing_or_cannot_be_written(self):
        with tempfile.TemporaryDirectory() as folder:
            with self.assertRaisesRegex(FileFault, "none: cannot read: No such file"):
                load(f"{folder}/none")
            with self.assertRaisesRegex(FileFault, "cannot write"):
                store(f"{folder}/none/there", b"")
            store(f"{folder}/file", b"1")
            store(f"{folder}/file", b"22")
            self.assertEqual(load(f"{folder}/file"), b"22")


@needs_program
class BesideTheProgram(unittest.TestCase):
    """Each reader refuses what the program refuses, at the same byte with the same word, and accepts the rest."""

    @classmethod
    def setUpClass(cls):
        cls.kept = tempfile.TemporaryDirectory()
        cls.folder = cls.kept.name
        for name, data in (("ops", OPS), ("script", SCRIPT), ("query", "eq(none, 0)")):
            store(f"{cls.folder}/{name}", data.encode())
        cls.ran("init", 2, 64, 1, "image")
        cls.ran("compile", "ops", "prog")
        cls.ran("trace", "prog", "script", "image", "out", "trace")

    @classmethod
    def tearDownClass(cls):
        cls.kept.cleanup()

    @classmethod
    def ran(cls, *words):
        ended = run_program.run(words, cls.folder)
        assert ended.status in (0, 5, 7, 13, 14, 16) and not ended.err, ended
        return ended

    def put(self, name, data):
        store(f"{self.folder}/{name}", data)

    def compare(self, reader, data, said, kind):
        """The reader's answer is the program's."""
        if said.startswith(f"{kind} byte "):
            with self.assertRaises(FileFault) as caught:
                reader.read(data)
            self.assertEqual(f"{kind} {caught.exception.place} {caught.exception.word}", said)
        else:
            self.assertEqual(reader.read(data).file(), data)

    def test_images(self):
        dice = random.Random(3)
        whole = Image(2, 64, 1, [Object("a", 3, 0, 70), Object("bb", 9, 3, 1), Object("z_9", 1, 31, 128)]).file()
        for _ in range(150):
            data = mutated(dice, dice.choice((whole, SMALLEST)), 90)
            self.put("wrong", data)
            self.compare(Image, data, self.ran("scan", "query", "wrong").out.strip(), "image")

    def test_programs(self):
        dice = random.Random(4)
        whole = load(f"{self.folder}/prog")
        old = bytearray(whole[:8 + 27]) + whole[8 + 81:]
        size = struct.unpack_from("<H", whole, 8 + 25)[0]
        old[4:8] = struct.pack("<HH", 1, 1)
        files = (whole, bytes(old[:8 + 27 + 8 * size]))
        for case in range(150):
            data = mutated(dice, dice.choice(files), dice.choice((100, 2000))) if case > 1 else files[case]
            self.put("wrong", data)
            self.compare(Program, data, self.ran("list", "wrong").out.strip().rpartition("\n")[2], "program")

    def test_listings(self):
        program = Program.load(f"{self.folder}/prog")
        lines = []
        for entry in program.entries:
            second = " results=2" * (len(entry.results) == 2)
            lines.append(f"entry {entry.name} sources={len(entry.sources)} bits={entry.bits} words={entry.words} "
                         f"code={len(entry.code)}{second}")
            lines += [f"{k} {one}" for k, one in enumerate(entry.code)]
        self.assertEqual("\n".join([*lines, ""]), self.ran("list", "prog").out)
        word, bit = "word", "bit"
        self.assertEqual([(one.sources, one.results) for one in program.entries],
                         [((word, word, word), (word,)), ((bit, word), (bit, word)), ((word, word), (word, word))])

    def test_traces(self):
        dice = random.Random(5)
        whole = Trace.load(f"{self.folder}/trace")
        self.assertEqual(whole.file(), load(f"{self.folder}/trace"))
        self.assertEqual(whole.events[0], Event("AAP", 0, (Address("C", 0), Address("D", 0))))
        self.assertEqual(str(whole.events[0]), "bank 0 AAP C0 D0")
        events = whole.events[:3] + [Event("AAP", 1, (Address("B", 12), Address("B", 8)))]
        for kind in ("WRITE", "AP"):
            events.append(next(event for event in whole.events if event.kind == kind))
        short = Trace(2, 64, 1, whole.objects, events)
        for _ in range(150):
            data = mutated(dice, short.file(), 200)
            self.put("wrong", data)
            self.compare(Trace, data, self.ran("replay", "wrong", "image", "out").out.strip(), "trace")

    def test_the_program_places_objects_as_the_image_does(self):
        dice = random.Random(6)
        image, lines = Image(2, 100, 1), []
        for k in range(60):
            if image.objects and dice.random() < 0.4:
                name = dice.choice(image.objects).name
                image.free(name)
                lines.append(f"free {name}")
                continue
            width, count = dice.randrange(1, 16), dice.randrange(1, 129)
            lines.append(f"bbop_trsp_init o{k}, {count}, {width}")
            try:
                image.add(f"o{k}", width, count)
            except NoRoom as full:
                self.assertEqual(full.word, "no_rows")
        self.put("placing", "\n".join(lines).encode())
        self.ran("init", 2, 100, 1, "fresh")
        ended = run_program.run(["exec", "prog", "placing", "fresh", "placed"], self.folder)
        self.assertIn(ended.status, (0, 8))
        self.assertEqual(Image.load(f"{self.folder}/placed").objects, image.objects)


if __name__ == "__main__":
    unittest.main()

"""`Chip(simplify=True)`: the texts of expressions, simplified at their widths and kept, beside NumPy."""

import os
import pathlib
import random
import re
import tempfile
import unittest.mock

from beside_numpy import Beside
from support import needs_numpy, needs_program, numpy

import simdram

if numpy is not None:
    from simdram.arrays import simpler_texts

BITS = 8
EXPRESSIONS = 6


@needs_numpy
@needs_program
class Simpler(Beside):
    """Expressions in a chip that simplifies."""

    @classmethod
    def setUpClass(cls):
        folder = tempfile.TemporaryDirectory(prefix="simdram_")
        cls.addClassCleanup(folder.cleanup)
        cls.cache = pathlib.Path(folder.name)
        patch = unittest.mock.patch.dict(os.environ, {"SIMDRAM_CACHE": folder.name})
        patch.start()
        cls.addClassCleanup(patch.stop)

    def setUp(self):
        self.x = numpy.array([0, 1, 3, 8, 127, 128, 200, 255], dtype=numpy.uint8)
        self.y = self.x[::-1].copy()

    def chip(self, simplify=True):
        """A chip with two arrays."""
        chip = simdram.Chip(banks=1, rows=400, words=1, simplify=simplify)
        return chip, chip.array(self.x), chip.array(self.y)

    def distance(self, a, b):
        """The amount of a difference, as one writes it."""
        return simdram.where(a > b, a - b, b - a)

    def test_a_distance(self):
        with unittest.mock.patch.object(simpler_texts, "SECONDS", 300.0):
            _, a, b = self.chip()
            found = self.distance(a, b)
            self.same(found, numpy.where(self.x > self.y, self.x - self.y, self.y - self.x))
        self.assertLessEqual(found.cost.commands, 123)
        self.assertIn("serial", found.text)
        _, a, b = self.chip(simplify=False)
        plain = self.distance(a, b)
        self.assertEqual((plain.text, plain.text_as_written), (found.text_as_written, found.text_as_written))
        self.assertEqual(plain.cost.commands, 179)
        # it is kept: another chip finds it on disk, and by text and width alone
        with unittest.mock.patch.object(simpler_texts, "simplified", lambda text, width: (text, False)):
            _, a, b = self.chip()
            again = self.distance(a, b)
            self.assertEqual((again.text, again.cost), (found.text, found.cost))
            wide = simdram.Chip(rows=400, words=1, simplify=True)
            other = self.distance(wide.array(self.x, bits=9), wide.array(self.y, bits=9))
            self.assertEqual(other.text, other.text_as_written)

    def test_off_by_default(self):
        chip = simdram.Chip(rows=400, words=1)
        a, b = chip.array(self.x), chip.array(self.y)
        found = self.distance(a, b)
        self.assertEqual(found.text, found.text_as_written)

    def test_a_file_that_is_broken_is_none(self):
        for file in self.cache.glob("text-*.json"):
            file.write_text("{", encoding="utf-8")
        with unittest.mock.patch.object(simpler_texts, "simplified", lambda text, width: (text, True)):
            _, a, b = self.chip()
            found = (a & b) ^ a
            self.same(found, (self.x & self.y) ^ self.x)
        for file in self.cache.glob("text-*.json"):
            file.unlink()

    def test_a_folder_that_cannot_be_written(self):
        with unittest.mock.patch.dict(os.environ, {"SIMDRAM_CACHE": "/proc/none"}), \
                unittest.mock.patch.object(simpler_texts, "SECONDS", 5.0):
            _, a, b = self.chip()
            self.same((a ^ b) & a, (self.x ^ self.y) & self.x)

    def test_random_expressions(self):
        draws = random.Random(4)
        with unittest.mock.patch.object(simpler_texts, "SECONDS", 2.0):
            for _ in range(EXPRESSIONS):
                _, a, b = self.chip()
                found, wanted = self.drawn(draws, a, b)
                self.same(found, wanted)
                written = len(re.findall(r"^op ", found.text_as_written, re.MULTILINE))
                self.assertEqual(len(re.findall(r"^op ", found.text, re.MULTILINE)), written)

    def drawn(self, draws, a, b):
        """A random expression, in the chip and by NumPy."""
        pairs = [(a, self.x), (b, self.y)]
        for _ in range(draws.randint(2, 4)):
            (p, u), (q, v) = draws.choice(pairs), draws.choice(pairs)
            kind = draws.randrange(6)
            if kind == 0:
                pairs.append((p + q, u + v))
            elif kind == 1:
                pairs.append((p - q, u - v))
            elif kind == 2:
                pairs.append((p & q, u & v))
            elif kind == 3:
                pairs.append((p ^ q, u ^ v))
            elif kind == 4:
                pairs.append((p >> 1, u >> 1))
            else:
                pairs.append((simdram.where(p > q, p, a), numpy.where(u > v, u, self.x)))
        return pairs[-1]

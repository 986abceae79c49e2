"""The search for serial blocks: blocks that differ in names alone, blocks that differ, and the same text twice."""

import pathlib
import re
import subprocess
import tempfile
import unittest

import support
from support import needs_program

ADDER = "serial up ({c} = 0) {{ {s} = xor(xor({a}, {b}), {c}); {c} = maj({a}, {b}, {c}); }}"
OTHER = "serial up ({c} = 1) {{ {s} = xor(xor({a}, {b}), {c}); {c} = maj({a}, {b}, {c}); }}"
CHOICE = "serial up () {{ {s} = or(and({a}, {b}), and(not({a}), {c})); }}"
WIDTHS = ("1", "2", "8", "33")


def op(name, blocks):
    """An op over three words that does the blocks, each with names of its own."""
    lines = [text.format(a="a", b="b", c=f"c{k}" if "= 0" in text or "= 1" in text else "d", s=f"t{k}")
             for k, text in enumerate(blocks[:-1])]
    last = blocks[-1].format(a="b", b="d", c="e" if "= 0" in blocks[-1] or "= 1" in blocks[-1] else "a", s="y")
    return f"op {name}(a: word, b: word, d: word) -> y: word {{ {' '.join([*lines, last])} }}\n"


@needs_program
class Blocks(unittest.TestCase):
    def setUp(self):
        folder = tempfile.TemporaryDirectory()
        self.addCleanup(folder.cleanup)
        self.folder = pathlib.Path(folder.name)

    def compiled(self, text, name="prog"):
        (self.folder / "ops").write_text(text, encoding="utf-8")
        prog = self.folder / name
        subprocess.run([support.program(), "compile", self.folder / "ops", prog], check=True, capture_output=True)
        return prog

    def counts(self, prog):
        """The AAP and AP of each op, by width."""
        found = {}
        for width in WIDTHS:
            said = subprocess.run([support.program(), "cost", prog, width], check=True, capture_output=True, text=True).stdout
            for name, aap, ap in re.findall(r"^(\w+) aap=(\d+) ap=(\d+)", said, re.MULTILINE):
                found[name, width] = int(aap) + int(ap)
        return found

    def test_an_op_is_the_sum_of_its_blocks(self):
        alone = {text: self.counts(self.compiled(op("f", [text]))) for text in (ADDER, OTHER, CHOICE)}
        blocks = [ADDER, CHOICE, ADDER, OTHER, CHOICE, ADDER]
        together = self.counts(self.compiled(op("g", [CHOICE, CHOICE]) + op("f", blocks)))
        for width in WIDTHS:
            self.assertEqual(together["f", width], sum(alone[text]["f", width] for text in blocks), width)
            self.assertEqual(together["g", width], 2 * alone[CHOICE]["f", width], width)

    def test_the_same_text_gives_the_same_bytes(self):
        text = op("f", [ADDER, CHOICE, OTHER]) + op("g", [OTHER, ADDER])
        first, second = (self.compiled(text, name).read_bytes() for name in ("one", "two"))
        self.assertEqual(first, second)


if __name__ == "__main__":
    unittest.main()

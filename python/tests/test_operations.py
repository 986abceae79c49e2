"""Each word operation at widths from 1 to 128 on a compiled program, against plain arithmetic, with equal sources too."""

import pathlib
import random
import subprocess
import tempfile
import unittest

import support
from support import needs_program

from simdram.__main__ import status_of
from simdram.rules.word_ops import TAKES_GIVES, WORD_OPS, forms

WIDTHS = (*range(1, 21), 31, 32, 33, 63, 64, 65, 127, 128)
COUNT = 64


def meaning(name, n, given):
    """The results of an operation on numbers at width n."""
    found = WORD_OPS[name].value(n, *given)
    return [one % 2**n for one in (found if isinstance(found, tuple) else (found,))]


def op_of(name):
    """One op for an operation. It has a source where the operation takes none."""
    takes, gives = forms(name)[0]
    sources = ", ".join(f"{source}: {kind}" for source, kind in zip("abc", takes or ["word"]))
    results = ", ".join(f"{result}: {kind}" for result, kind in zip("yz", gives))
    return f"op o_{name}({sources}) -> {results} {{ {', '.join('yz'[:len(gives)])} = {name}({', '.join('abc'[:len(takes)])}); }}\n"


def numbers(dice, n):
    """Numbers of n bits: the least and greatest ones, short and long ones, and any."""
    edges = [0, 1, 2**n - 1, 2 ** (n - 1), 2 ** (n - 1) - 1]
    return [dice.choice([dice.choice(edges), dice.randrange(2**n), dice.randrange(2 ** dice.randint(1, n))]) for _ in range(COUNT)]


class Case:
    """All operations at one width: the numbers, the lines of a script, and what it has to print."""

    def __init__(self, n):
        dice = random.Random(n)
        self.n = n
        self.numbers = {"a": numbers(dice, n), "b": numbers(dice, n), "c": [dice.randrange(2) for _ in range(COUNT)]}
        self.lines, self.printed = [], []
        for name in TAKES_GIVES:
            takes, gives = forms(name)[0]
            self.add(name, gives, "abc"[:len(takes)])
            if takes[:2] == ["word", "word"]:
                self.add(name, gives, "aac"[:len(takes)])

    def add(self, name, gives, sources):
        results = ["yz"[k] if kind == "word" else "q" for k, kind in enumerate(gives)]
        self.lines.append(f"bbop_o_{name} {', '.join([*results, *(sources or 'a')])}, {COUNT}, {self.n}")
        columns = [self.numbers[source] for source in sources]
        values = [meaning(name, self.n, [column[k] for column in columns]) for k in range(COUNT)]
        for k, result in enumerate(results):
            self.lines.append(f"print {result}")
            self.printed.append((name, sources, result, [value[k] for value in values]))


@needs_program
class Operations(unittest.TestCase):
    def test_values_at_widths(self):
        with tempfile.TemporaryDirectory() as folder:
            work = pathlib.Path(folder)
            (work / "ops").write_text("".join(map(op_of, TAKES_GIVES)))
            for n in WIDTHS:
                with self.subTest(n=n):
                    self.compare(work, Case(n))

    def compare(self, work, case):
        sizes = {"a": case.n, "b": case.n, "y": case.n, "z": case.n, "c": 1, "q": 1}
        rows = max(64, sum(sizes.values()) + 2 * case.n + 2 + 32)
        objects = [f"{name}:{bits}=" + ",".join(map(str, case.numbers.get(name, [0] * COUNT))) for name, bits in sizes.items()]
        self.assertEqual(status_of(["image", "make", str(work / "image"), f"1x{rows}x1", *objects]), 0)
        (work / "script").write_text("".join(f"{line}\n" for line in case.lines))
        ended = subprocess.run([support.program(), "run", "ops", "prog", "script", "image", "out"], cwd=work, capture_output=True,
                               text=True, check=False)
        self.assertEqual(ended.returncode, 0, ended.stdout[-300:])
        found = [line.split(":")[1].split() for line in ended.stdout.splitlines() if ":" in line]
        self.assertEqual(len(found), len(case.printed))
        for (name, sources, result, values), line in zip(case.printed, found):
            self.assertEqual([int(one) for one in line], values, (name, sources, result))

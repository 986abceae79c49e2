"""The rows of the table of least majority graphs, against the truth tables that they are for."""

import itertools
import pathlib
import re
import unittest

SOURCE = pathlib.Path(__file__).resolve().parents[2] / "crates" / "mig_rewrite" / "src" / "forms.rt"
ROW = re.compile(r"^    0x([0-9A-F]{2})((?:_[0-9A-F]{3}){4})_([0-9A-F]),$", re.M)
INPUTS = (0x00, 0xAA, 0xCC, 0xF0)


def rows():
    """Each row as its function, its nodes' literals and its output's."""
    table = SOURCE.read_text(encoding="utf-8").split("const LEAST:")[1]
    for function, nodes, out in ROW.findall(table):
        yield int(function, 16), [[int(digit, 16) for digit in node] for node in nodes.split("_")[1:]], int(out, 16)


def function_of(nodes, out):
    """The truth table of a graph over three inputs; a literal of a node that stands later is an error."""
    values = list(INPUTS)

    def value(literal):
        return values[literal // 2] ^ (0xFF if literal % 2 else 0)

    for a, b, c in (tuple(map(value, node)) for node in nodes):
        values.append(a & b | a & c | b & c)
    return value(out)


def class_of(function):
    """The least number of a function under the orders and complements of inputs, and the complement of the output."""
    found = []
    for order, flips in itertools.product(itertools.permutations(range(3)), range(8)):
        turned = 0
        for x in range(8):
            y = x ^ flips
            place = sum((y >> order[k] & 1) << k for k in range(3))
            turned |= (function >> place & 1) << x
        found += [turned, turned ^ 0xFF]
    return min(found)


class LeastGraphs(unittest.TestCase):
    """The table of `mig_rewrite`."""

    def test_each_row_has_its_function(self):
        for function, nodes, out in rows():
            with self.subTest(function=function, nodes=nodes):
                self.assertEqual(function_of(nodes, out), function)

    def test_each_class_has_a_row(self):
        classes = {class_of(function) for function in range(256)}
        self.assertEqual({function for function, _, _ in rows()}, classes)
        self.assertEqual(len(classes), 14)

    def test_a_class_has_rows_of_one_size(self):
        sizes = {}
        for function, nodes, _ in rows():
            sizes.setdefault(function, set()).add(sum(node != [0, 0, 0] for node in nodes))
        self.assertTrue(all(len(size) == 1 for size in sizes.values()))


if __name__ == "__main__":
    unittest.main()

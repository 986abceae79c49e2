"""Entries on columns: each row is a number with a bit for each column."""

import pathlib
import sys

sys.path.append(str(pathlib.Path(__file__).resolve().parent.parent / "python"))

from simdram.assembler.walks import walk  # noqa: E402
from simdram.files.decode import CELLS, RAISED  # noqa: E402
from simdram.files.program import B_ADDRESS, C_ADDRESS, RESULT, SOURCE  # noqa: E402


def run(entry, n, sources, full, start):
    """The results' rows after an entry, whose rows are numbers with a bit a column; `start` gives what a cell or row holds."""
    held = {}

    def lines(place):
        space, which, index = place
        if space == B_ADDRESS:
            return [(("cell", CELLS.index(line.cell), 0), line.inverted) for line in RAISED[which]]
        return [((space, which, index), False)]

    def read(key):
        if key not in held:
            held[key] = (sources[key[1]][key[2]] if key[0] == SOURCE else start())
        return held[key]

    def sensed(place):
        if place[0] == C_ADDRESS:
            return full * place[1]
        values = [read(key) ^ full * inverted for key, inverted in lines(place)]
        return values[0] if len(values) == 1 else values[0] & values[1] | values[2] & (values[0] | values[1])

    for command in walk(entry, n):
        value = sensed(command[0])
        for place in command:
            held.update({key: value ^ full * inverted for key, inverted in lines(place) if place[0] != C_ADDRESS})
    rows = [(RESULT, k, i) for k, kind in enumerate(entry.results) for i in range(n if kind == "word" else 1)]
    return [read(row) for row in rows]


def sources_of(entry, n):
    """Each source's rows, over all numbers of all sources, and the row of ones."""
    widths = [n if kind == "word" else 1 for kind in entry.sources]
    columns = 1 << sum(widths)
    place, found = 0, []
    for width in widths:
        found.append([sum((column >> place + i & 1) << column for column in range(columns)) for i in range(width)])
        place += width
    return found, (1 << columns) - 1

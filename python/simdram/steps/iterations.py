"""The bits of cells and rows in each iteration of a part, where numbers are given for an operation's operands."""

import bisect
import typing

from ..assembler.at_width import branch, one_width, other_width
from ..files.decode import CELLS
from ..files.program import REGISTERS, RESULT, SOURCE, Entry, Row
from ..launcher.faults import Fault
from .board import LETTER, letter
from .code_parts import Part
from .one_column import Column, numbers_of
from .op_texts import OpText
from .positions import of_rows
from .row_names import RowNames

# how many iterations of a part are kept
MOST = 300


def counted(iterations: typing.Sequence[typing.Any]) -> str:
    """How many iterations are kept of a part."""
    return f"{'the first ' if len(iterations) == MOST else ''}{len(iterations)}"


def shown(bit: int | None) -> str:
    return "?" if bit is None else str(bit)


def runs_of(path: typing.Sequence[int], first: int, last: int) -> list[list[int]]:
    """Each run of a loop: of its iterations when each began."""
    runs: list[list[int]] = []
    for when, at in enumerate(path):
        if at == first and when and first <= path[when - 1] <= last:
            runs[-1].append(when)
        elif at == first:
            runs.append([when])
    return runs


def inside(runs: dict[tuple[int, int], list[list[int]]], when: int) -> str:
    """In which iteration of each loop around it a part is executed."""
    said = []
    for (first, _), each in runs.items():
        run = next(run for run in reversed(each) if run[0] <= when)
        said.append(f"{bisect.bisect_right(run, when)} of {len(run)} of the loop at {first}")
    return ", ".join(said)


class Execution:
    """One execution of an entry on a column: what stands after each row command."""

    def __init__(self, entry: Entry, width: int, numbers: typing.Sequence[int], rows: RowNames,
                 ones: typing.Collection[str] | None = None) -> None:
        column = Column(entry, width, numbers, ones).run()
        self.width, self.path, self.begun = width, column.path, column.begun
        sources, results = ([rows.base(Row(space, which, REGISTERS)) for which in range(count)]
                            for space, count in ((SOURCE, len(numbers)), (RESULT, len(entry.results))))
        given = ", ".join(f"{name} = {number}" for name, number in zip(sources, numbers))
        found = ", ".join(f"{name} = {column.result(which)}" for which, name in enumerate(results))
        begun = "" if ones is None else f" from {' '.join(ones) or 'zeros'}"
        self.said = f"{given} at the width {width}{begun}: {found}"

    def iterations(self, part: Part, done: typing.Sequence[typing.Any]) -> list[dict[str, typing.Any]]:
        """For each time that a part is executed, its registers at the start, what its subscripts are counted from, and the bits
        after each of its commands."""
        runs, found = {loop: runs_of(self.path, *loop) for loop in part.loops}, []
        for begun in self.begun[part.first][:MOST]:
            known, places, bits = {}, {}, []
            for step, moment in zip(done, begun.moments):
                known.update(zip(CELLS, map(shown, moment.cells)))
                places.update(zip(step.of_rows, moment.places))
                held = dict(zip(moment.places, map(shown, moment.rows)))
                known.update((name, held[place]) for name, place in places.items() if place in held)
                bits.append(dict(known))
            found.append({"registers": begun.registers, "held": counted_by(part, begun.registers), "inside": inside(runs, begun.when),
                          "bits": bits})
        for k, one in enumerate(found):
            if one["inside"] == f"{k + 1} of {len(found)} of the loop at {part.loops[0][0] if part.loops else ''}":
                one["inside"] = ""
        return found


def counted_by(part: Part, registers: typing.Sequence[int]) -> list[tuple[str, int]]:
    """What the subscripts of a part are counted from, and its number where the registers hold these at its start."""
    if one := letter(part.code, part.held):
        return [(LETTER, registers[int(one[0][1:])] + one[1])]
    names = dict.fromkeys(name for form in of_rows(part.code, part.held) for name in form.variables)
    return [(name, registers[int(name[1:])]) for name in names]


def execution(entry: Entry, text: OpText | None, numbers: str, width: int | None, ones: typing.Collection[str] | None = None) -> Execution:
    """The execution of what an entry does at the width of numbers that are given by the operands' names, from a start at which
    these cells and rows hold 1 and the others 0, or, where none are given, are not known."""
    rows = text.names() if text else RowNames(None)
    names = [rows.base(Row(SOURCE, which, REGISTERS)) for which in range(len(entry.sources))]
    values, chosen = numbers_of(numbers, names, entry.sources, width or one_width(entry))
    if other := other_width(entry, chosen):
        raise Fault(f"{other}, and not for {chosen}")
    return Execution(branch(entry, chosen), chosen, values, rows, ones)

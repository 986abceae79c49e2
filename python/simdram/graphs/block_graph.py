"""Graphs of a serial block: as it is written, and of the loop that it is compiled to, with a node for each triple activation.

An input is a word at the position, a bit, or a state: the op's parameters, whether the block reads them or not, what else it
reads, and its states, in this order. An output is an assigned word at the position, or a state's next value, as `c_next`. Over
several positions a word has a number for each, as `a_0`.
"""

import itertools
import re
import typing

from ..files.decode import CELLS
from ..launcher.faults import Fault
from ..launcher.settings import Settings
from ..rules.op_tree import BIT, Op, OpShape, StatementShape
from ..rules.ops_rules import RESULTS, SOURCES, op_shape
from ..steps import op_texts
from ..steps.board import Board, done_by, over
from ..steps.cell_values import ALL, Names, drawn
from ..steps.code_parts import WIDEST, Part, parts
from ..steps.op_texts import OpText
from ..steps.row_names import RowNames
from .mig import ONE, ZERO, Graph

SUBSCRIPT = re.compile(r"\[i([+-]\d+)?\]$")


def read_names(block: StatementShape) -> list[str]:
    """The names that a block reads and does not set before: words, bits and states."""
    names = (name for each in (*block.lets.values(), *block.assignments.values()) for name in each.names())
    return [name for name in dict.fromkeys(names) if name not in block.lets]


def positions_of(name: str, position: int, positions: int) -> str:
    """A word's name at one of an iteration's positions."""
    return f"{name}_{position}" if positions > 1 else name


def written(block: StatementShape, shape: OpShape, positions: int = 1) -> Graph:
    """The graph of a block as it is written, over so many positions."""
    graph, states = Graph(), {}
    others = [name for name in read_names(block) if name not in block.starts]
    inputs = list(dict.fromkeys([*shape.sources, *others, *block.starts]))
    is_bit = {name for name, kind in shape.defined.items() if kind == "bit"} | set(block.starts)
    for k in range(positions):
        values = {"0": 0, "1": 1}
        values.update({name: states[name] if name in states else graph.input(name if name in is_bit else positions_of(name, k, positions))
                       for name in inputs})
        for name, expr in block.lets.items():
            values[name] = expr.computed(values.__getitem__, graph.gate)
        found = {name: expr.computed(values.__getitem__, graph.gate) for name, expr in block.assignments.items()}
        states.update((name, found[name]) for name in found if name in block.starts)
        graph.outputs.update((positions_of(name, k, positions), one) for name, one in found.items() if name not in block.starts)
    graph.outputs.update((f"{name}_next", one) for name, one in states.items())
    return graph


class Compiled(typing.NamedTuple):
    """The graph of a loop, how many positions an iteration goes through, and the outputs that it does not compute."""

    graph: Graph
    positions: int
    left_out: list[str]

    def agrees(self, other: Graph) -> bool:
        """Whether its outputs are those of another graph, on drawn patterns of the inputs."""
        inputs = {name: drawn(name) for name in (*self.graph.inputs, *other.inputs)}
        expected = other.values(inputs, ALL)
        return all(expected.get(name) == value for name, value in self.graph.values(inputs, ALL).items())


class Kept(typing.NamedTuple):
    """What a cell keeps at the start of a loop: a state, or its complement."""

    name: str
    is_turned: bool


class GraphBoard(Board):
    """A board whose cells and rows hold literals of a graph."""

    constants = (ZERO, ONE)

    def __init__(self, part: Part, rows: RowNames, cells: dict[str, int], graph: Graph, name_of) -> None:
        super().__init__(part, rows, Names({}, WIDEST))
        self.cells = {**dict.fromkeys(CELLS), **cells}
        self.graph, self.name_of = graph, name_of

    def turned(self, value: int | None, is_inverted: bool) -> int | None:
        return None if value is None else value ^ is_inverted

    def begun(self, name: str) -> int:
        return self.graph.input(self.name_of(name))

    def voted(self, values: list[int | None]) -> int | None:
        """The majority, where no cell that nothing has set decides it."""
        known = [one for one in values if one is not None]
        if len(known) == 3:
            return self.graph.maj(*values)
        return known[0] if len(known) == 2 and known[0] == known[1] else None

    def put(self, name: str, value: int | None) -> None:
        self.rows[name] = value
        self.written.add(name)


def alone(block: StatementShape, shape: OpShape) -> str:
    """The text of an op that is this block alone."""
    takes = [one for one in read_names(block) if one not in block.starts]
    kinds = {**shape.defined, **dict.fromkeys(block.starts, BIT)}
    words = [one for one in block.assignments if one not in block.starts]
    if not 1 <= len(takes) <= SOURCES or len(words) > RESULTS:
        raise Fault(f"the block reads {len(takes)} words and bits and sets {len(words)} words; to show its loop there may be "
                    f"1 to {SOURCES}, and at most {RESULTS}")
    params, results = (tuple((one, kinds[one]) for one in names) for names in (takes, [*words, *block.starts][:RESULTS]))
    return Op(shape.name, params, results, [block.tree()]).text()


def as_compiled(block: StatementShape, shape: OpShape, data: bytes, settings: Settings) -> Compiled:
    """The graph of the loop that a block is compiled to in its op; where that loop has other statements too, of the loop that
    it is compiled to alone."""
    try:
        return of_statement(block, shape, shape.statements.index(block), data, settings)
    except Fault:
        return of_statement(block, shape, 0, alone(block, shape).encode(), settings)


def of_statement(block: StatementShape, shape: OpShape, number: int, data: bytes, settings: Settings) -> Compiled:
    """The graph of the loop of a statement of the op as this text has it."""
    text = OpText(op_shape("the operation text", data, shape.name), data)
    found, rows = text.parts(parts(op_texts.compiled(data, settings).find(shape.name).code)), text.names()
    held = over(found, rows)
    if not (loops := [k for k, part in enumerate(found) if part.loops and number in part.statements]):
        raise Fault(f"no loop of {shape.name} is of this block")
    k = next((k for k in loops if found[k].again), loops[0])
    texts = {cell: value.text.replace("old ", "").replace("[0]", "") for cell, value in held[k].items()}
    states = {cell: Kept(text.lstrip("~"), text.startswith("~")) for cell, text in texts.items()}
    return named(block, shape, found[k], rows, states)


def named(block: StatementShape, shape: OpShape, part: Part, rows: RowNames, states: dict[str, Kept]) -> Compiled:
    """The graph of a part, where a state that goes to no row, and so has no name of its own in the cells, is found by trying
    which of the block's states it is, or the complement of which: the one with which the graph is that of the block."""
    names = {name for name, _ in states.values()}
    unnamed, missing = sorted(names - set(block.starts)), [name for name in block.starts if name not in names]
    if not unnamed:
        return of_part(block, shape, part, rows, states)
    for those in itertools.permutations(missing, len(unnamed)):
        for turned in itertools.product((False, True), repeat=len(unnamed)):
            called = {**{name: Kept(name, False) for name in names}, **dict(zip(unnamed, map(Kept, those, turned)))}
            tried = {cell: Kept(called[name].name, is_turned != called[name].is_turned) for cell, (name, is_turned) in states.items()}
            made = of_part(block, shape, part, rows, tried)
            if made.agrees(written(block, shape, made.positions)):
                return made
    raise Fault(f"the loop of {shape.name} keeps states in cells that are not the block's states: it has no graph of the block")


def of_part(block: StatementShape, shape: OpShape, part: Part, rows: RowNames, states: dict[str, Kept]) -> Compiled:
    """The graph of one execution of a part, whose cells hold these states at its start."""
    offsets = sorted({int(SUBSCRIPT.search(name)[1] or 0) for name in done_by(part, rows, {}).rows if SUBSCRIPT.search(name)},
                     reverse=block.direction == "down")

    def name_of(name: str) -> str:
        match = SUBSCRIPT.search(name)
        return positions_of(name[:match.start()], offsets.index(int(match[1] or 0)), len(offsets)) if match else name

    graph, asked = Graph(), written(block, shape, len(offsets))
    for name in asked.inputs:
        graph.input(name)
    cells = {cell: graph.input(name) ^ is_turned for cell, (name, is_turned) in states.items()}
    board = GraphBoard(part, rows, cells, graph, name_of)
    for one in part.code:
        board.do(one)
    found = {name_of(name) if SUBSCRIPT.search(name) else f"{name}_next": board.rows[name] for name in board.written}
    for cell, (name, is_turned) in states.items():
        found.setdefault(f"{name}_next", board.cells[cell] ^ is_turned)
    if others := [name for name in graph.inputs if name not in asked.inputs]:
        raise Fault(f"the loop of {shape.name} reads {others[0]}, which the block as it is written does not read: it has no graph of the block")
    graph.outputs = {name: found[name] for name in asked.outputs if name in found}
    return Compiled(graph, len(offsets), [name for name in asked.outputs if name not in found])

"""What cells hold where a part of a microprogram begins: which are 0 or 1, and which hold one value, or its complement."""

import itertools
import typing

from ..assembler.loops_and_ways import Code, outline
from ..files.decode import CELLS
from .board import done_by, over
from .cell_values import ALL, ZERO, Value, complemented, drawn
from .code_parts import Part
from .positions import after, fixed_point, follow, held_at, pieces
from .row_names import RowNames

CONSTANT = "0"
# of each cell whose value it has, the constant's or that of the first cell with it, and whether it has its complement
Known = tuple[tuple[str, bool], ...]
START: Known = tuple((cell, False) for cell in CELLS)


def value_of(base: str, is_turned: bool) -> Value:
    """What a cell holds, in the name of the first cell that holds it."""
    return complemented(ZERO if base == CONSTANT else Value(f"old {base}", drawn(f"cell {base}")), is_turned)


def named(keys: typing.Sequence[tuple[typing.Hashable, bool]], zero: typing.Hashable) -> Known:
    """What is known of cells whose values have these keys: equal ones are one value, or its complement."""
    found: dict[typing.Hashable, tuple[str, bool]] = {zero: (CONSTANT, False)}
    made = []
    for cell, (key, is_turned) in zip(CELLS, keys):
        base, base_is_turned = found.setdefault(key, (cell, is_turned))
        made.append((base, is_turned != base_is_turned))
    return tuple(made)


def both(one: Known, other: Known) -> Known:
    """What is known of the cells whichever of two is so."""
    return named([((left, right, left_turned != right_turned), left_turned)
                  for (left, left_turned), (right, right_turned) in zip(one, other)], (CONSTANT, CONSTANT, False))


def known_at(code: Code, rows: RowNames) -> dict[int, Known]:
    """What is known of the cells where each piece of the code begins."""
    ends, held = dict(pieces(code)), held_at(code)
    # where what follows the last round of a loop goes on: after the loop, where the rest of it has no row commands
    on = {past - 1: one.last + 1 for one in outline(code).loops for _, past in one.ends
          if code[past - 1].number <= one.last and not any(each.rows for each in code[code[past - 1].number:one.last])}

    def goes_on(first: int, known: Known) -> list[tuple[int, Known]]:
        past = ends[first]
        part = Part(first, tuple(code[first:past]), "", False, held=held[first])
        board = done_by(part, rows, {cell: value_of(*one) for cell, one in zip(CELLS, known)})
        patterns = [board.cells[cell].pattern or 0 for cell in CELLS]
        left = named([(min(pattern, pattern ^ ALL), pattern > pattern ^ ALL) for pattern in patterns], 0)
        places = follow(code, past - 1, after(part.code, part.held))
        return [(on.get(past - 1, to) if to != past else to, left) for to in places]

    return fixed_point(START, goes_on, both)


def agrees(states: dict[str, Value], held: dict[str, Value]) -> bool:
    """Whether cells that hold one state, or its complement, always do so."""
    pairs = ((states[one].pattern ^ states[other].pattern, held[one].pattern ^ held[other].pattern)
             for one, other in itertools.combinations(states, 2))
    return all(known == asked for asked, known in pairs if asked in (0, ALL))


def before(code: Code, found: list[Part], rows: RowNames) -> list[dict[str, Value]]:
    """What the cells that a part reads before it writes them hold where it begins: by the names of states where it is always
    so, and else by the names of cells."""
    known, made = known_at(code, rows), []
    for part, states in zip(found, over(found, rows)):
        board = done_by(part, rows, {})
        held = {cell: value_of(*one) for cell, one in zip(CELLS, known.get(part.first, START))}
        made.append({cell: held[cell] for cell in CELLS if cell in board.taken})
        made[-1].update(states if agrees(states, held) else {})
    return made

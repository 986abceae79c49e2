"""The parts of a microprogram: its code cut where it can jump or be jumped to, and of which statements each part is."""

import dataclasses

from ..assembler.loops_and_ways import Outline, around, outline
from ..files.program import AAP, ADDI, INDEXED, REGISTERS, SUBI, Instruction
from ..rules.op_tree import OpShape
from ..rules.tokens import line_of
from .positions import UNKNOWN, Held, counted_from, held_at, pieces
from .row_names import RowNames

WIDEST = 100
LONGEST_TITLE = 160
STATEMENT_SHOWN = 60


@dataclasses.dataclass(frozen=True)
class Part:
    """A part of the code: its first instruction, its instructions, how it is repeated, whether it alone follows itself, whether
    the part before stands in its place in the last round, of which statements it is, the loops around it, each from its first
    instruction to its last, the outermost first, and what the registers hold where it begins."""

    first: int
    code: tuple[Instruction, ...]
    said: str
    again: bool
    has_last: bool = False
    statements: tuple[int, ...] = ()
    what: str = ""
    loops: tuple[tuple[int, int], ...] = ()
    held: Held = UNKNOWN
    # where its first instruction stands in the text of the microprogram, where that is at hand
    place: str = ""

    def head(self) -> str:
        """Where it begins, and how it is repeated."""
        return f"from instruction {self.first}{self.place}, {self.said}"

    def title(self) -> str:
        """Its first line, cut where it is long."""
        text = f"{self.head()}{': ' if self.what else ''}{self.what}"
        return text if len(text) <= LONGEST_TITLE else text[:LONGEST_TITLE - 2] + ".."


def subscripts(code) -> set[int]:
    """The registers that are subscripts of rows."""
    return {row.index for one in code for row in one.rows if row.space in INDEXED and row.index < REGISTERS}


def direction(code, used: set[int]) -> list[str]:
    """Whether a loop goes up or down: what it adds to the registers that are subscripts in it."""
    kinds = {one.kind for one in code if one.kind in (ADDI, SUBI) and one.register in used}
    return {frozenset((ADDI,)): ["upwards"], frozenset((SUBI,)): ["downwards"]}.get(frozenset(kinds), [])


def part_at(code, found: Outline, first: int, past: int) -> Part:
    loops, said = around(found.loops, first, past), found.said(first, past)
    if not loops:
        return Part(first, code[first:past], ", ".join(said) or "once", False)
    inner = loops[-1]
    if not inner.is_last(first):
        said += direction(code[inner.first:inner.last + 1], subscripts(code[first:past]))
    has_last = any(first == to for _, to in inner.ends)
    ends_it = not any(one.rows for one in code[past:inner.last])
    again = len(inner.turns) == 1 and ends_it and (has_last or inner.first == first)
    return Part(first, code[first:past], ", ".join(said), again, has_last, loops=tuple((one.first, one.last) for one in loops))


def parts(code) -> list[Part]:
    """The pieces of the code that have row commands."""
    found = outline(code)
    held, made = held_at(code), []
    for first, past in pieces(code):
        if any(one.rows for one in code[first:past]):
            start = counted_from(held.get(first, UNKNOWN), sorted(subscripts(code[first:past])))
            made.append(dataclasses.replace(part_at(code, found, first, past), held=start))
    return made


def with_statements(found: list[Part], names: RowNames, shape: OpShape, data: bytes) -> list[Part]:
    """The parts, each with its statements; one that sets no name is of the statement that is done next, or else of the last."""
    written = [{names.base(one.rows[1]) for one in part.code if one.kind == AAP} for part in found]
    own = [tuple(k for k, one in enumerate(shape.statements) if its & set(one.targets)) for its in written]
    made = []
    for k, part in enumerate(found):
        after = next((mine[:1] for mine in own[k:] if mine), ())
        before = next((mine[-1:] for mine in reversed(own[:k]) if mine), ())
        mine = own[k] or after or before
        what = "; ".join(statement_text(shape, number, data) for number in mine)
        made.append(dataclasses.replace(part, statements=mine, what=what))
    return made


def statement_text(shape: OpShape, number: int, data: bytes) -> str:
    """A statement with its line, cut where it is long."""
    one = shape.statements[number]
    text = " ".join(data[one.first.at:one.last.at + len(one.last.text)].decode("utf-8", "replace").split())
    if one.direction:
        text = text.partition("{")[0].strip() + " { .. }"
    cut = text if len(text) <= STATEMENT_SHOWN else text[:STATEMENT_SHOWN - 3] + ".."
    return f"line {line_of(data, one.first.at)}, {cut}"

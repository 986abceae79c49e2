"""What cells and rows hold while a part of a microprogram is executed, by symbols."""

import typing

from ..assembler.forms import N, Form
from ..assembler.walks import Registers
from ..files.decode import CELLS, RAISED
from ..files.program import AAP, B_ADDRESS, C_ADDRESS, Instruction, Row
from .cell_values import ALL, ONE, UNKNOWN, ZERO, Names, Value, complemented, majority, now_value, old_value, row_value
from .code_parts import WIDEST, Part
from .positions import Held, may_be_equal, of_rows
from .row_names import RowNames

LETTER = "i"


def letter(code, held: Held) -> tuple[str, int] | None:
    """The register that is i in a part, and by how much more than at its start: the only one that its rows' positions are
    counted from, at the place of its rows where these are at one place."""
    forms = [form for form in of_rows(code, held) if form.variables]
    bases = {name for form in forms for name in form.variables}
    if len(bases) != 1 or any(form.times(name) != 1 or len(form.terms) != 1 for form in forms for name in bases):
        return None
    offsets = {form.number for form in forms}
    return bases.pop(), offsets.pop() if len(offsets) == 1 else 0


class Board:
    """What cells and rows hold while a part is done: values here, and in a class below it others, by other constants, `turned`,
    `voted`, `begun` and `put`."""

    constants: tuple[typing.Any, typing.Any] = (ZERO, ONE)
    # what an n-wordline reads or writes of a value
    turned = staticmethod(complemented)

    def __init__(self, part: Part, rows: RowNames, names: Names, taken: dict[str, Value] | None = None, changing=()) -> None:
        self.registers, self.letter = Registers(Form.of(N), part.held), letter(part.code, part.held)
        self.cells = {**dict.fromkeys(CELLS, UNKNOWN), **(taken or {})}
        self.fresh, self.taken = set(CELLS), set()
        self.rows: dict[str, Value] = {}
        # of each row that a command names, its space, which one of it, and its position
        self.places: dict[str, tuple[int, int, Form]] = {}
        # which of them were read before they were written, and which were written
        self.found: set[str] = set()
        self.written: set[str] = set()
        # the rows that the part writes, or may write by another name: what they hold before has another name than the row
        self.changing = frozenset(changing)
        self.unsure = 0
        self.row_names, self.names = rows, names

    def position(self, form: Form) -> str:
        if self.letter and form.times(self.letter[0]):
            form = form.put(self.letter[0], Form.of(LETTER) - self.letter[1])
        return str(form).replace(" ", "")

    def name(self, row: Row) -> str:
        form = self.registers.index(row)
        name = self.row_names.text(row, lambda _: self.position(form))
        self.places[name] = (row.space, row.which, form)
        return name

    def others(self, name: str) -> list[str]:
        """The other names that were read or written whose row may be this one, by its position."""
        space, which, form = self.places[name]
        return [other for other in self.rows if other != name and self.places[other][:2] == (space, which)
                and may_be_equal(self.places[other][2], form)]

    def voted(self, values: list[typing.Any]) -> typing.Any:
        return self.names.named(majority(values))

    def begun(self, name: str) -> typing.Any:
        """What a row holds that is read before it is written."""
        return self.names.named(self.before(name))

    def sensed(self, row: Row) -> typing.Any:
        """What an activation of a row senses and leaves in its cells."""
        if row.space == C_ADDRESS:
            return self.constants[row.which]
        if row.space != B_ADDRESS:
            if (name := self.name(row)) not in self.rows:
                self.found.add(name)
                self.rows[name] = self.begun(name)
            return self.rows[name]
        self.taken.update(line.cell for line in RAISED[row.which] if line.cell in self.fresh)
        values = [self.turned(self.cells[cell], is_inverted) for cell, is_inverted in RAISED[row.which]]
        value = self.voted(values) if len(values) == 3 else values[0]
        self.settle(row, value)
        return value

    def before(self, name: str) -> Value:
        """What a row holds that the part has not named before."""
        if any(other in self.written for other in self.others(name)):
            return self.now(name)
        return old_value(name) if name in self.changing else row_value(name)

    def now(self, name: str) -> Value:
        """What a row holds after a row was written that it may be."""
        self.unsure += 1
        return now_value(name, self.unsure)

    def put(self, name: str, value: typing.Any) -> None:
        self.rows[name] = value
        self.written.add(name)
        for other in self.others(name):
            if self.rows[other].pattern != value.pattern:
                self.rows[other] = self.now(other)

    def settle(self, row: Row, value: typing.Any) -> None:
        if row.space != B_ADDRESS:
            self.put(self.name(row), value)
            return
        for cell, is_inverted in RAISED[row.which]:
            self.cells[cell] = self.turned(value, is_inverted)
            self.fresh.discard(cell)

    def do(self, one: Instruction) -> bool:
        """Does an instruction; whether it was a row command."""
        self.registers.do(one)
        if not one.rows:
            return False
        value = self.sensed(one.rows[0])
        if one.kind == AAP:
            self.settle(one.rows[1], value)
        return True

    def whole(self, code) -> "Board":
        for one in code:
            self.do(one)
        return self


def changing(board: Board) -> set[str]:
    """The names of the rows that a whole part has written, or may have written by other names."""
    return {name for name in board.rows if name in board.written or any(other in board.written for other in board.others(name))}


def groups(end: dict[str, Value], cells) -> dict[str, tuple[str, bool]]:
    """Of each of these cells the first one that ends with the same value or its complement, and whether it is that."""
    found: dict[str, tuple[str, bool]] = {}
    for cell in cells:
        same = ((other, end[cell].pattern == end[other].pattern ^ ALL) for other in found
                if end[cell].pattern in (end[other].pattern, end[other].pattern ^ ALL))
        found[cell] = next(((found[other][0], turned != found[other][1]) for other, turned in same), (cell, False))
    return found


def done_by(part: Part, rows: RowNames, held: dict[str, Value]) -> Board:
    """What cells and rows hold after a part that finds these values in cells."""
    return Board(part, rows, Names({}, WIDEST), held).whole(part.code)


def put_by(part: Part, rows: RowNames, held: dict[str, Value], wanted: dict[str, Value]) -> dict[str, tuple[str, bool]]:
    """The row's name for each of these values, by its key, that a part puts into a row, and whether it puts the complement
    there."""
    board, found = Board(part, rows, Names({}, WIDEST), held), {}
    for one in part.code:
        board.do(one)
        if one.kind == AAP and one.rows[1].space not in (B_ADDRESS, C_ADDRESS):
            value = board.rows[board.name(one.rows[1])]
            for key, other in wanted.items():
                if value.pattern is not None and value.pattern in (other.pattern, other.pattern ^ ALL):
                    found.setdefault(key, (board.name(one.rows[1]), value.pattern != other.pattern))
    return found


def state_value(name: str, taken: set[str]) -> Value:
    """A state that goes to no row, with strokes where rows have its name."""
    return row_value(name) if name not in taken else state_value(f"{name}'", taken)


def over(found: list[Part], rows: RowNames) -> list[dict[str, Value]]:
    """What the cells hold at the start of each part: states that a loop takes over from one position to the next. Each has the
    name of the row that it goes to after the loop, or at the last position."""
    made: list[dict[str, Value]] = [{} for _ in found]
    boards = [done_by(part, rows, {}) for part in found]
    for k, part in enumerate(found):
        if not part.again:
            continue
        board = done_by(part, rows, {cell: row_value(f"{cell} before") for cell in CELLS})
        taken = [cell for cell in CELLS if cell in board.taken]
        same = groups(board.cells, taken)
        held = {cell: row_value(f"{first} before") for cell, (first, _) in same.items()}
        turned = {cell: complemented(held[cell], same[cell][1]) for cell in taken}
        after = {cell: turned[other] for cell in CELLS for other in taken if board.cells[cell].pattern == board.cells[other].pattern}
        names: dict[str, tuple[str, bool]] = {}
        if part.has_last:
            ends = done_by(part, rows, turned).cells
            names = put_by(found[k - 1], rows, turned, {first: ends[first] for first, _ in same.values()})
        elif k + 1 < len(found) and not found[k + 1].again:
            names = put_by(found[k + 1], rows, after, {first: row_value(f"{first} before") for first, _ in same.values()})
        beside = [boards[at] for at in (k, k - 1 if part.has_last else k + 1) if at < len(found)]
        for number, first in enumerate(sorted({first for first, _ in same.values()})):
            name, is_turned = names.get(first, ("", False))
            held_before = old_value(name)
            if not name or any(name in one.found for one in beside):
                held_before, is_turned = state_value(f"s{number or ''}", {name for one in beside for name in one.rows}), False
            value = complemented(held_before, is_turned)
            for cells, at in ((turned, k), (turned, k - 1)) if part.has_last else ((turned, k), (after, k + 1)):
                for cell, old in cells.items():
                    if old.text.lstrip("~") == f"{first} before" and at < len(found):
                        made[at][cell] = complemented(value, old.text.startswith("~"))
    return made

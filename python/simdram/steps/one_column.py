"""One column of a chip while a microprogram is executed: the bit of each cell and row, from numbers for the operands."""

import re
import typing

from ..assembler.names import listed
from ..assembler.walks import Place, Registers
from ..files.decode import CELLS, RAISED
from ..files.program import AAP, AP, B_ADDRESS, BIT, C_ADDRESS, DONE, RESULT, SOURCE, SPILL, SPILLS, WORD, Entry, Row
from ..launcher.faults import Fault
from .positions import pieces

Bit = int | None
ROW = re.compile(r"(\w+)(?:\[(\d+)\])?")
MOST_INSTRUCTIONS = 1_000_000


class Moment(typing.NamedTuple):
    """After a row command: the cells' bits, the places of the command's data rows, and their bits."""

    cells: tuple[Bit, ...]
    places: tuple[Place, ...]
    rows: tuple[Bit, ...]


class Begun(typing.NamedTuple):
    """A time that a part of the code is executed: how many instructions were before, what the registers held, and what stands
    after each of its row commands."""

    when: int
    registers: tuple[int, ...]
    moments: list[Moment]


class Column:
    """The cells and rows of a column, and the places of the instructions that were executed. A bit that nothing has set is
    None; but where it is said which cells and rows hold 1 at the start, the others hold 0."""

    def __init__(self, entry: Entry, width: int, numbers: typing.Sequence[int], ones: typing.Collection[str] | None = None) -> None:
        self.entry, self.width = entry, width
        self.unset: Bit = None if ones is None else 0
        self.cells: dict[str, Bit] = dict.fromkeys(CELLS, self.unset)
        self.rows: dict[Place, Bit] = {}
        for name in ones or ():  # cells and rows that hold 1 at the start, named as verdicts name them
            if name in self.cells:
                self.cells[name] = 1
            else:
                self.rows[place_of(name, entry, width)] = 1
        self.registers = Registers(width)
        self.path: list[int] = []
        # of each part by its first instruction the times that it is executed
        self.begun: dict[int, list[Begun]] = {first: [] for first, _ in pieces(entry.code)}
        for which, number in enumerate(numbers):
            self.rows.update(((SOURCE, which, k), number >> k & 1) for k in range(width))

    def sensed(self, row: Row) -> Bit:
        """What an activation senses, and leaves in the cells that it opens."""
        if row.space == C_ADDRESS:
            return row.which
        if row.space != B_ADDRESS:
            return self.rows.get(self.registers.place(row), self.unset)
        bits = [inverted(self.cells[cell], turned) for cell, turned in RAISED[row.which]]
        value = bits[0] if len(bits) == 1 else majority(bits)
        self.settle(row, value)
        return value

    def settle(self, row: Row, value: Bit) -> None:
        if row.space != B_ADDRESS:
            self.rows[self.registers.place(row)] = value
            return
        for cell, turned in RAISED[row.which]:
            self.cells[cell] = inverted(value, turned)

    def run(self) -> "Column":
        at = 0
        while self.entry.code[at].kind != DONE:
            one = self.entry.code[at]
            if at in self.begun:
                moments: list[Moment] = []
                self.begun[at].append(Begun(len(self.path), tuple(self.registers.held), moments))
            self.path.append(at)
            if len(self.path) == MOST_INSTRUCTIONS:
                raise Fault(f"{self.entry.name} executes over {MOST_INSTRUCTIONS:,} instructions at the width {self.width}")
            if one.kind in (AAP, AP):
                value = self.sensed(one.rows[0])
                if one.kind == AAP:
                    self.settle(one.rows[1], value)
                places = tuple(self.registers.place(row) for row in one.rows if row.is_data)
                moments.append(Moment(tuple(self.cells.values()), places, tuple(self.rows.get(place, self.unset) for place in places)))
            at = self.registers.next(at, one)
        return self

    def result(self, which: int) -> str:
        """The number of a result, or its bits from the top where some bit was never set."""
        count = self.width if self.entry.results[which] == "word" else 1
        bits = [self.rows.get((RESULT, which, k), self.unset) for k in range(count)]
        if None in bits:
            return "".join("?" if bit is None else str(bit) for bit in reversed(bits))
        return str(sum(bit << k for k, bit in enumerate(bits)))


def place_of(name: str, entry: Entry, width: int) -> Place:
    """The place of a row that is named as a listing names it, with its position: `y[3]`, `t0`, `w0[3]`, `p4`."""
    match = ROW.fullmatch(name)
    space, which = (listed(match[1]) if match else None) or (SOURCE, 0)
    index = int(match[2] or 0) if match else 0
    counts = {RESULT: len(entry.results), BIT: entry.bits, WORD: entry.words, SPILL: SPILLS}
    positions = {RESULT: width if entry.results[which:which + 1] == ("word",) else 1, WORD: width}
    if which >= counts.get(space, 0) or index >= positions.get(space, 1):
        raise Fault(f"{name} is no cell and no row of {entry.name} at the width {width} that may hold 1 at the start: these are "
                    f"{', '.join(CELLS)}, and y[0], z[0], t0, w0[0], p0 and on, as `list` names them")
    return space, which, index


def inverted(bit: Bit, is_inverted: bool) -> Bit:
    return bit if bit is None or not is_inverted else 1 - bit


def majority(bits: typing.Sequence[Bit]) -> Bit:
    """The majority of three bits, where two that are known decide it."""
    return next((bit for bit in (0, 1) if bits.count(bit) >= 2), None)


def numbers_of(text: str, names: typing.Sequence[str], kinds: typing.Sequence[str], width: int | None) -> tuple[list[int], int]:
    """The numbers of `a=3,b=5` in the order of the operands, and the width: the one given, or the first of 8, 16, .. that
    holds them."""
    given: dict[str, int] = {}
    for part in text.split(","):
        name, equals, number = part.strip().partition("=")
        if name not in names or name in given or not equals or not number.isascii() or not number.isdigit():
            raise Fault(f"--with takes {','.join(f'{one}=NUMBER' for one in names)}, and not {part.strip() or text}")
        given[name] = int(number)
    if missing := [name for name in names if name not in given]:
        raise Fault(f"--with gives no number for {', '.join(missing)}")
    chosen = width or next((one for one in (8, 16, 32, 64, 128) if max(given.values()) < 1 << one), 128)
    for name, kind in zip(names, kinds):
        bits = chosen if kind == "word" else 1
        if given[name] >= 1 << bits:
            raise Fault(f"--with {name}={given[name]}: {'a bit' if kind == 'bit' else f'{bits} bits'} "
                        f"hold{'s' if kind == 'bit' else ''} 0 to {(1 << bits) - 1}")
    return [given[name] for name in names], chosen

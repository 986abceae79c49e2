"""Walks of a microprogram at a width: its row commands as docs/MODEL.md has the trace, and how often each instruction is executed."""

import collections
import typing

from ..files.program import ADD, ADDI, BNEZ, DONE, INDEXED, MOV, REGISTERS, SETI, SETN, SETT, SUBI, Entry, Instruction, Row

# a row with its position: its space, which one of it, and the value of its index
Place = tuple[int, int, int]
TURNS = 1 << 22
GREATEST = 1023
# what an instruction leaves in its register, from what the registers hold, at a width: all are numbers, or all are forms
CHANGES: dict[int, typing.Callable[[typing.Any, Instruction, typing.Any], typing.Any]] = {
    ADDI: lambda held, one, n: held[one.register] + one.number, SUBI: lambda held, one, n: held[one.register] - one.number,
    ADD: lambda held, one, n: held[one.register] + held[one.other], MOV: lambda held, one, n: held[one.other],
    SETI: lambda held, one, n: type(n)() + one.number, SETN: lambda held, one, n: n, SETT: lambda held, one, n: n - 1,
}


class Stuck(Exception):
    """A register would fall below zero, or there are too many turns."""


class Registers:
    """The registers of the controller at a width, and what they hold: numbers, or forms."""

    def __init__(self, width: typing.Any, held: typing.Iterable[typing.Any] | None = None) -> None:
        self.width, self.zero = width, type(width)()
        self.held = [self.zero] * REGISTERS if held is None else list(held)

    def index(self, row: Row) -> typing.Any:
        return self.held[row.index] if row.space in INDEXED and row.index < REGISTERS else self.zero

    def place(self, row: Row) -> Place:
        return row.space, row.which, self.index(row)

    def do(self, one: Instruction) -> None:
        """Executes an instruction that sets a register; others change nothing here."""
        if one.kind in CHANGES:
            self.held[one.register] = CHANGES[one.kind](self.held, one, self.width)

    def next(self, at: int, one: Instruction) -> int:
        """Executes what is no row command, and returns where the code goes on."""
        self.do(one)
        return one.number if one.kind == BNEZ and self.held[one.register] else at + 1


def walk(entry: Entry, n: int) -> list[tuple[Place, ...]]:
    """The commands, each with its rows; that their positions are in range is not checked."""
    registers, at, found = Registers(n), 0, []
    for _ in range(TURNS):
        one = entry.code[at]
        if one.kind == DONE:
            return found
        if one.rows:
            found.append(tuple(map(registers.place, one.rows)))
        at = registers.next(at, one)
        if not one.rows and not 0 <= registers.held[one.register] <= GREATEST:
            raise Stuck
    raise Stuck


def executions(code: typing.Sequence[Instruction], width: int) -> list[int]:
    """Of each instruction how often it is executed, where the execution comes to its end, as `cost` says."""
    # for each place the first instruction from there on that is no row command
    ends = [0] * len(code)
    for place in reversed(range(len(code))):
        ends[place] = ends[place + 1] if code[place].rows else place
    registers, at = Registers(width), 0
    starts: collections.Counter[int] = collections.Counter([at])
    while code[ends[at]].kind != DONE:
        at = registers.next(ends[at], code[ends[at]])
        starts[at] += 1
    found = [0] * len(code)
    for start, times in starts.items():
        for place in range(start, ends[start] + 1):
            found[place] += times
    return found

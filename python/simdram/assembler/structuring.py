"""From instructions back to loops: what registers hold is followed as sums of n and loop variables."""

import typing

from ..files.program import ADD, ADDI, BNEZ, DONE, INDEXED, MOV, REGISTERS, SETI, SETN, SETT, SUBI, Entry, Instruction
from .forms import N, Form
from .loops_and_ways import Jumps
from .parser import goes_down
from .reading import row_text
from .walks import CHANGES

VARIABLES = "ijk"


class Unstructured(Exception):
    """The code is no such loops."""


class Held(dict[int, Form]):
    """What registers hold, as far as that is known."""

    def __missing__(self, register: int) -> Form:
        raise Unstructured

    def forget(self, registers: typing.Iterable[int]) -> None:
        for register in registers:
            self.pop(register, None)


class Loop(typing.NamedTuple):
    """A loop that was found: its first and last instruction, the registers that it steps by how much, and those that it sets."""

    first: int
    last: int
    steps: dict[int, int]
    set_there: set[int]


class Structuring:
    """The lines of an entry, loop by loop."""

    def __init__(self, entry: Entry) -> None:
        self.entry, self.code = entry, entry.code
        self.held = Held(dict.fromkeys(range(REGISTERS), Form()))
        self.spans = dict(Jumps(self.code).spans())
        self.lines: list[str] = []
        self.depth = 0

    def put(self, line: str) -> None:
        self.lines.append(f"{'  ' * (self.depth + 1)}{line}")

    def part(self, at: int, end: int) -> None:
        past: int | None = None
        while at < end:
            last = self.spans.get(at, end)
            if last < end:
                if past not in (None, last + 1):
                    raise Unstructured
                self.loop(self.found(at, last))
                at, past = last + 1, None
            elif self.code[at].kind == BNEZ:
                at, past = self.guard(at)
            else:
                self.step(self.code[at])
                at += 1
        if past is not None:
            raise Unstructured

    def guard(self, at: int) -> tuple[int, int]:
        """Where a loop that may have no iteration goes on, and where it ends."""
        inside = self.code[at].number
        jump = self.code[inside - 1] if inside in (at + 2, at + 3) else self.code[at]
        if jump.kind != BNEZ or jump.number <= inside or (inside == at + 3 and self.code[at + 1].kind != SETI):
            raise Unstructured
        return inside, jump.number

    def step(self, one: Instruction) -> None:
        """An instruction that is no jump."""
        if one.rows:
            self.put(one.text(lambda row: row_text(row, self.entry, self.subscript), str))
        elif one.kind == DONE:
            raise Unstructured
        else:
            self.held[one.register] = CHANGES[one.kind](self.held, one, Form.of(N))

    def subscript(self, register: int) -> str:
        return "0" if register == REGISTERS else str(self.held[register])

    def found(self, first: int, last: int) -> Loop:
        set_there, steps, depth = set(), {}, 0
        heads = {start: end for start, end in self.spans.items() if first < start <= end < last}
        for k in range(first, last):
            one = self.code[k]
            depth += k in heads
            if one.kind in (SETI, SETN, SETT, MOV, ADD):
                set_there.add(one.register)
            elif one.kind in (ADDI, SUBI):
                steps.setdefault(one.register, []).append((depth, one.number if one.kind == ADDI else -one.number))
            depth -= k in heads.values()
        if any(depth for register, found in steps.items() if register not in set_there for depth, _ in found):
            raise Unstructured
        return Loop(first, last, {register: sum(step for _, step in found) for register, found in steps.items()
                                  if register not in set_there}, set_there)

    def loop(self, loop: Loop) -> None:
        counter = self.code[loop.last].register
        if loop.steps.get(counter) != -1 or self.depth == len(VARIABLES):
            raise Unstructured
        count, variable = self.held[counter], Form.of(VARIABLES[self.depth])
        start, is_down = self.start(loop, counter)
        end = start - count + 1 if is_down else start + count
        if goes_down(start, end) != is_down:
            raise Unstructured
        iteration = start - variable if is_down else variable - start
        after = {register: self.held[register].plus(count, step) for register, step in loop.steps.items()}
        self.held.update({register: self.held[register].plus(iteration, step) for register, step in loop.steps.items()})
        self.held.forget(loop.set_there)
        self.put(f"for {variable} in {start}..{end} {{")
        self.depth += 1
        self.part(loop.first, loop.last)
        self.depth -= 1
        self.put("}")
        self.held.update(after)
        self.held.forget(loop.set_there)

    def start(self, loop: Loop, counter: int) -> tuple[Form, bool]:
        """What the loop variable begins with, and whether it goes down: as the first subscript that goes by one."""
        added = dict.fromkeys(loop.steps, 0)
        for one in self.code[loop.first:loop.last]:
            for row in one.rows:
                step = loop.steps.get(row.index) if row.space in INDEXED and row.index != counter else None
                if step in (1, -1):
                    return self.held[row.index] + added[row.index], step == -1
            if one.kind in (ADDI, SUBI) and one.register in added:
                added[one.register] += one.number if one.kind == ADDI else -one.number
        return Form(), False


def structured_lines(entry: Entry) -> list[str]:
    """The lines of an entry with loops; code that is no such loops raises `Unstructured`."""
    made = Structuring(entry)
    made.part(0, len(made.code) - 1)
    return made.lines

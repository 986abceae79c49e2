"""What the registers of a microprogram hold: the numbers of its loops, which are the positions of its rows."""

import typing

from ..assembler.forms import Form
from ..assembler.loops_and_ways import Code, Jumps, outline
from ..files.program import ADD, ADDI, BNEZ, INDEXED, MOV, SETI, SETN, SETT, SUBI
from .board import letter
from .code_parts import Part
from .positions import of_rows

STARTS = {SETI: lambda one: str(one.number), SETN: lambda _: "n", SETT: lambda _: "n - 1", MOV: lambda one: f"r{one.other}"}
CHANGES = (ADDI, SUBI, ADD)


class Held:
    """What the registers of a code hold at its parts."""

    def __init__(self, code: Code) -> None:
        self.code, self.outline = code, outline(code)
        jumps = Jumps(code)
        # of each place those from which it is reached
        self.before: list[list[int]] = [[] for _ in range(len(code) + 1)]
        for at, one in enumerate(code):
            if not jumps.is_always(at):
                self.before[at + 1].append(at)
            if one.kind == BNEZ:
                self.before[one.number].append(at)

    def way_back(self, register: int, place: int, loop: range) -> tuple[set[int], set[int]]:
        """Where a register was set before a place, -1 where it was not, and where it was changed since; a loop at this place is
        not gone through."""
        sets, changes, seen, left = set(), set(), {place}, [place]
        while left:
            at = left.pop()
            if at == 0:
                sets.add(-1)
            for before in self.before[at]:
                if before in seen or before in loop:
                    continue
                seen.add(before)
                one = self.code[before]
                if one.register == register and one.kind in STARTS:
                    sets.add(before)
                    continue
                if one.register == register and one.kind in CHANGES:
                    changes.add(before)
                left.append(before)
        return sets, changes

    def changes(self, places: typing.Iterable[int], place: int) -> list[str]:
        """How a register is changed at places, and in which loop or way each is that is not around another place."""
        said: dict[tuple[str, str], list[str]] = {}
        for at in sorted(places):
            one = self.code[at]
            amount = f"r{one.other}" if one.kind == ADD else str(one.number)
            how = f"{'lowered' if one.kind == SUBI else 'raised'} by {amount} at"
            said.setdefault((how, self.outline.apart(at, place)), []).append(str(at))
        return [f"{how} {' and '.join(places)}{apart}" for (how, apart), places in said.items()]

    def start(self, register: int, place: int, loop: range) -> str:
        """How a register was set before a place."""
        sets, changes = self.way_back(register, place, loop)
        said = " or ".join(f"set to {STARTS[self.code[at].kind](self.code[at])} at instruction {at}" if at >= 0 else "0 from the start on"
                           for at in sorted(sets))
        return " and ".join([said, *self.changes(changes, place)])

    def meaning(self, part: Part, register: int) -> str:
        """Where a subscript starts, and how it goes on from iteration to iteration."""
        for start, end in reversed(part.loops):
            loop = range(start, end + 1)
            kinds = {at: self.code[at].kind for at in loop if self.code[at].register == register}
            changed = [at for at, kind in kinds.items() if kind in CHANGES]
            if any(kind in STARTS for kind in kinds.values()):
                break
            if changed:
                how = " and ".join(self.changes(changed, part.first))
                return f"{self.start(register, start, loop)}, {how} in each iteration of the loop {start} to {end}"
        return self.start(register, part.first, range(0))

    def legend(self, part: Part) -> list[tuple[str, str]]:
        """What the subscripts of a part's rows are counted from: i, where there is one, or registers as the part begins."""
        bases = list(dict.fromkeys(int(name[1:]) for form in of_rows(part.code, part.held) for name in form.variables))
        if (one := letter(part.code, part.held)) is None:
            return [(f"r{register}", self.meaning(part, register)) for register in bases]
        what = self.meaning(part, bases[0])
        rows = (row for each in part.code for row in each.rows if row.space in INDEXED)
        if not one[1] or all(row.index == bases[0] for row, form in zip(rows, of_rows(part.code, part.held)) if form.variables):
            return [("i", f"{one[0]}, {what}")]
        return [("i", f"{Form.of(one[0]) + one[1]} as the part begins, {one[0]} is {what}")]

"""The loops of a microprogram with their turns, and its choices with their ways."""

import typing

from ..files.program import BNEZ, SETI, Instruction
from .walks import CHANGES

Code = typing.Sequence[Instruction]


class Loop(typing.NamedTuple):
    """A loop: its first and last instruction, where its turns begin, and its last rounds: from where to where each stands."""

    first: int
    last: int
    turns: tuple[int, ...] = ()
    ends: tuple[tuple[int, int], ...] = ()

    def turn(self, at: int) -> str:
        """Which turn an instruction is in, where there are several."""
        number = sum(start <= at for start in self.turns)
        return f", turn {number} of {len(self.turns)}" if len(self.turns) > 1 else ""

    def is_last(self, at: int) -> bool:
        """Whether an instruction is for the last round alone."""
        return any(start <= at < past for start, past in self.ends)

    def round(self, at: int) -> str:
        """Whether an instruction is for the last round, or for the others, where these have bodies of their own."""
        if self.is_last(at):
            return ", in its last round"
        return ", in each round but the last" if self.ends and at >= self.ends[0][1] else ""

    def said(self, at: int) -> str:
        """The loop, and what of it an instruction is in."""
        return f"in the loop at {self.first}{self.turn(at)}{self.round(at)}"


class Way(typing.NamedTuple):
    """A way of a choice: its first and last instruction, and what the register holds at the jump that asks for it."""

    first: int
    last: int
    at: int
    register: int
    is_zero: bool

    def said(self, _: int) -> str:
        """When it is taken."""
        return f"if r{self.register} {'=' if self.is_zero else '>'} 0 at {self.at}"


def around(found: typing.Iterable[typing.Any], first: int, past: int) -> list[typing.Any]:
    """The loops or ways around instructions, the outermost first."""
    return sorted((one for one in found if one.first <= first and past <= one.last + 1), key=lambda one: (one.first, -one.last))


class Outline(typing.NamedTuple):
    """The loops and the ways of a code."""

    loops: tuple[Loop, ...]
    ways: tuple[Way, ...]

    def apart(self, at: int, place: int) -> str:
        """The innermost loop or way that is around an instruction and not around another, in words."""
        found = [one for one in (*self.loops, *self.ways) if one.first <= at <= one.last and not one.first <= place <= one.last]
        return " " + min(found, key=lambda one: one.last - one.first).said(at) if found else ""

    def said(self, first: int, past: int) -> list[str]:
        """The loops and the ways around instructions in words, the outermost first."""
        return [one.said(first) for one in around((*self.loops, *self.ways), first, past)]


class Asked(typing.NamedTuple):
    """A jump ahead on a register: its place, where it leads, where the instructions between go on if not there, and whether
    these are no more than a jump."""

    at: int
    to: int
    past: int
    register: int
    is_bare: bool


class Jumps:
    """The jumps of a code."""

    def __init__(self, code: Code) -> None:
        self.code = code
        changed = [one for one in code if one.kind in CHANGES]
        # registers that are set to nothing but numbers over 0
        self.fixed = {one.register for one in changed} - {one.register for one in changed if one.kind != SETI or not one.number}
        self.targets = {one.number for one in code if one.kind == BNEZ}

    def is_always(self, at: int) -> bool:
        one, before = self.code[at], self.code[max(0, at - 1)]
        is_set = before.kind == SETI and before.register == one.register and before.number > 0 and at not in self.targets
        return one.kind == BNEZ and (is_set or one.register in self.fixed)

    def led_to(self, at: int) -> int:
        """Where a jump to a place leads, on through jumps that are always taken."""
        seen: set[int] = set()
        while at not in seen:
            seen.add(at)
            jump = at + (self.code[at].kind == SETI and self.code[at + 1].register == self.code[at].register)
            at = self.code[jump].number if self.is_always(jump) else at
        return at

    def spans(self) -> list[tuple[int, int]]:
        """Of each loop its first and last instruction."""
        backward = ((self.led_to(one.number), at) for at, one in enumerate(self.code) if one.kind == BNEZ and one.number <= at)
        return sorted({first: last for first, last in backward if first <= last}.items())

    def asked(self) -> typing.Iterator[Asked]:
        """The jumps ahead that are not always taken."""
        for at, one in enumerate(self.code):
            if one.kind == BNEZ and one.number > at and not self.is_always(at):
                to, end, past = one.number, one.number - 1, one.number
                if end > at and self.is_always(end):
                    past = self.code[end].number
                    past = past if past >= to else self.led_to(past)
                is_bare = past > to and all(each.kind in (SETI, BNEZ) for each in self.code[at + 1:to])
                yield Asked(at, to, past, one.register, is_bare)


def outline(code: Code) -> Outline:
    jumps, ways = Jumps(code), []
    spans = jumps.spans()
    # a jump past a whole loop says no more than that it may have no iteration
    whole = {(first, jumps.led_to(last + 1)) for first, last in spans}
    leaving: dict[tuple[int, int], list[Asked]] = {span: [] for span in spans}
    for one in jumps.asked():
        around = [span for span in spans if span[0] <= one.at and one.to <= span[1]]
        inner = min(around, key=lambda span: span[1] - span[0], default=None)
        if inner and (one.past > inner[1] or is_of_rounds(code, one, inner)):
            leaving[inner].append(one)
        elif not (one.is_bare and (one.to, jumps.led_to(one.past)) in whole):
            ways += [Way(one.at + 1, one.to - 1, one.at, one.register, True)] * (not one.is_bare)
            ways += [Way(one.to, one.past - 1, one.at, one.register, False)] * (one.past > one.to)
    return Outline(tuple(loop_of(code, span, leaving[span]) for span in spans), tuple(ways))


def is_of_rounds(code: Code, one: Asked, loop: tuple[int, int]) -> bool:
    """Whether a jump asks whether this is the loop's last round: by its counter, with a body for each answer and none after both."""
    rest = code[one.past:loop[1]]
    return one.register == code[loop[1]].register and one.past > one.to and not one.is_bare \
        and not any(each.rows for each in rest) \
        and not any(each.kind in CHANGES and each.register == one.register for each in (*code[one.at + 1:one.to], *rest))


def loop_of(code: Code, span: tuple[int, int], leaving: list[Asked]) -> Loop:
    """A loop, from the jumps that leave it: a bare one at the end of a turn, and one past the body of the last round."""
    turns = [span[0]]
    for k, one in enumerate(leaving):
        start = one.to if one.is_bare else one.at
        if any(each.rows for each in code[turns[-1]:start]) and (one.is_bare or k):
            turns.append(start)
    return Loop(*span, tuple(turns), tuple((one.at + 1, one.to) for one in leaving if not one.is_bare))

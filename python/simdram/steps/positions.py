"""What the registers of a microprogram hold, and so which rows its commands name: sums of n, of numbers, and of what the
registers held where a part of the code begins."""

import typing

from ..assembler.forms import N, Form
from ..assembler.walks import Registers
from ..files.program import BNEZ, DONE, INDEXED, REGISTERS, Instruction

# of each register what it holds where a part begins: `r3` is what register 3 holds there
Held = tuple[Form, ...]
# where the code begins, all are 0
START: Held = (Form(),) * REGISTERS
UNKNOWN: Held = tuple(Form.of(f"r{register}") for register in range(REGISTERS))


def after(code: typing.Iterable[Instruction], held: Held) -> Held:
    there = Registers(Form.of(N), held)
    for one in code:
        there.do(one)
    return tuple(there.held)


def of_rows(code: typing.Iterable[Instruction], held: Held) -> list[Form]:
    """The position of each indexed row of instructions, in their order."""
    there, found = Registers(Form.of(N), held), []
    for one in code:
        found += [there.index(row) for row in one.rows if row.space in INDEXED]
        there.do(one)
    return found


def may_be_equal(one: Form, other: Form) -> bool:
    """Whether two positions may be one, as n is 1 at least."""
    apart = one - other
    if not apart.variables:
        times = apart.times(N)
        return apart.number == 0 if times == 0 else apart.number % times == 0 and -apart.number // times > 0
    return True


def joined(found: typing.Iterable[tuple[typing.Hashable, Form]]) -> Held:
    """What registers hold where another part begins: each form that stands under no key; of those under one key, the first
    has its own name, and the others are as far from it as they are now."""
    first: dict[typing.Hashable, tuple[int, int]] = {}
    made = []
    for register, (key, form) in enumerate(found):
        base, number = first.setdefault(key, (register, form.number)) if key else (register, form.number)
        made.append(Form.of(f"r{base}") + (form.number - number) if key else form)
    return tuple(made)


def either(one: Held, other: Held) -> Held:
    """What is known of the registers where it is the one or the other: those that differ by a number in both, still do."""
    return joined((None if left == right and not left.variables else (left.terms, right.terms, left.number - right.number), left)
                  for left, right in zip(one, other))


def counted_from(held: Held, registers: typing.Collection[int]) -> Held:
    """The same by the names of these registers, where others are as far from them as numbers say."""
    for register in registers:
        base = held[register].variables[:1]
        if base and int(base[0][1:]) not in registers:
            there = Form.of(f"r{register}") - held[register].number
            held = tuple(form.put(base[0], there) for form in held)
    return held


def pieces(code: typing.Sequence[Instruction]) -> list[tuple[int, int]]:
    """The code cut where it can jump or be jumped to: from where to where."""
    jumps = [(at, one.number) for at, one in enumerate(code) if one.kind == BNEZ]
    places = sorted({0, len(code), *(to for _, to in jumps), *(at + 1 for at, _ in jumps)})
    return list(zip(places, places[1:]))


def follow(code: typing.Sequence[Instruction], last: int, held: Held) -> list[int]:
    """Where the code goes on after its instruction `last`, by what registers hold there."""
    one = code[last]
    if one.kind == DONE:
        return []
    if one.kind != BNEZ:
        return [last + 1]
    asked = held[one.register]
    return [one.number, last + 1] if asked.terms else [one.number if asked.number else last + 1]


Known = typing.TypeVar("Known")


def fixed_point(start: Known, goes_on: typing.Callable[[int, Known], typing.Iterable[tuple[int, Known]]],
                join: typing.Callable[[Known, Known], Known]) -> dict[int, Known]:
    """What is known at each place that is reached from place 0, from what is known there, where each place goes on to with
    what, and what is known whichever of two is so."""
    found, left = {0: start}, [0]
    while left:
        place = left.pop()
        for to, known in goes_on(place, found[place]):
            made = join(found[to], known) if to in found else known
            if found.get(to) != made:
                found[to] = made
                left.append(to)
    return found


def held_at(code: typing.Sequence[Instruction]) -> dict[int, Held]:
    """What the registers hold where each piece of the code begins that is reached."""
    ends = dict(pieces(code))

    def goes_on(first: int, held: Held) -> list[tuple[int, Held]]:
        found = after(code[first:ends[first]], held)
        # what is a number, or differs from n by one, stays; the others have names of their own for the part that begins now
        begun = joined((form.terms if form.variables else None, form) for form in found)
        return [(to, begun) for to in follow(code, ends[first] - 1, found)]

    return fixed_point(START, goes_on, either)

"""Entries that begin with a test of the width: at one width they do one code, and at all others another, as `optimise` writes
them; or they are stuck at all others, as the assembler writes programs of `width 8`."""

import dataclasses
import itertools
import typing

from ..files.program import AAP, AP, BNEZ, DONE, LARGEST, SETI, SETN, SUBI, Entry, Instruction

# how many instructions the test has, and how many stand between its first code and its second
TEST, BETWEEN = 8, 2
# how many instructions stand before the own ones of a program for one width, and how many after them
BEFORE, AFTER = 3, 2
NO_JUMPS = (SETI, AAP, AP, DONE)


class Choice(typing.NamedTuple):
    """A width, the entry that is done at it, and the one that is done at all others."""

    width: int
    here: Entry
    elsewhere: Entry


def test(n: int, other: int) -> tuple[Instruction, ...]:
    """The test of the width n, which goes to a place where it is another."""
    return tuple(itertools.starmap(Instruction, ((SETN, 0), (SETI, 1, n), (BNEZ, 0, 4), (BNEZ, 1, other), (SUBI, 0, 1), (SUBI, 1, 1),
                                                 (BNEZ, 1, 2), (BNEZ, 0, other))))


def earlier(code: typing.Iterable[Instruction], by: int) -> tuple[Instruction, ...]:
    """Instructions before which so many others are left out: each jump leads to an earlier place."""
    return tuple(Instruction(BNEZ, one.register, one.number - by) if one.kind == BNEZ else one for one in code)


def choice(entry: Entry) -> Choice | None:
    """The choice that an entry begins with, or nothing."""
    if len(entry.code) <= TEST + BETWEEN:
        return None
    n, other = entry.code[1].number, entry.code[3].number
    own, line = other + BETWEEN, entry.code[TEST:other]
    begins = entry.code[:TEST] == test(n, other) and entry.code[other:own] == (Instruction(SETI, 0), Instruction(SETI, 1))
    if not begins or not line or line[-1].kind != DONE or any(one.kind not in NO_JUMPS for one in line):
        return None
    rest = entry.code[own:]
    if not rest or any(one.kind == BNEZ and one.number < own for one in rest):
        return None
    return Choice(n, dataclasses.replace(entry, code=line), dataclasses.replace(entry, code=earlier(rest, own)))


def choices(entry: Entry) -> tuple[list[Choice], Entry]:
    """All choices that an entry begins with, and the entry that is done at all other widths."""
    found = []
    while made_of := choice(entry):
        found.append(made_of)
        entry = made_of.elsewhere
    return found, entry


def branch(entry: Entry, n: int | None) -> Entry:
    """The entry that is done at a width; without one that of all widths which no choice names."""
    found, rest = choices(entry)
    return next((one.here for one in found if one.width == n), rest)


def one_width(entry: Entry) -> int | None:
    """The width for which alone an entry is, or nothing where it is for all."""
    if len(entry.code) <= BEFORE + AFTER:
        return None
    first, second, third = entry.code[:BEFORE]
    stuck = len(entry.code) - AFTER
    is_one = (first.kind, second.kind, third.kind, entry.code[stuck].kind) == (SETN, SUBI, BNEZ, SUBI) \
        and {one.register for one in (first, second, third, entry.code[stuck])} == {first.register} \
        and third.number == stuck and entry.code[stuck].number == LARGEST
    return second.number if is_one else None


def own(entry: Entry) -> Entry:
    """The entry without the instructions that check its width: the target of each jump stands earlier by those before."""
    return dataclasses.replace(entry, code=earlier(entry.code[BEFORE:len(entry.code) - AFTER], BEFORE))


def other_width(entry: Entry, n: int) -> str:
    """Why an entry is stuck at a width, where it is for another, or nothing."""
    width = one_width(entry)
    return "" if width in (None, n) else f"{entry.name} is a program for the width {width} alone"

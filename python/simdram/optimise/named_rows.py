"""Heads that reserve only the rows of scratch that a command names; `verify` has to find each such entry right.

A bit of scratch has no index, so leaving out one that is not named changes nothing at any width. A row of a word may be reached by an index
of the word before it; so words are left out only of an entry that names no row past its own word at any width. That is tried at each; of the
compiler's own code, whose words are counted by its loops, at some.
"""

import dataclasses
import os
import typing

from ..assembler.at_width import choices
from ..assembler.walks import Stuck, walk
from ..files.program import BIT, WORD, Entry, Instruction, Program
from ..files.store import folder_of
from ..launcher import run_program
from ..rules.verdicts import verdicts_of

WIDTHS, SOME_WIDTHS = range(1, 129), (*range(1, 17), 31, 32, 33, 128)


def stays_in_words(entry: Entry, widths: typing.Iterable[int] = WIDTHS) -> bool:
    """Whether the entry ends at these widths, and each row of a word that it names there is one of the word's own."""
    try:
        return all(position < n for n in widths for command in walk(entry, n) for space, _, position in command if space == WORD)
    except Stuck:
        return False


def with_fewer_rows(entry: Entry, widths: typing.Iterable[int] = WIDTHS) -> Entry:
    """The entry with the bits of scratch that its commands name, and its words where these are left out rightly, numbered anew in their
    order."""
    named = {(row.space, row.which) for one in entry.code for row in one.rows}
    kept = {space: sorted(which for of, which in named if of == space) for space in (BIT, WORD)}
    if len(kept[WORD]) < entry.words and not stays_in_words(entry, widths):
        kept[WORD] = list(range(entry.words))

    def renamed(one: Instruction) -> Instruction:
        return dataclasses.replace(one, rows=tuple(row._replace(which=kept[row.space].index(row.which)) if row.space in kept else row
                                                   for row in one.rows))

    return dataclasses.replace(entry, bits=len(kept[BIT]), words=len(kept[WORD]), code=tuple(map(renamed, entry.code)))


def scratch(entry: Entry, n: int) -> int:
    """How many rows of scratch an entry reserves at a width."""
    return entry.bits + n * entry.words


def right_names(path: str, ops: str, entries: typing.Sequence[Entry], n: int) -> set[str]:
    """The names of the entries that `verify` finds right at a width."""
    with folder_of(prog=Program(list(entries)).file()) as folder:
        ended = run_program.run(["verify", ops, f"{folder}/prog", n], path=path)
    return {verdict.name for verdict in verdicts_of(ended.out) if verdict.is_right}


def with_named_rows(path: str, ops: str, file: bytes, n: int) -> tuple[bytes, str]:
    """A program file with such heads, where `verify` finds their entries right at the width, and what is said of them."""
    old = Program.read(file).entries
    with folder_of() as folder:
        prog = os.path.join(folder, "prog")
        compiled = Program.load(prog).entries if run_program.run(["compile", ops, prog], path=path).status == 0 else []
    new = []
    for entry in old:
        straight, rest = choices(entry)
        # of the compiler's own code, but for lines for some widths, only some widths are tried
        new.append(with_fewer_rows(entry, {*SOME_WIDTHS, *(one.width for one in straight)} if rest in compiled else WIDTHS))
    right = right_names(path, ops, new, n)
    taken = [made if made.name in right else entry for entry, made in zip(old, new)]
    lines = []
    for entry, made in zip(old, new):
        before, after = scratch(entry, n), scratch(made, n)
        if after < before:
            said = f"{before} to {after}, right at {n}" if made.name in right else f"{before} as they were, as verify does not say right"
            lines.append(f"{entry.name} rows {said}\n")
    return Program(taken).file(), "".join(lines)

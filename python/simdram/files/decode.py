"""The decode table: which wordlines each address raises.

An address is a group, `B`, `C` or `D`, and a number. A wordline is a cell of each column and whether the cell is read
and written complemented, through its n-wordline.
"""

import typing

GROUPS = "BCD"
CELLS = ("T0", "T1", "T2", "T3", "DCC0", "DCC1")
B_ADDRESSES = 16


class Line(typing.NamedTuple):
    """A wordline: the cell that it opens, and whether it is the cell's n-wordline."""

    cell: str
    inverted: bool = False

    def __str__(self) -> str:
        return f"{'~' if self.inverted else ''}{self.cell}"


T0, T1, T2, T3 = map(Line, CELLS[:4])
DCC0, DCC1 = map(Line, CELLS[4:])
NOT_DCC0, NOT_DCC1 = Line("DCC0", True), Line("DCC1", True)

RAISED = (
    (T0,), (T1,), (T2,), (T3,),
    (DCC0,), (NOT_DCC0,), (DCC1,), (NOT_DCC1,),
    (NOT_DCC0, T0), (NOT_DCC1, T1), (T2, T3), (T0, T3),
    (T0, T1, T2), (T1, T2, T3), (DCC0, T1, T2), (DCC1, T0, T3),
)


def raised(group: str, number: int) -> tuple[Line, ...]:
    """The wordlines that an address raises: those of the table for group B, and its own row for C and D."""
    return RAISED[number] if group == "B" else (Line(f"{group}{number}"),)


def legal_first(group: str, number: int) -> bool:
    """Whether an address may be activated first: one line, or three; two would share their charge."""
    return len(raised(group, number)) != 2


def legal_second(group: str) -> bool:
    """Whether an address may be written by an AAP: C rows keep 0 and 1."""
    return group != "C"

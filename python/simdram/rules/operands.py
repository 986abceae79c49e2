"""Operands of objects: NAME, NAME[K] or NAME[LO:HI]."""

import dataclasses
import typing

from ..files.image import Object, Table
from .answer import Breach, near
from .tokens import NAME_MAX, NUMBER, Token, value_of

WIDTH_MAX = 128
FORM = "bits of an object: NAME[K], or NAME[LO:HI] for LO up to, not with, HI"


class Operand(typing.NamedTuple):
    """An operand: the name of its object, and the numbers in brackets after it, which are K, or LO and HI, or none."""

    name: Token
    ends: tuple[Token, ...] = ()

    @property
    def low(self) -> int:
        return value_of(self.ends[0].text)

    @property
    def high(self) -> int:
        return value_of(self.ends[1].text) if len(self.ends) == 2 else self.low + 1

    @property
    def text(self) -> str:
        """The operand as a report has it."""
        if not self.ends:
            return self.name.text
        return f"{self.name.text}[{self.low}]" if self.high == self.low + 1 else f"{self.name.text}[{self.low}:{self.high}]"

    def of_copy(self, letter: str) -> "Operand":
        """The same bits of a guarded object's copy."""
        return self._replace(name=self.name._replace(text=letter + self.name.text))

    def rows(self, table: Table) -> Object:
        """Its rows as an object, where it has a place in the table."""
        found = table.find(self.name.text)
        return dataclasses.replace(found, name=self.text, base=found.base + self.low, width=self.high - self.low) if self.ends else found

    def check_object(self, table: Table, place: int) -> None:
        names = [one.name for one in table.objects]
        if self.name.text not in names:
            raise Breach(self.name, f"no_object {place}", f"no object has the name {self.name.text}{near(self.name.text, names)}",
                         f"objects: {', '.join(names) or 'none'}")

    def check_rows(self, table: Table, place: int) -> None:
        found = table.find(self.name.text)
        if self.ends and self.high > found.width:
            raise Breach(self.ends[-1], f"slice {place}", f"{self.text} has bit {self.high - 1}, and the highest bit of {found.name} is "
                         f"{found.width - 1}")

    def check_name(self) -> None:
        if len(self.name.text) > NAME_MAX:
            raise Breach(self.name, "bad_name", f"a name has at most {NAME_MAX} bytes; this one has {len(self.name.text)}")

    def check_bits(self) -> None:
        if self.ends and self.low >= WIDTH_MAX:
            raise Breach(self.ends[0], "bad_number", f"a bit is 0 to {WIDTH_MAX - 1}")
        if self.ends and self.high > WIDTH_MAX:
            raise Breach(self.ends[1], "bad_number", f"HI, the end of a slice, is at most {WIDTH_MAX}")
        if self.ends and self.low >= self.high:
            raise Breach(self.ends[1], "bad_number", "a slice has a bit: LO is below HI", FORM)


def operand_at(words: typing.Sequence[Token], at: int) -> tuple[Operand, int]:
    """The operand that begins with the name at this place, and the place after it."""
    name, ends = words[at], []
    for mark in "[:":
        if words[at + 1].text != mark:
            break
        at += 2
        if words[at].kind != NUMBER:
            raise unexpected(words[at], "the number of a bit")
        ends.append(words[at])
    if ends and words[at + 1].text != "]":
        raise unexpected(words[at + 1], "`]`")
    return Operand(name, tuple(ends)), at + 1 + bool(ends)


def unexpected(token: Token, wanted: str) -> Breach:
    """The fault of a token in brackets, or of the end."""
    shown = f"`{token.text}`" if token.text else "the end"
    return Breach(token, "syntax", f"{shown} where {wanted} is expected", FORM)

"""The names of a program: those of its head, those that a listing gives every row, and the cells, with the address that raises
them."""

import re
import typing

from ..files.decode import CELLS, RAISED
from ..files.fields import NAME_BYTES
from ..files.program import BIT, NAMES as INSTRUCTIONS, REGISTERS, RESULT, SOURCE, SPILL, SPILLS, WORD
from ..rules.answer import Breach
from ..rules.tokens import Token
from .lexer import Tokens
from .tree import Head

REGISTER = re.compile("r([0-9]+)")
LISTED = re.compile("([stwpBC])([0-9]+)")
RESULTS = ("y", "z")
SPACES = {"s": SOURCE, "t": BIT, "w": WORD, "p": SPILL}
WORDS = ("n", "for", "in", "if", "else", "next", "program", "scratch", "entry", "version", "word", "bit", *INSTRUCTIONS, "JMP")
KINDS = ("word", "bit")


def address_text(address: int) -> str:
    """An address by its cells: one, two that are written together, or three whose majority is sensed."""
    names = list(map(str, RAISED[address]))
    return f"{{{', '.join(names)}}}" if len(names) == 3 else "+".join(names)


BY_CELLS = {frozenset(map(str, lines)): address for address, lines in enumerate(RAISED)}
SINGLES, PAIRS, TRIPLES = (", ".join(address_text(address) for address, lines in enumerate(RAISED) if len(lines) == count)
                           for count in (1, 2, 3))


class Named(typing.NamedTuple):
    """What a name means: a space, which row of it, and its kind."""

    space: int
    which: int
    kind: str


def listed(name: str) -> tuple[int, int] | None:
    """The space and which row of it a name of a listing means."""
    if name in RESULTS:
        return RESULT, RESULTS.index(name)
    match = LISTED.fullmatch(name)
    return (SPACES[match[1]], int(match[2])) if match and match[1] in SPACES else None


def register_of(name: str) -> int | None:
    match = REGISTER.fullmatch(name)
    return int(match[1]) if match else None


def check_name(token: Token, what: str) -> None:
    """Refuses a name that is too long, or that means something else already."""
    if len(token.text) > NAME_BYTES:
        raise Breach(token, "name", f"{what} has {len(token.text)} bytes", f"a name has at most {NAME_BYTES}")
    match = LISTED.fullmatch(token.text)
    is_cell = token.text in CELLS or bool(match and match[1] in "BCp")
    if token.text in WORDS or is_cell or register_of(token.text) is not None:
        means = "a word of the text" if token.text in WORDS else "a cell, an address, a spill row or a register"
        raise Breach(token, "name", f"`{token.text}` is {means}, and cannot be the name of {what}", "take another name")


class Names:
    """The rows that a program may name."""

    def __init__(self, head: Head) -> None:
        names = {SOURCE: head.sources, RESULT: head.results, BIT: head.bits, WORD: head.words}
        self.kinds = {SOURCE: list(head.sources.values()), RESULT: list(head.results.values()), BIT: ["bit"] * len(head.bits),
                      WORD: ["word"] * len(head.words), SPILL: ["bit"] * SPILLS}
        self.known = {name: Named(space, which, self.kinds[space][which]) for space in names for which, name in enumerate(names[space])}

    def find(self, token: Token) -> Named:
        """What a name means: an operand, scratch, or a row by its name in a listing."""
        if token.text in self.known:
            return self.known[token.text]
        if (place := listed(token.text)) is None:
            raise Breach(token, "name", f"there is no row `{token.text}`", f"the rows are {self.said()}, and the cells "
                            f"{', '.join(CELLS)}", "scratch is declared below the head, as `scratch c: bit, w: word`")
        space, which = place
        if which >= len(self.kinds[space]):
            raise Breach(token, "name", f"there is no row `{token.text}`", f"the rows are {self.said()}")
        return Named(space, which, self.kinds[space][which])

    def said(self) -> str:
        return ", ".join(f"{name} ({one.kind})" for name, one in self.known.items())


def read_register(tokens: Tokens) -> int:
    """The number of a register, of which there are eight."""
    token = tokens.name("a register")
    if (number := register_of(token.text)) is None:
        raise Breach(token, "register", f"`{token.text}` stands where a register is expected", "the registers are r0 to r7")
    if number >= REGISTERS:
        raise Breach(token, "register", f"there is no register {token.text}", "the registers are r0 to r7")
    tokens.registers.add(number)
    return number

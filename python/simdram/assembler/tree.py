"""A text as a tree: programs, their heads and their statements."""

import dataclasses
import typing

from ..files.program import Instruction
from ..rules.tokens import Token
from .forms import Form


@dataclasses.dataclass
class Head:
    """The head of a program: its name, its sources, results and scratch by name with their kinds, in order, and the width for
    which alone it is, where it is for one."""

    name: str
    token: Token
    sources: dict[str, str] = dataclasses.field(default_factory=dict)
    results: dict[str, str] = dataclasses.field(default_factory=dict)
    bits: list[str] = dataclasses.field(default_factory=list)
    words: list[str] = dataclasses.field(default_factory=list)
    width: int | None = None


class Operand(typing.NamedTuple):
    """A row of a command: its place in the text, its space, which one of it, and its index: a register's number, a form, or
    nothing where the row has no index."""

    token: Token
    space: int
    which: int
    index: int | Form | None = None


@dataclasses.dataclass
class Statement:
    """A statement, and where it stands."""

    token: Token


@dataclasses.dataclass
class Command(Statement):
    """A row command."""

    kind: int
    rows: tuple[Operand, ...]


@dataclasses.dataclass
class Out(Statement):
    """An instruction, and the label that it jumps to, whose place it does not have yet."""

    made: Instruction
    label: str = ""


@dataclasses.dataclass
class Jump(Statement):
    """A jump to a label or a number: by a register that is not zero, or always where none is named."""

    register: int | None
    target: Token


class Label(Statement):
    """A place with a name."""


class Numbered(Statement):
    """The number that the next instruction has."""


@dataclasses.dataclass
class For(Statement):
    """A loop: its variable, its first value, where it ends, its direction, by how much it goes on, its body."""

    variable: str
    start: Form
    end: Form
    is_down: bool
    step: int = 1
    body: list[typing.Any] = dataclasses.field(default_factory=list)

    @property
    def count(self) -> Form:
        """How many positions there are from the first value to the end: as many iterations, where it goes on by one."""
        return self.start - self.end + 1 if self.is_down else self.end - self.start

    @property
    def range(self) -> tuple[Form, Form]:
        """The least and the greatest value of the variable."""
        return (self.end, self.start) if self.is_down else (self.start, self.end - 1)


@dataclasses.dataclass
class If(Statement):
    """What is done where a form is zero, and where it is not."""

    form: Form
    zero: list[typing.Any] = dataclasses.field(default_factory=list)
    other: list[typing.Any] = dataclasses.field(default_factory=list)


class Next(Statement):
    """The next iteration of the loop; where there is none, the loop ends."""


@dataclasses.dataclass
class ProgramText:
    """A program of a text: its head, its statements, the registers that it names, and the number of instructions that its line
    `entry` says."""

    head: Head
    body: list[typing.Any]
    registers: set[int]
    code: Token | None = None


@dataclasses.dataclass
class Text:
    """A text: its programs in order, and the version of the file that it writes."""

    programs: list[ProgramText]
    version: int = 2

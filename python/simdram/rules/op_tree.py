"""What an operation text says: its ops as trees, with a printer in the canonical form, and their names and statements by
their places; `ops_rules` reads them."""

import dataclasses
import typing

from .tokens import Token
from .word_ops import TAKES_GIVES

WORD, BIT = "word", "bit"
TO_BIT = tuple(name for name, (_, gives) in TAKES_GIVES.items() if gives == "b")
# operations whose value is of the kind of their first argument
ALIKE = tuple(name for name, (_, gives) in TAKES_GIVES.items() if gives == "x")
Value = typing.TypeVar("Value")


class Expr(typing.NamedTuple):
    """An expression of a serial block: a constant ("0", "1"), a name ("read"), or a gate."""

    gate: str
    args: tuple["Expr", ...] = ()
    name: str = ""

    def __str__(self) -> str:
        """Its text; one of a netlist may nest deeper than calls do, so that none is made for what is inside."""
        found, left = "", [self]
        while left:
            one = left.pop()
            if isinstance(one, str) or not one.args:
                found += one if isinstance(one, str) else one.name or one.gate
            else:
                found += f"{one.gate}("
                left += [")", *(part for arg in reversed(one.args) for part in (arg, ", "))][:-1]
        return found

    def names(self) -> typing.Iterator[str]:
        """The names that it reads, in order."""
        if self.gate == "read":
            yield self.name
        for arg in self.args:
            yield from arg.names()

    def renamed(self, names: typing.Callable[[str], str]) -> "Expr":
        return read(names(self.name)) if self.gate == "read" else self._replace(args=tuple(arg.renamed(names) for arg in self.args))

    def computed(self, of: typing.Callable[[str], Value], made: typing.Callable[[str, list[Value]], Value]) -> Value:
        """What it gives, from the value of each name and constant and of each gate on values."""
        return made(self.gate, [arg.computed(of, made) for arg in self.args]) if self.args else of(self.name or self.gate)


def read(name: str) -> Expr:
    return Expr("read", (), name)


def gate(kind: str, *args: Expr) -> Expr:
    """A gate, or a constant where it takes nothing."""
    return Expr(kind, args)


@dataclasses.dataclass(frozen=True)
class WordStatement:
    """A word statement: its targets, the operation, and the names that it takes."""

    targets: tuple[str, ...]
    op: str
    args: tuple[str, ...]

    @property
    def reads(self) -> set[str]:
        return set(self.args)

    def reading(self, names: typing.Callable[[str], str]) -> "WordStatement":
        """The same with what it reads under other names."""
        return dataclasses.replace(self, args=tuple(map(names, self.args)))

    def renamed(self, names: typing.Callable[[str], str]) -> "WordStatement":
        return WordStatement(tuple(map(names, self.targets)), self.op, tuple(map(names, self.args)))


@dataclasses.dataclass(frozen=True)
class Block:
    """A serial block: its direction, its states with their first values, its lets and its assignments."""

    direction: str
    states: tuple[tuple[str, int], ...]
    lets: tuple[tuple[str, Expr], ...]
    assigns: tuple[tuple[str, Expr], ...]

    def changed(self, of: typing.Callable[[Expr], Expr], names: typing.Callable[[str], str] = str) -> "Block":
        """The block with other right sides, and other names of its own."""
        lets, assigns = (tuple((names(name), of(expr)) for name, expr in part) for part in (self.lets, self.assigns))
        return Block(self.direction, tuple((names(name), start) for name, start in self.states), lets, assigns)

    def renamed(self, names: typing.Callable[[str], str]) -> "Block":
        return self.changed(lambda expr: expr.renamed(names), names)

    def reading(self, names: typing.Callable[[str], str]) -> "Block":
        return self.changed(lambda expr: expr.renamed(names))

    @property
    def reads(self) -> set[str]:
        return {name for one in self.expressions for name in one.names()} - dict(self.states).keys() - dict(self.lets).keys()

    @property
    def expressions(self) -> list[Expr]:
        return [expr for _, expr in self.lets + self.assigns]


Statement = WordStatement | Block
Body = list[Statement]
Params = tuple[tuple[str, str], ...]


@dataclasses.dataclass(frozen=True)
class Op:
    """An op, and where its text begins and ends in the text that it was read from."""

    name: str
    params: Params
    results: Params
    body: Body
    start: int = 0
    end: int = 0

    def text(self, body: Body | None = None, name: str = "") -> str:
        """The canonical text, with another body or another name."""
        head = head_text(f"op {name or self.name}", self.params, self.results)
        return f"{head} {{\n{body_text(self.body if body is None else body)}}}\n"


def head_text(what: str, *parts: typing.Iterable[tuple[str, str]]) -> str:
    """The head of an op or a program: names with their kinds that it takes, and those that it gives."""
    takes, gives = (", ".join(f"{name}: {kind}" for name, kind in part) for part in parts)
    return f"{what}({takes}) -> {gives}"


def body_text(body: Body) -> str:
    lines: list[str] = []
    for one in body:
        if isinstance(one, WordStatement):
            lines.append(f"  {', '.join(one.targets)} = {one.op}({', '.join(one.args)});")
        else:
            lines.append(f"  serial {one.direction} ({', '.join(f'{name} = {start}' for name, start in one.states)}) {{")
            lines += [f"    let {name} = {value};" for name, value in one.lets]
            lines += [*(f"    {name} = {value};" for name, value in one.assigns), "  }"]
    return "".join(f"{line}\n" for line in lines)


def made_by(statement: Statement, kinds: typing.Mapping[str, str]) -> list[tuple[str, str]]:
    """The names that a statement defines, with their kinds."""
    if isinstance(statement, Block):
        states = dict(statement.states)
        return [(name, BIT) for name in states] + [(name, WORD) for name, _ in statement.assigns if name not in states]
    if statement.op in TO_BIT:
        return [(statement.targets[0], BIT)]
    return [(name, kinds[statement.args[0]] if statement.op in ALIKE else WORD) for name in statement.targets]


@dataclasses.dataclass
class StatementShape:
    """A statement: its place in the text, the names that it sets, its operation and what it takes, or of a block its direction,
    how its states begin, its lets and its assignments."""

    first: Token
    last: Token | None = None
    targets: list[str] = dataclasses.field(default_factory=list)
    operation: str = ""
    args: list[str] = dataclasses.field(default_factory=list)
    direction: str = ""
    starts: dict[str, str] = dataclasses.field(default_factory=dict)
    lets: dict[str, Expr] = dataclasses.field(default_factory=dict)
    assignments: dict[str, Expr] = dataclasses.field(default_factory=dict)
    # what the gates of a block weigh
    weight: int = 0

    def tree(self) -> WordStatement | Block:
        """The statement without its place."""
        if not self.direction:
            return WordStatement(tuple(self.targets), self.operation, tuple(self.args))
        states = tuple((name, int(start)) for name, start in self.starts.items())
        return Block(self.direction, states, tuple(self.lets.items()), tuple(self.assignments.items()))


@dataclasses.dataclass
class OpShape:
    """An op: its name, the kinds of its sources, its results and all names that it defines, in order; from where to where it is.

    While it is read, the names in `stands` are taken, and those in `defined` can be read.
    """

    name: str
    first: Token
    last: Token | None = None
    sources: dict[str, str] = dataclasses.field(default_factory=dict)
    results: dict[str, str] = dataclasses.field(default_factory=dict)
    defined: dict[str, str] = dataclasses.field(default_factory=dict)
    statements: list[StatementShape] = dataclasses.field(default_factory=list)
    stands: list[str] = dataclasses.field(default_factory=list)

    @property
    def last_statement(self) -> StatementShape:
        return self.statements[-1]

    def is_open_result(self, name: str) -> bool:
        """A result that is not assigned yet."""
        return name in self.results and name not in self.defined

    def is_taken_name(self, name: str) -> bool:
        """A name that no word statement may set."""
        return name in self.stands and not self.is_open_result(name)

    def is_taken_state(self, name: str) -> bool:
        """A name that no further state of the block may have."""
        if self.results.get(name) == "bit":
            return name in self.defined or name in self.last_statement.starts
        return name in self.stands

    def is_taken_target(self, name: str) -> bool:
        """A name that no further assignment of the block may set."""
        block = self.last_statement
        return name in block.assignments or name not in block.starts and self.is_taken_name(name)

    def end_block(self) -> None:
        """Makes the block's states and words names that can be read."""
        block = self.last_statement
        block.targets = [*block.starts, *block.assignments]
        words = [name for name in block.assignments if name not in block.starts]
        self.stands += words
        for name, kind in [*((name, "bit") for name in block.starts), *((name, "word") for name in words)]:
            self.defined.setdefault(name, kind)

    def tree(self) -> Op:
        return Op(self.name, tuple(self.sources.items()), tuple(self.results.items()), [one.tree() for one in self.statements],
                  self.first.at, self.last.at + 1)

    def scratch(self, kind: str) -> list[str]:
        """The names of a kind that stand in scratch, in the order of their places."""
        return [name for name, its in self.defined.items() if its == kind and name not in self.sources and name not in self.results]

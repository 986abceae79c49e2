"""A statement by itself, as it is measured: names by their places, and the arguments of xor and maj in one order; and
guesses at what it costs, which tell which statements are worth measuring."""

import collections
import typing

from ..rules.op_tree import BIT, WORD, Block, Expr, Statement, WordStatement, body_text, made_by
from ..rules.word_ops import WORD_OPS

# what a word by `zero` and a bit by `not` take in commands
ZERO, NOT_BIT = 1, 2
ASSOCIATIVE, SYMMETRIC = ("xor",), ("maj",)


class Cost(typing.NamedTuple):
    """Row commands and scratch rows."""

    commands: int
    rows: int


Costs = dict[int, Cost]


class Alone(typing.NamedTuple):
    """A statement with names by their places: its text, the kinds of what it reads and of what it defines, and a low guess at the
    commands of a position."""

    text: str
    reads: tuple[tuple[str, str], ...]
    makes: tuple[str, ...]
    guess: float

    @property
    def key(self) -> str:
        """What its cost is kept by."""
        return f"{self.text}# {', '.join(f'{name}: {kind}' for name, kind in self.reads)}"

    def probe(self, name: str) -> str:
        """An op that does the statement, with words by `zero` and bits by `not`."""
        lines = [f"  {what} = {'zero()' if kind == WORD else 'not(s)'};\n" for what, kind in self.reads]
        return f"op {name}(a: word, s: bit) -> y: word {{\n{''.join(lines)}{self.text}  y = zero();\n}}\n"

    def own_cost(self, n: int, cost: Cost) -> Cost:
        """What the statement itself takes of its probe's cost at a width."""
        made, words = self.makes.count(WORD) * n + self.makes.count(BIT), sum(kind == WORD for _, kind in self.reads)
        bits = len(self.reads) - words
        return Cost(cost.commands - (words + 1) * ZERO * n - bits * NOT_BIT, cost.rows - words * n - bits - made)


def operands(expr: Expr, gate: str) -> typing.Iterator[Expr]:
    """The operands of nested gates of one kind."""
    for arg in expr.args:
        yield from operands(arg, gate) if arg.gate == gate else (arg,)


def rank(expr: Expr) -> tuple[bool, str]:
    """Where an operand stands among others: complements come last, so that a sum of a carry kept inverted takes the fewest."""
    return expr.gate == "not", str(expr)


def in_order(expr: Expr) -> Expr:
    """An expression with the arguments of xor and maj in one order, and nested xor associated to the left."""
    if expr.gate in ASSOCIATIVE:
        parts = sorted(map(in_order, operands(expr, expr.gate)), key=rank)
        found = parts[0]
        for part in parts[1:]:
            found = Expr(expr.gate, (found, part))
        return found
    args = tuple(map(in_order, expr.args))
    return expr._replace(args=tuple(sorted(args, key=rank)) if expr.gate in SYMMETRIC else args)


Pairs = tuple[tuple[str, Expr], ...]


def by_places(one: Statement, names: dict[str, str]) -> Statement:
    """A statement with names by the places where they first stand; `names` gets them."""
    def again(name: str) -> str:
        return names.setdefault(name, f"v{len(names)}")

    def of_pairs(pairs: Pairs) -> Pairs:
        found = [(name, expr.renamed(again)) for name, expr in pairs]
        return tuple((again(name), expr) for name, expr in found)

    if isinstance(one, WordStatement):
        args = tuple(map(again, one.args))
        return WordStatement(tuple(map(again, one.targets)), one.op, args)
    lets, assigns = of_pairs(one.lets), of_pairs(one.assigns)
    return Block(one.direction, tuple((again(name), start) for name, start in one.states), lets, assigns)


def normal(one: Statement) -> Statement:
    """A statement as it is measured, with its own names."""
    names: dict[str, str] = {}
    found = by_places(one, names)
    own = {place: name for name, place in names.items()}
    return (found.changed(in_order) if isinstance(found, Block) else found).renamed(own.__getitem__)


def alone(one: Statement, kinds: typing.Mapping[str, str]) -> Alone:
    names: dict[str, str] = {}
    plain = by_places(normal(one), names)
    made = dict(made_by(one, kinds))
    own = set(made) if isinstance(one, WordStatement) else {*made, *dict(one.lets)}
    reads = tuple((place, kinds[name]) for name, place in names.items() if name not in own)
    return Alone(body_text([plain]), reads, tuple(made.values()), guessed(one, kinds))


# commands of a position, fitted by least squares on measured blocks of bench/kernels
WEIGHTS = {"and": 0.75, "xor": 1.6, "maj": 0.6, "word": 1.3, "bit": 2.2, "target": 1.0, "state": 2.0, "one": -1.9}
# guesses of blocks are taken so much lower, as a block may be cheaper than its gates say
OPTIMISM = 0.75


def gates_of(expr: Expr) -> typing.Iterator[str]:
    """The gates of an expression; or is counted as and, which it is of complements."""
    if expr.args and expr.gate != "not":
        yield "and" if expr.gate == "or" else expr.gate
    for arg in expr.args:
        yield from gates_of(arg)


def guessed(one: Statement, kinds: typing.Mapping[str, str]) -> float:
    """A low guess at the commands of a position of a statement."""
    if isinstance(one, Block):
        found = collections.Counter(gate for expr in one.expressions for gate in gates_of(expr))
        states = dict(one.states)
        found[WORD] = sum(kinds[name] == WORD for name in one.reads)
        found[BIT] = len(one.reads) - found[WORD]
        found["state"] = sum(name in states for name, _ in one.assigns)
        found["target"] = len(one.assigns) - found["state"]
        found["one"] = 1
        return OPTIMISM * max(1.0, sum(WEIGHTS[name] * count for name, count in found.items()))
    return WORD_OPS[one.op].each if all(kinds[arg] == WORD for arg in one.args[:2]) else 0.0

"""The expressions of a block: how its gates are written."""

import random
import typing

from ..rules.op_tree import Expr, gate, read
from .gates import Graph, Node
from .items import Items

STYLES = 3


def named(lit: int, names: typing.Mapping[int, str]) -> Expr | None:
    """A constant or a name, inverted where its opposite has the name."""
    if lit < 2:
        return gate(str(lit))
    if lit in names:
        return read(names[lit])
    return gate("not", read(names[lit ^ 1])) if lit ^ 1 in names else None


class Spelling:
    """Writes literals of a block as expressions.

    A number chooses how: one of three kinds of choice, and above these the order of symmetric gates' arguments and the
    association of xor, drawn by the number.
    """

    def __init__(self, items: Items, number: int, inside: typing.Mapping[int, str], standing: typing.Mapping[int, str]) -> None:
        self.items, self.graph, self.inside, self.standing = items, items.graph, inside, standing
        self.style, self.random = number % STYLES, random.Random(number) if number >= STYLES else None
        self.let_names: dict[int, str] = {}

    def named(self, lit: int) -> Expr | None:
        """A literal that is a constant or has a name, in the block first."""
        return named(lit, self.inside) or named(lit, self.standing)

    def expr(self, lit: int, is_let: bool = False) -> Expr:
        """A literal; a let's own right side does not read the let."""
        if found := self.named(lit):
            return found
        if lit >> 1 in self.let_names and not is_let:
            return named(lit, {lit & ~1: self.let_names[lit >> 1]})
        node = self.graph.node(lit)
        return getattr(self, f"_{node.kind}")(lit, node)

    def _drawn(self, args: list[Expr]) -> list[Expr]:
        if self.random:
            self.random.shuffle(args)
        return args

    def _and(self, lit: int, node: Node) -> Expr:
        a, b = node.args
        if lit & 1:
            return gate("or", *self._drawn([self.expr(a ^ 1), self.expr(b ^ 1)]))
        if a & b & 1 and not self.named(a) and not self.named(b):
            return gate("not", gate("or", self.expr(a ^ 1), self.expr(b ^ 1)))
        return gate("and", *self._drawn([self.expr(a), self.expr(b)]))

    def _mux(self, lit: int, node: Node) -> Expr:
        (s, x, y), flip = node.args, lit & 1
        if self.style == 1:
            return gate("xor", self.expr(y ^ flip), gate("and", self.expr(s), gate("xor", self.expr(x), self.expr(y))))
        sides = [gate("and", self.expr(s), self.expr(x ^ flip)), gate("and", self.expr(s ^ 1), self.expr(y ^ flip))]
        return gate("maj", *sides, gate("1")) if self.style == 2 else gate("or", *sides)

    def _maj(self, lit: int, node: Node) -> Expr:
        found = gate("maj", *self._drawn([self.expr(arg) for arg in node.args]))
        return gate("not", found) if lit & 1 else found

    def _xor(self, lit: int, node: Node) -> Expr:
        """A sum modulo 2 of all parts that nothing else names."""
        parts, todo, flip = [], list(node.args), lit & 1
        while todo:
            arg = todo.pop(0)
            below = self.graph.node(arg)
            is_part = self.named(arg) or arg >> 1 in self.let_names or self.items.bits_only(arg)
            if below.kind == "xor" and not is_part:
                todo, flip = [*below.args, *todo], flip ^ arg & 1
            else:
                parts.append(self.expr(arg))
        parts = self._drawn(parts)
        while len(parts) > 1:
            at = self.random.randrange(len(parts) - 1) if self.random else 0
            parts[at:at + 2] = [gate("xor", *parts[at:at + 2])]
        return gate("not", parts[0]) if flip else parts[0]


def uses(graph: Graph, roots: typing.Iterable[int], spelling: Spelling, on_bits: typing.Callable[[int], bool]) -> dict[int, int]:
    """How often each gate is read, in an order in which they can be written.

    `on_bits` deals with what is of bits alone, and tells whether it did.
    """
    counts: dict[int, int] = {}

    def go(lit: int) -> None:
        if spelling.named(lit) or on_bits(lit):
            return
        number, node = lit >> 1, graph.node(lit)
        if number not in counts:
            for arg in node.args:
                go(arg)
            if node.kind == "mux" and spelling.style < 2:
                go(node.args[0] if spelling.style == 0 else node.args[2])
            counts[number] = 0
        counts[number] += 1

    for root in roots:
        go(root)
    return counts

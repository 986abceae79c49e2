"""The word operations as gates and states, and their other forms."""

import typing

from ..rules.op_tree import WORD
from .gates import STATE, WHOLE, StateRule, replaced
from .sums import Sums

ALONE = "alone"
CHAIN_LEAVES = 8


class Forms(Sums):
    """The rule of each word operation, from literals to a literal: that of `RULES`, or `do_NAME`."""

    def value(self, op: str, args: typing.Sequence[int]) -> int:
        """The value of an operation of one result."""
        if op in ("and", "or", "xor"):
            return self.of_two(op, *args)
        return RULES[op](self, *args) if op in RULES else getattr(self, f"do_{op}")(*args)

    def _shifted(self, op: str, direction: str, a: int) -> int:
        """A state that holds the position before, or the one above."""
        return self.graph.form(self.graph.state(direction, 0, lambda now: a), op, a)

    def _reduced(self, op: str, gate: str, start: int, a: int) -> int:
        graph = self.graph
        return graph.form(graph.last(graph.state("any", start, lambda now: graph.gate(gate, now, a))), op, a)

    def do_or_red(self, a: int) -> int:
        found = self.by_top(a, 0)
        return found if found is not None else self._reduced("or_red", "or", 0, a)

    def do_if_else(self, a: int, b: int, s: int) -> int:
        """A choice; between two differences it is their amount, and between a sum and a difference it has one carry."""
        for found in (self.apart(a, b, s), self.one_carry(a, b, s)):
            if found is not None:
                return found
        return self.graph.gate("mux", s, a, b)

    def _extreme(self, op: str, a: int, b: int) -> int:
        """The lesser or the greater: whole, a choice by a comparison or by bits of all comparisons, or from the top."""
        graph, (a, b) = self.graph, sorted((a, b))
        if a == b:
            return a
        if a < 2:
            return b if (op == "min") == (a == 1) else a
        how = self.choose(op, (ALONE, "gt", "bits", "down"))
        if how == ALONE:
            found = graph.whole(op, a, b)
        elif how == "down":
            found = self._from_the_top(op, a, b)
        else:
            bit = self.do_gt(a, b) if how == "gt" else self.greater(a, b)
            found = graph.gate("mux", bit ^ (op == "min"), a, b)
        return self.made(found, op, a, b)

    def _from_the_top(self, op: str, a: int, b: int) -> int:
        """Two states: a is known to be less, or to be greater."""
        graph = self.graph
        less, greater = graph.new_state(), graph.new_state()
        is_less, is_greater = graph.leaf(STATE, less), graph.leaf(STATE, greater)
        falls, rises = graph.gate("and", a ^ 1, b), graph.gate("and", a, b ^ 1)
        graph.states[less] = StateRule("down", graph.gate("or", is_less, graph.gate("and", falls, is_greater ^ 1)))
        graph.states[greater] = StateRule("down", graph.gate("or", is_greater, graph.gate("and", rises, is_less ^ 1)))
        if op == "min":
            return graph.gate("and", graph.gate("or", a, is_greater), graph.gate("or", b, is_less))
        return graph.gate("or", graph.gate("and", a, is_less ^ 1), graph.gate("and", b, is_greater ^ 1))

    def _of_sign(self, op: str, a: int) -> int:
        """Whole, or a block by the top bit."""
        graph, before = self.graph, self.was.get(a)
        if a == 0 or a == 1 and op == "relu":
            return 0
        if before and before.op in (op, "relu"):
            return a
        if self.choose(op, (ALONE, "block")) == ALONE:
            return self.made(graph.whole(op, a), op, a)
        top = self.top(a)
        return self.made(graph.gate("and", a, top ^ 1) if op == "relu" else self.negate_if(a, top), op, a)

    def chain(self, lit: int) -> None:
        """Makes a choice among words by bits a chain of choices, where it is one: the node's gate is replaced."""
        graph = self.graph
        words = [leaf for leaf in sorted(graph.node(lit).leaves) if graph.nodes[leaf].kind in (WORD, WHOLE)]
        if lit < 2 or graph.node(lit).is_leaf or len(graph.node(lit).support) > CHAIN_LEAVES or len(words) < 2 \
                or any(leaf.kind == STATE for leaf in graph.reached(lit)):
            return
        picks = {word: replaced(self.graph, lit, {2 * one: int(one == word) for one in words}, {}) for word in words}
        if found := [one for one in (self._chain_by(lit, words, picks, k) for k in range(len(words))) if one]:
            _, s, x, y = min(found)
            if lit >> 1 not in graph.cone(s) | graph.cone(x) | graph.cone(y):
                graph.nodes[lit >> 1] = graph.node(lit)._replace(kind="mux", args=(s, x ^ lit & 1, y ^ lit & 1))

    def _chain_by(self, lit: int, words: list[int], picks: dict[int, int], k: int) -> tuple[int, int, int, int] | None:
        """The chain that ends with word k: its size, and its first choice."""
        graph = self.graph
        others = sorted((word for word in words if word != words[k]), key=lambda word: len(graph.node(picks[word]).leaves))
        inner = 2 * words[k]
        for word in others[:0:-1]:
            inner = graph.gate("mux", picks[word], 2 * word, inner)
        first = others[0]
        if inner >> 1 == lit >> 1 or graph.gate("mux", picks[first], 2 * first, inner) != lit:
            return None
        return sum(len(graph.cone(picks[word])) for word in others), picks[first], 2 * first, inner


# of each operation with a short rule, its value
RULES: dict[str, typing.Callable[..., int]] = {
    "not": lambda _, a: a ^ 1, "copy": lambda _, a: a, "zero": lambda _: 0, "ones": lambda _: 1,
    "ge": lambda self, a, b: self.do_gt(b, a) ^ 1,
    "shl1": lambda self, a: self._shifted("shl1", "up", a), "shr1": lambda self, a: self._shifted("shr1", "down", a),
    "and_red": lambda self, a: self._reduced("and_red", "and", 1, a), "xor_red": lambda self, a: self._reduced("xor_red", "xor", 0, a),
    "min": lambda self, a, b: self._extreme("min", a, b), "max": lambda self, a, b: self._extreme("max", a, b),
    "abs": lambda self, a: self._of_sign("abs", a), "relu": lambda self, a: self._of_sign("relu", a),
    "div": lambda self, a, b: self.divide(a, b)[0], "rem": lambda self, a, b: self.divide(a, b)[1],
    "bitcount": lambda self, a: a and self.graph.whole("bitcount", a),
}

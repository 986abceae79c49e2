"""From an op's statements to its graph."""

import typing

from ..rules.op_tree import BIT, WORD, Block, Expr, Op, WordStatement, made_by
from .forms import Forms
from .gates import STATE, StateRule, equal_states, settle


class Lowered(Forms):
    """The graph of an op: its results, the names of literals, and the words of the text that may stand in rows."""

    def __init__(self, op: Op, choice: typing.Sequence[int] = ()) -> None:
        super().__init__(choice)
        self.op = op
        self.values = {name: (kind, self.graph.leaf(kind, name)) for name, kind in op.params}
        self.named: dict[int, str] = {}
        self.optional: list[int] = []
        for one in op.body:
            if isinstance(one, WordStatement):
                self._word(one)
            else:
                self._block(one)
        self.results = [(name, kind, self.values[name][1]) for name, kind in op.results]
        if self.graph.states:
            now = settle(self.graph, equal_states(self.graph))
            self.results = [(name, kind, now(lit)) for name, kind, lit in self.results]
            self.optional = [now(lit) for lit in self.optional]
            self.named = {now(lit): name for lit, name in reversed(list(self.named.items()))}
        has_extremes = any(what in ("min", "max") for what, _ in self.options)
        if has_extremes and self.choose("chain", ("no", "yes")) == "yes":
            for _, kind, lit in self.results:
                if kind == WORD:
                    self.chain(lit)

    def _keep(self, name: str, kind: str, lit: int) -> None:
        self.values[name] = (kind, lit)
        self.named.setdefault(lit, name)
        if kind == WORD:
            self.optional.append(lit)

    def _word(self, one: WordStatement) -> None:
        args = [self.values[arg][1] for arg in one.args]
        lits = self.divide(*args) if one.op == "divmod" else (self.value(one.op, args),)
        for (name, kind), lit in zip(made_by(one, {arg: self.values[arg][0] for arg in one.args}), lits):
            self._keep(name, kind, lit)

    def _block(self, block: Block) -> None:
        graph, now, states = self.graph, {}, {}
        for name, start in block.states:
            states[name] = graph.new_state()
            now[name] = graph.leaf(STATE, states[name]) ^ start
        inside = dict(now)
        for name, expr in block.lets:
            inside[name] = self._expr(expr, inside)
        nexts = {name: self._expr(expr, inside) for name, expr in block.assigns}
        roots = dict(nexts)
        for name, start in block.states:
            after = nexts.pop(name, now[name]) ^ start
            others = [lit for other, lit in roots.items() if other != name]
            direction = "any" if self._is_reduction(states[name], after, others) else block.direction
            graph.states[states[name]] = StateRule(direction, after)
            self.values[name] = (BIT, graph.last(now[name]))
            self.named.setdefault(now[name], name)
        for name, lit in nexts.items():
            self._keep(name, WORD, lit)

    def _is_reduction(self, state: int, after: int, others: typing.Iterable[int]) -> bool:
        """Whether a state's last value is the same in both directions, and nothing else reads the state.

        It is a state of and, or, xor with what has no state.
        """
        graph, node, now = self.graph, self.graph.node(after), self.graph.leaf(STATE, state)
        if node.kind not in ("and", "xor") or not {now, now ^ 1}.intersection(node.args):
            return False
        own, other = sorted(node.args, key=lambda arg: arg >> 1 != now >> 1)
        if any(leaf.kind == STATE for leaf in graph.reached(other)):
            return False
        is_read = any(now >> 1 in graph.node(lit).leaves for lit in others)
        return not is_read and (node.kind == "xor" or (own ^ after) & 1 == 0)

    def _expr(self, expr: Expr, inside: typing.Mapping[str, int]) -> int:
        if expr.gate in ("0", "1"):
            return int(expr.gate)
        if expr.gate == "read":
            return inside[expr.name] if expr.name in inside else self.values[expr.name][1]
        chosen = self._choice(expr, inside) if expr.gate == "or" else None
        if chosen is not None:
            return chosen
        return self.graph.gate(expr.gate, *(self._expr(arg, inside) for arg in expr.args))

    def _choice(self, expr: Expr, inside: typing.Mapping[str, int]) -> int | None:
        """A choice that is written as or(and(s, x), and(not(s), y))."""
        first, second = expr.args
        if not first.gate == second.gate == "and":
            return None
        one, two = ([self._expr(arg, inside) for arg in part.args] for part in (first, second))
        for i in (0, 1):
            for j in (0, 1):
                if one[i] == two[j] ^ 1:
                    return self.graph.gate("mux", one[i], one[1 - i], two[1 - j])
        return None

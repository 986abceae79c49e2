"""A group of a plan as one statement: a word statement where one does, else a serial block."""

import typing

from ..rules.op_tree import BIT, WORD, Block, Body, Expr, read
from ..rules.ops_rules import LETS
from .gates import LAST, STATE
from .items import STATES, Item, Items
from .op_limits import fits, live
from .plans import NoOp, Plan, is_whole
from .spelling import Spelling, uses
from .statement_alone import normal
from .statements import Statements


class BlockWriter:
    """Writes a group."""

    def __init__(self, made: Statements, group: int) -> None:
        self.made, self.items, self.graph, self.group = made, made.items, made.graph, group
        self.plan = made.plan
        self.words, self.components = made.order.written[group], made.order.computed[group]
        self.states = sorted(state for one in self.components for state in self.items.components[one])
        # each state's name, and whether it is kept inverted
        self.kept: dict[int, tuple[str, int]] = {}

    def is_own(self, state: int) -> bool:
        """Whether a state is the group's own, and not computed again."""
        return Item(STATES, self.items.component[state]) in self.plan.groups[self.group]

    def write(self) -> None:
        if self.group not in self.plan.blocks and (self._as_word() or self._as_comparison()):
            return
        directions = {self.graph.states[state].direction for state in self.states} - {"any"}
        if len(directions) > 1:
            raise NoOp("two directions")
        for state in self.states:
            self.kept[state] = self._name_of(state)
        self._block((directions or {"up"}).pop())

    def _as_word(self) -> bool:
        """A word operation but `add`, which takes more than its block."""
        if len(self.words) != 1 or any(state in self.items.read_last for state in self.states if self.is_own(state)):
            return False
        form = self.made.word_form(self.words[0])
        if not form or form[0] == "add":
            return False
        self.made.call([self.made.name(self.words[0], WORD)], *form)
        return True

    def _as_comparison(self) -> bool:
        """A comparison or a reduction, as a result asks for it."""
        lasts = [state for state in self.states if state in self.items.read_last and self.is_own(state)]
        if self.words or len(lasts) != 1 or len(self.components) != 1:
            return False
        made, last = self.made, self.graph.leaf(LAST, lasts[0])
        is_inverted = last not in self.items.read and last ^ 1 in self.items.read
        for lit in (last ^ 1, last) if is_inverted else (last, last ^ 1):
            for op, args in self.graph.forms.get(lit, []):
                is_other_way = lit ^ 1 in made.result_of and op in ("gt", "ge")
                is_asked = lit in made.result_of or last not in made.result_of
                if all(arg in made.standing for arg in args) and is_asked and not is_other_way:
                    made.call([made.name(lit, BIT, op)], op, [made.standing[arg] for arg in args])
                    return True
        return False

    def _name_of(self, state: int) -> tuple[str, int]:
        """A state's name in the block, and whether it is kept inverted: as a result, or as the text had it."""
        made, now, last = self.made, self.graph.leaf(STATE, state), self.graph.leaf(LAST, state)
        for turn in (0, 1) if self.is_own(state) else ():
            name, kind = made.result_of.get(last ^ turn, ("", ""))
            if kind == BIT and name not in made.done:
                made.done.add(name)
                return name, turn
        named = made.lowered.named
        turn = int(now ^ 1 in named and now not in named) ^ int(state in self.plan.turned)
        return made.fresh(named.get(now ^ turn) or named.get(last ^ turn) or "c"), turn

    def _block(self, direction: str) -> None:
        made = self.made
        inside = {self.graph.leaf(STATE, state) ^ turn: name for state, (name, turn) in self.kept.items()}
        spelling = Spelling(self.items, dict(self.plan.spelling).get(self.group, 0), inside, made.standing)
        nexts = [self.items.rule(state) ^ self.kept[state][1] for state in self.states]
        counts = uses(self.graph, [*self.words, *nexts], spelling, self._on_bits)
        lets = self._lets(spelling, [number for number, count in counts.items() if count > 1][:LETS])
        words = [spelling.expr(lit) for lit in self.words]
        values = [(self.kept[state][0], spelling.expr(lit)) for state, lit in zip(self.states, nexts)]
        assigns = [(made.name(lit, WORD), value) for lit, value in zip(self.words, words)]
        assigns += [(name, value) for name, value in values if value != read(name)]
        assigns = assigns or [(values[0][0], read(values[0][0]))]
        for state, (name, turn) in self.kept.items():
            if self.is_own(state):
                made.standing[self.graph.leaf(LAST, state) ^ turn] = name
        states = tuple(self.kept[state] for state in self.states)
        made.body.append(Block(direction, states, tuple(lets), tuple(assigns)))

    def _on_bits(self, lit: int) -> bool:
        """Gates of bits alone stand before the block."""
        if self.graph.node(lit).is_leaf:
            raise NoOp("a leaf that does not stand")
        if not self.items.bits_only(lit):
            return False
        self.made.bit(lit & ~1)
        return True

    def _lets(self, spelling: Spelling, numbers: typing.Iterable[int]) -> list[tuple[str, Expr]]:
        """A let for each gate that is read more than once."""
        lets = []
        for number in numbers:
            name = self.made.fresh("x")
            lets.append((name, spelling.expr(2 * number, True)))
            spelling.let_names[number] = name
        return lets


def written(items: Items, plan: Plan, keeps_limits: bool = True) -> Body:
    """The statements of a plan; a plan that is no op raises `NoOp`."""
    made = Statements(items, plan)
    for k in made.order.order:
        group = plan.groups[k]
        if is_whole(group):
            if len(group) > 1:
                raise NoOp("an operation that is not alone")
            made.whole(next(iter(group)).number)
        elif made.order.written[k] or made.order.computed[k]:
            BlockWriter(made, k).write()
    for name, kind, lit in items.lowered.results:
        if name not in made.done:
            made.result(name, kind, lit)
    body = [normal(one) for one in live(made.body, [name for name, _ in items.lowered.op.results])]
    if keeps_limits and not fits(body):
        raise NoOp("the limits")
    return body

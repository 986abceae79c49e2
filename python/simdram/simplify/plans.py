"""A plan: which items stand in one statement, in which order the statements run, and what each writes for later ones."""

import dataclasses
import typing

from .gates import CONST, LAST, STATE, WHOLE, Node
from .items import OPERATION, ROW, STATES, Item, Items

Group = frozenset[Item]


class NoOp(Exception):
    """A plan that is no op of the language."""


@dataclasses.dataclass(frozen=True)
class Plan:
    """Groups of items, one statement each, and how blocks are written.

    `again` has the components that each block that reads them computes for itself; `spelling` numbers the spelling of a
    group's block, `turned` has the states that are kept inverted, and `blocks` the groups that are blocks although a word
    statement would do.
    """

    groups: tuple[Group, ...]
    again: frozenset[int] = frozenset()
    spelling: tuple[tuple[int, int], ...] = ()
    turned: frozenset[int] = frozenset()
    blocks: frozenset[int] = frozenset()

    def with_groups(self, groups: typing.Iterable[Group]) -> "Plan":
        """The same with other groups; an empty one goes."""
        return dataclasses.replace(self, groups=tuple(filter(None, groups)))

    @property
    def key(self) -> tuple:
        """What two plans of equal statements have in common."""
        return frozenset(self.groups), self.again


def is_whole(group: typing.Iterable[Item]) -> bool:
    """Whether a group is an operation that stays whole."""
    return any(item.kind == OPERATION for item in group)


class Order:
    """The order of a plan's groups, and what each group computes and writes."""

    def __init__(self, items: Items, plan: Plan) -> None:
        self.items, self.graph, self.plan = items, items.graph, plan
        self.where = {item: k for k, group in enumerate(plan.groups) for item in group}
        self.row_of = {item.number >> 1: item for item in self.where if item.kind == ROW}
        self.order = self._sorted(self._edges())
        self.rank = {group: rank for rank, group in enumerate(self.order)}
        self.written = {k: [item.number for item in sorted(plan.groups[k]) if item.kind == ROW] for k in self.order}
        self.computed = {k: {item.number for item in plan.groups[k] if item.kind == STATES} for k in self.order}
        self.home = {number: k for k in self.order for number in self.computed[k]}
        for k in reversed(self.order):
            if not is_whole(plan.groups[k]):
                self._settle(k)

    def _edges(self) -> dict[int, set[int]]:
        """Which groups each group needs before it."""
        edges: dict[int, set[int]] = {k: set() for k in range(len(self.plan.groups))}
        for item, k in self.where.items():
            for other, is_strict in needs(self, item):
                if other not in self.where or is_strict and self.where[other] == k:
                    raise NoOp("an item's need")
                if self.where[other] != k:
                    edges[k].add(self.where[other])
        return edges

    @staticmethod
    def _sorted(edges: dict[int, set[int]]) -> list[int]:
        order: list[int] = []
        while len(order) < len(edges):
            if (ready := next((k for k in edges if k not in order and edges[k].issubset(order)), None)) is None:
                raise NoOp("a cycle")
            order.append(ready)
        return order

    def _settle(self, group: int) -> None:
        """Finds all that a group computes and that earlier groups write for it."""
        written, computed, seen, before = self.written[group], self.computed[group], set(), None
        while before != (len(written), len(computed)):
            before = len(written), len(computed)
            for lit in [*written, *(self.items.rule(state) for one in list(computed) for state in self.items.components[one])]:
                self._demand(group, lit, seen)

    def _demand(self, group: int, lit: int, seen: set[int]) -> None:
        """What a group reads for a literal: where it needs the states of an earlier block, that one writes a row."""
        number, node = lit >> 1, self.graph.node(lit)
        if number in seen:
            return
        seen.add(number)
        if node.kind == CONST or node.is_leaf and node.kind != STATE:
            return
        if (other := self._other_row(group, number)) is not None:
            if self.rank[other] > self.rank[group]:
                raise NoOp("a row that comes later")
            return
        if self._is_cut(group, number):
            return
        below = node.args
        if node.is_leaf:
            component = self.items.component[node.ident]
            if component in self.plan.again and component not in self.computed[group]:
                self.computed[group].add(component)
                below = map(self.items.rule, self.items.components[component])
        for one in below:
            self._demand(group, one, seen)

    def _other_row(self, group: int, number: int) -> int | None:
        """The other group in which a node stands in a row."""
        other = self.where.get(self.row_of.get(number), group)
        return None if other == group else other

    def _is_cut(self, group: int, number: int) -> bool:
        """Whether the node is read from a row that the group of its states writes."""
        node, computed = self.graph.nodes[number], self.computed[group]
        leaves = self.graph.reached(2 * number)
        read = {self.items.component[leaf.ident] for leaf in leaves if leaf.kind == STATE}
        if not read or any(one in computed or one in self.plan.again for one in read):
            return False
        if not node.is_leaf and (self._is_covered(group, number) or number in self.row_of):
            return False
        writer = max((self.home[one] for one in read), key=self.rank.__getitem__)
        if self.rank[writer] < self.rank[group] and all(self._stands(leaf, writer) for leaf in leaves):
            if not {2 * number, 2 * number + 1}.intersection(self.written[writer]):
                self.written[writer].append(2 * number)
            return True
        if node.is_leaf:
            raise NoOp("a state that no row can hold")
        return False

    def _stands(self, leaf: Node, group: int) -> bool:
        """Whether a leaf is known before a group's block."""
        if leaf.kind not in (LAST, WHOLE):
            return True
        maker = self.home[self.items.component[leaf.ident]] if leaf.kind == LAST else self.where[Item(OPERATION, leaf.ident)]
        return self.rank[maker] < self.rank[group]

    def _is_covered(self, group: int, number: int, is_top: bool = True) -> bool:
        """Whether rows already give all that a node needs of other blocks."""
        if not is_top:
            earlier = (its for other, its in self.written.items() if self.rank[other] < self.rank[group])
            if self._other_row(group, number) is not None or any({2 * number, 2 * number + 1}.intersection(its) for its in earlier):
                return True
        node = self.graph.nodes[number]
        if node.is_leaf or node.kind == CONST:
            return node.kind != STATE
        return all(self._is_covered(group, arg >> 1, False) for arg in node.args)


def needs(order: Order, item: Item) -> set[tuple[Item, bool]]:
    """The items that an item needs; those of which it needs the last value or the whole word must stand before its group."""
    items, graph = order.items, order.graph
    found: set[tuple[Item, bool]] = set()
    if item.kind == OPERATION:
        for arg in graph.wholes[item.number].args:
            if graph.node(arg).kind == WHOLE and not arg & 1:
                found.add((Item(OPERATION, graph.node(arg).ident), True))
            elif items.needs_row(arg, False):
                found.add((order.row_of.get(arg >> 1, Item(ROW, arg)), True))
        return found
    todo, seen = list(map(items.rule, items.components[item.number])) if item.kind == STATES else [item.number], set()
    while todo:
        number, node = todo[-1] >> 1, graph.node(todo.pop())
        if number in seen or node.kind == CONST:
            continue
        seen.add(number)
        component = items.component[node.ident] if node.kind in (STATE, LAST) else -1
        is_own = node.kind == STATE and item == Item(STATES, component)
        if number in order.row_of and not is_own and not (item.kind == ROW and number == item.number >> 1):
            found.add((order.row_of[number], False))
        elif not node.is_leaf:
            todo += node.args
        elif node.kind == STATE and not is_own and component in order.plan.again:
            todo += map(items.rule, items.components[component])
        elif node.kind == LAST or node.kind == STATE and not is_own:
            found.add((Item(STATES, component), node.kind == LAST))
        elif node.kind == WHOLE:
            found.add((Item(OPERATION, node.ident), True))
    return found

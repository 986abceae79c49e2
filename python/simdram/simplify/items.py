"""What an op's text must compute: components of states, whole operations, and words that stand in rows."""

import typing

from ..rules.op_tree import BIT, WORD
from .gates import LAST, STATE, WHOLE
from .lowering import Lowered


class Item(typing.NamedTuple):
    """A component of states, a whole operation, or a word that stands in a row of its own, by its number or literal."""

    kind: str
    number: int


STATES, OPERATION, ROW = "states", "whole", "word"


class Items:
    """The items of a graph that its results need, and those words of the text that may stand in rows too."""

    def __init__(self, lowered: Lowered) -> None:
        self.lowered, self.graph = lowered, lowered.graph
        self.needed: set[int] = set()
        self.read_last: set[int] = set()
        self.wholes: dict[int, set[int]] = {}
        self.words = list(dict.fromkeys(self._find()))
        self.component: dict[int, int] = {}
        self.components: list[frozenset[int]] = []
        self._join()
        # the literals that are read as they are, and not only inverted
        self.read: set[int] = set()
        self.optional = self._optional()

    def rule(self, state: int) -> int:
        return self.graph.states[state].next

    def _find(self) -> typing.Iterator[int]:
        """Finds the states and operations that are needed, and gives the words that must stand in rows."""
        graph, results = self.graph, self.lowered.results
        yield from (lit for _, kind, lit in results if kind == WORD and self.needs_row(lit))
        todo = [lit for _, _, lit in results]
        while todo:
            for node in graph.reached(todo.pop()):
                if node.kind == LAST:
                    self.read_last.add(node.ident)
                if node.kind in (STATE, LAST) and node.ident not in self.needed:
                    self.needed.add(node.ident)
                    todo.append(self.rule(node.ident))
                if node.kind == WHOLE:
                    if node.ident not in self.wholes:
                        todo += graph.wholes[node.ident].args
                        yield from (arg for arg in graph.wholes[node.ident].args if self.needs_row(arg, False))
                    self.wholes.setdefault(node.ident, set()).add(node.place)

    def needs_row(self, lit: int, is_result: bool = True) -> bool:
        """Whether a word has to be computed into rows: it is no source's and no operation's, and no constant result."""
        return not (self.graph.node(lit).kind in (WORD, WHOLE) and not lit & 1) and not (is_result and lit < 2)

    def _join(self) -> None:
        """States that read each other are one component."""
        reach = {state: {leaf.ident for leaf in self.graph.reached(self.rule(state)) if leaf.kind == STATE} for state in self.needed}
        for middle, its in reach.items():
            for other in reach.values():
                if middle in other:
                    other |= its
        for state in sorted(self.needed):
            if state not in self.component:
                joined = frozenset([state, *(other for other in reach[state] if state in reach.get(other, ()))])
                self.component.update(dict.fromkeys(joined, len(self.components)))
                self.components.append(joined)

    def _optional(self) -> list[int]:
        """The words of the text that are on the way to a result."""
        todo = [*self.words, *(lit for _, _, lit in self.lowered.results), *map(self.rule, self.needed)]
        while todo:
            lit = todo.pop()
            if lit not in self.read:
                self.read.add(lit)
                node = self.graph.node(lit)
                # an inverted and is an or of the opposites
                todo += [arg ^ (lit & 1 if node.kind == "and" else 0) for arg in node.args]
        reached = {lit >> 1 for lit in self.read}
        return [lit for lit in dict.fromkeys(self.lowered.optional)
                if not {lit, lit ^ 1}.intersection(self.words) and lit >> 1 in reached and self.needs_row(lit)]

    def bits_only(self, lit: int) -> bool:
        """Whether a literal is of bits and last values alone."""
        return lit > 1 and all(leaf.kind in (BIT, LAST) for leaf in self.graph.reached(lit))

"""Comparisons of words: each as a set of the ways in which two words can stand to each other."""

import typing

from .gates import STATE, Form, Graph, StateRule

GREATER, EQUAL, LESS, ANY_OF = 4, 2, 1, 7
# how a set is asked for by one operation: the operation, whether the words are exchanged, whether its bit is inverted
ASKED = {GREATER: ("gt", False, 0), LESS: ("gt", True, 0), LESS | EQUAL: ("ge", True, 0), GREATER | EQUAL: ("ge", False, 0),
         EQUAL: ("eq", False, 0), GREATER | LESS: ("eq", False, 1)}


class Ordered(typing.NamedTuple):
    """A bit that says how two words compare: which ways of standing to each other it allows."""

    x: int
    y: int
    ways: int


class Comparisons:
    """The graph of an op with what is known of its comparisons, and of its sums and extremes by their literals."""

    def __init__(self, choice: typing.Sequence[int] = ()) -> None:
        self.choice = list(choice)
        self.options: list[tuple[str, tuple[str, ...]]] = []
        self.graph = Graph()
        self.was: dict[int, Form] = {}
        self.order: dict[int, Ordered] = {}
        self.by_order: dict[Ordered, int] = {}

    def choose(self, what: str, names: tuple[str, ...]) -> str:
        """Which of several spellings is taken; the first where nothing is chosen."""
        at = len(self.options)
        self.options.append((what, names))
        chosen = self.choice[at] if at < len(self.choice) else 0
        return names[chosen] if chosen < len(names) else names[0]

    def made(self, lit: int, op: str, *args: int) -> int:
        """Notes by which operation a literal was made first."""
        self.was.setdefault(lit, Form(op, args))
        return lit

    def was_op(self, lit: int, *ops: str) -> tuple[int, ...] | None:
        """The arguments of the operation that made a literal, where it is one of these."""
        form = self.was.get(lit)
        return form.args if form and form.op in ops else None

    def note_order(self, lit: int, x: int, y: int, ways: int) -> None:
        """Notes how a bit compares two words."""
        if x > y:
            x, y, ways = y, x, ways >> 2 | ways & EQUAL | (ways & LESS) << 2
        for bit, its in ((lit, ways), (lit ^ 1, ANY_OF ^ ways)):
            self.order[bit] = Ordered(x, y, its)
            self.by_order.setdefault(Ordered(x, y, its), bit)

    def top(self, a: int) -> int:
        """The top bit of a word: a state that takes each bit, upwards."""
        return self.graph.last(self.graph.state("up", 0, lambda now: a))

    def is_half(self, lit: int) -> bool:
        """Whether a word is 1 at each position but the top."""
        node = self.graph.node(lit)
        return node.kind == STATE and not lit & 1 and self.graph.states[node.ident] == StateRule("down", 1)

    def of_top(self, lit: int) -> int | None:
        """The word of which a word has the top bit, and 0 below, if it is such a one."""
        if lit & 1 and self.is_half(lit ^ 1):
            return 1
        node = self.graph.node(lit)
        if node.kind == "and" and not lit & 1:
            return next((one for one, mask in (node.args, node.args[::-1]) if mask & 1 and self.is_half(mask ^ 1)), None)
        return None

    def by_top(self, a: int, b: int) -> int | None:
        """a > b where that is a top bit: above all numbers whose top bit is 0, or a number beside the same without a sign."""
        if self.is_half(b) or self.was_op(b, "relu") == (a,):
            return self.top(a)
        if a & 1 and self.is_half(a ^ 1):
            return self.top(b) ^ 1
        word = self.of_top(a) if b == 0 else None
        return None if word is None else self.top(word)

    def do_gt(self, a: int, b: int) -> int:
        """a > b: a top bit, or the last carry of a and the complement of b."""
        graph, found = self.graph, self.by_top(a, b)
        if found is None:
            found = graph.last(graph.state("up", 0, lambda carry: graph.gate("maj", a, b ^ 1, carry)))
            graph.form(found, "gt", a, b)
            graph.form(found ^ 1, "ge", b, a)
        self.note_order(found, a, b, GREATER)
        return found

    def do_eq(self, a: int, b: int) -> int:
        """a = b: no position differs."""
        graph, (a, b) = self.graph, sorted((a, b))
        greater = self.by_top(b, a) if a == 0 or self.was_op(a, "relu") == (b,) else self.by_top(a, b) if self.was_op(b, "relu") == (a,) else None
        if greater is None:
            found = graph.last(graph.state("any", 1, lambda same: graph.gate("and", same, graph.gate("xor", a, b) ^ 1)))
            graph.form(found, "eq", a, b)
        else:
            found = greater ^ 1
        self.note_order(found, a, b, EQUAL)
        return found

    def of_two(self, op: str, a: int, b: int) -> int:
        """A gate of two bits: of two comparisons of the same words it is one comparison."""
        first, second = self.order.get(a), self.order.get(b)
        if first is None or second is None or first[:2] != second[:2]:
            return self.graph.gate(op, *(self._relation(a, b) if op == "or" else (a, b)))
        ways = {"and": first.ways & second.ways, "or": first.ways | second.ways, "xor": first.ways ^ second.ways}[op]
        return self._compared(first._replace(ways=ways))

    def _compared(self, order: Ordered) -> int:
        """A comparison by its words and its ways."""
        if order.ways in (0, ANY_OF):
            return order.ways & 1
        if (known := self.by_order.get(order)) is not None:
            return known
        name, is_exchanged, flip = ASKED[order.ways]
        pair = (order.y, order.x) if is_exchanged else (order.x, order.y)
        return self.value(name, pair) ^ flip

    def _relation(self, a: int, b: int) -> tuple[int, int]:
        """The two sides of an or: of x > y or (x = y and z), as of keys of two words, the second is x >= y and z."""
        for one, other in ((a, b), (b, a)):
            order, node = self.order.get(one), self.graph.node(other)
            if order is None or order.ways not in (GREATER, LESS) or node.kind != "and" or other & 1:
                continue
            for equal, rest in (node.args, node.args[::-1]):
                if self.order.get(equal) == order._replace(ways=EQUAL) and self.choose("relation", ("equal", "wider")) == "wider":
                    return one, self.graph.gate("and", self._compared(order._replace(ways=order.ways | EQUAL)), rest)
        return a, b

    def greater(self, a: int, b: int) -> int:
        """a > b, of lesser and greater ones by their parts: max(x, y) > b is x > b or y > b.

        Words that are equal stand in the order of their literals: which of them is chosen makes no difference.
        """
        if a == b:
            return 0
        for lit, other, is_first in ((a, b, True), (b, a, False)):
            for op in ("min", "max"):
                if parts := self.was_op(lit, op):
                    pairs = [(part, other) if is_first else (other, part) for part in parts]
                    return self.graph.gate("or" if (op == "max") == is_first else "and", *(self.greater(*pair) for pair in pairs))
        return self.do_gt(a, b) if a < b else self.do_gt(b, a) ^ 1

"""The gates of an op at a bit position, over words, bits and states.

A literal is 2 · node, and one more where it is inverted; literal 0 is the constant 0. Literals of at most `LEAVES` leaves
that have equal truth tables are one literal.
"""

import typing

from ..graphs.mig import normal_majority
from ..rules.op_tree import BIT, WORD
from ..rules.word_ops import GATE_VALUES

# truth tables of at most so many leaves are whole numbers: bit i is the value where leaf k is bit k of i
LEAVES = 8
Leaves = tuple[int, ...]
# the rows in which each of so many leaves is 1
ROWS = [[sum(1 << i for i in range(1 << count) if i >> k & 1) for k in range(count)] for count in range(LEAVES + 1)]
# the kinds of leaves: a source's word or bit, a state, its last value, and a result of an operation that stays whole
STATE, LAST, WHOLE, CONST = "state", "last", "whole", "const"
LEAF_KINDS = (WORD, BIT, STATE, LAST, WHOLE)


def full(count: int) -> int:
    """The table of the constant 1."""
    return (1 << (1 << count)) - 1


def over(table: int, have: Leaves, want: Leaves) -> int:
    """A table over some leaves, over others: what it does not have makes no difference, and what is not wanted is 0."""
    if have == want:
        return table
    places = [(k, have.index(leaf)) for k, leaf in enumerate(want) if leaf in have]
    rows = (sum((i >> k & 1) << place for k, place in places) for i in range(1 << len(want)))
    return sum((table >> row & 1) << i for i, row in enumerate(rows))


def smallest(table: int, leaves: Leaves) -> tuple[int, Leaves]:
    """The table over those leaves that make a difference."""
    count = len(leaves)
    needed = tuple(leaf for k, leaf in enumerate(leaves)
                   if (table & ROWS[count][k]) >> (1 << k) != table & ~ROWS[count][k] & full(count))
    return over(table, leaves, needed), needed


class Node(typing.NamedTuple):
    """A leaf with what it is, or a gate with its arguments.

    `leaves` are those that its gates reach; of these `support` has those that make a difference, or all where there are many, and
    `table` is the table over them, where there are few.
    """

    kind: str
    args: tuple[int, ...] = ()
    ident: typing.Any = None
    place: int = 0
    leaves: frozenset[int] = frozenset()
    support: Leaves = ()
    table: int | None = None

    @property
    def is_leaf(self) -> bool:
        return self.kind in LEAF_KINDS


class Form(typing.NamedTuple):
    """An operation on literals."""

    op: str
    args: tuple[int, ...]


class StateRule(typing.NamedTuple):
    """The direction of a state ("any" where both do) and its next value; every state begins as 0."""

    direction: str
    next: int


Normal = int | tuple[tuple[int, ...], int]


class Graph:
    """Nodes, states and whole operations, each once."""

    def __init__(self) -> None:
        self.nodes: list[Node] = [Node(CONST, table=0)]
        # the literals of leaves, of gates in their normal form, and of tables
        self.known: dict[tuple, int] = {((), 0): 0}
        self.states: list[StateRule] = []
        self.wholes: list[Form] = []
        self.forms: dict[int, list[Form]] = {}

    def node(self, lit: int) -> Node:
        return self.nodes[lit >> 1]

    def leaf(self, kind: str, ident: typing.Any, place: int = 0) -> int:
        key, number = (kind, ident, place), len(self.nodes)
        if key not in self.known:
            self.nodes.append(Node(kind, (), ident, place, frozenset((number,)), (number,), 2))
            self.known[key] = self.known[(number,), 2] = 2 * number
        return self.known[key]

    def gate(self, kind: str, *args: int) -> int:
        """The literal of a gate: not, and, or, xor, maj, or mux (the second where the first is 1, else the third)."""
        if kind == "not":
            return args[0] ^ 1
        if kind == "or":
            return self.gate("and", args[0] ^ 1, args[1] ^ 1) ^ 1
        normal: Normal = getattr(self, f"_{kind}")(*args)
        if isinstance(normal, int):
            return normal
        ordered, flip = normal
        key = (kind, *(ordered if kind == "mux" else sorted(ordered)))
        if key not in self.known:
            self.known[key] = self._made(kind, ordered)
        return self.known[key] ^ flip

    @staticmethod
    def _and(*args: int) -> Normal:
        a, b = sorted(args)
        if a == 0 or a == b ^ 1:
            return 0
        return b if a in (1, b) else (args, 0)

    @staticmethod
    def _xor(*args: int) -> Normal:
        flip, args = (args[0] ^ args[1]) & 1, tuple(lit & ~1 for lit in args)
        a, b = sorted(args)
        if a == b:
            return flip
        return b ^ flip if a == 0 else (args, flip)

    def _maj(self, *args: int) -> Normal:
        found = normal_majority(*args)
        if isinstance(found, int) or found[0][0] >= 2:
            return found
        (a, b, c), turned = found
        return self.gate("or" if a else "and", b, c) ^ turned

    def _mux(self, s: int, a: int, b: int) -> Normal:
        if s & 1:
            s, a, b = s ^ 1, b, a
        if s == 0 or a == b:
            return b
        if a < 2:
            return self.gate("or", s, b) if a else self.gate("and", s ^ 1, b)
        if b < 2:
            return self.gate("or", s ^ 1, a) if b else self.gate("and", s, a)
        if a == b ^ 1:
            return self.gate("xor", s, b)
        for x, y, turn in ((a, b, s), (b, a, s ^ 1)):  # y xor k or y is y xor (turn and k)
            if self.node(x).kind == "xor" and y & ~1 in self.node(x).args:
                k = next(lit for lit in self.node(x).args if lit != y & ~1) ^ (x & 1) ^ (y & 1)
                return self.gate("xor", y, self.gate("and", turn, k))
        return (s, a, b), 0

    def _made(self, kind: str, args: tuple[int, ...]) -> int:
        """The literal of a gate in its normal form: one that stands, where it has the same truth table."""
        below, lit = [self.node(arg) for arg in args], 2 * len(self.nodes)
        leaves, table = tuple(sorted(set().union(*(one.support for one in below)))), None
        if len(leaves) <= LEAVES:
            table, leaves = smallest(GATE_VALUES[kind](*(self._over(arg, leaves) for arg in args)), leaves)
            flip = table & 1
            key = leaves, table ^ (full(len(leaves)) if flip else 0)
            if key in self.known:
                return self.known[key] ^ flip
            self.known[key] = lit ^ flip
        self.nodes.append(Node(kind, args, None, 0, frozenset().union(*(one.leaves for one in below)), leaves, table))
        return lit

    def _over(self, lit: int, leaves: Leaves) -> int:
        """The table of a literal over more leaves."""
        found = over(self.node(lit).table, self.node(lit).support, leaves)
        return found ^ full(len(leaves)) if lit & 1 else found

    def new_state(self) -> int:
        """The number of a state whose rule comes later."""
        self.states.append(StateRule("any", 0))
        return len(self.states) - 1

    def state(self, direction: str, start: int, next_of: typing.Callable[[int], int]) -> int:
        """The literal of a state; `next_of` gives its next value from its own literal."""
        number = self.new_state()
        now = self.leaf(STATE, number) ^ start
        self.states[number] = StateRule(direction, next_of(now) ^ start)
        return now

    def reached(self, lit: int) -> list[Node]:
        """The leaves that a literal reaches through gates."""
        return [self.nodes[leaf] for leaf in self.node(lit).leaves]

    def last(self, state: int) -> int:
        """The last value of a state, by the state's literal."""
        return self.leaf(LAST, self.node(state).ident) ^ (state & 1)

    def whole(self, op: str, *args: int, place: int = 0) -> int:
        """A result of an operation that stays whole."""
        form = Form(op, args)
        if form not in self.wholes:
            self.wholes.append(form)
        return self.leaf(WHOLE, self.wholes.index(form), place)

    def form(self, lit: int, op: str, *args: int) -> int:
        """Notes that a literal is the value of an operation."""
        found = self.forms.setdefault(lit, [])
        if Form(op, args) not in found:
            found.append(Form(op, args))
        return lit

    def cone(self, lit: int, seen: set[int] | None = None) -> set[int]:
        """The nodes that a literal reaches through gates."""
        seen = set() if seen is None else seen
        if lit >> 1 not in seen:
            seen.add(lit >> 1)
            for arg in self.node(lit).args:
                self.cone(arg, seen)
        return seen


Values = dict[int, int]


def replaced(graph: Graph, lit: int, values: Values, known: Values) -> int:
    """A literal where leaves have other values; `known` keeps what was found of each node."""
    number, node = lit >> 1, graph.node(lit)
    if number not in known:
        if node.kind == CONST:
            known[number] = 0
        elif node.is_leaf:
            known[number] = values.get(2 * number, 2 * number)
        else:
            known[number] = graph.gate(node.kind, *(replaced(graph, arg, values, known) for arg in node.args))
    return known[number] ^ lit & 1


def equal_states(graph: Graph) -> Values:
    """What each state's leaves become.

    All states begin as equal to 0. A class is split by the next values, with each state replaced by the first of its class,
    until nothing splits: what stays together is equal at every width, by induction over the positions.
    """
    classes = dict.fromkeys(range(len(graph.states)), 0)
    while True:
        first = {its: number for number, its in reversed(classes.items())}
        values = {graph.leaf(kind, number): graph.leaf(kind, first[its]) if its else 0
                  for number, its in classes.items() for kind in (STATE, LAST)}
        known: Values = {}
        names: dict[tuple, int] = {}
        split = {}
        for number, its in classes.items():
            lit = replaced(graph, graph.states[number].next, values, known)
            key = (its, graph.states[number].direction, lit)
            split[number] = 0 if its == lit == 0 else names.setdefault(key, len(names) + 1)
        if len(set(split.values())) == len(set(classes.values())) and (0 in split.values()) == (0 in classes.values()):
            return values
        classes = split


def settle(graph: Graph, values: Values) -> typing.Callable[[int], int]:
    """Replaces the states in a graph, and returns what a literal becomes."""
    known: Values = {}

    def now(lit: int) -> int:
        return replaced(graph, lit, values, known)

    for number, form in enumerate(graph.wholes):
        graph.wholes[number] = Form(form.op, tuple(map(now, form.args)))
    graph.states = [rule._replace(next=now(rule.next)) for rule in graph.states]
    forms = graph.forms
    graph.forms = {}
    for lit, its in forms.items():
        for form in its:
            graph.form(now(lit), form.op, *map(now, form.args))
    for number in {graph.node(lit).ident for lit in values.values() if lit > 1}:
        direction, after = graph.states[number]
        if graph.leaf(STATE, number) >> 1 not in graph.node(after).leaves and direction in ("up", "down"):
            graph.form(graph.leaf(STATE, number), "shl1" if direction == "up" else "shr1", after)
    return now

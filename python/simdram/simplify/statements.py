"""From a plan to the statements of an op: names, word statements, bits and results. `blocks` writes the serial blocks."""

import typing

from ..rules.op_tree import BIT, TO_BIT, WORD, Block, Body, WordStatement, gate, read
from .gates import WHOLE, Form
from .items import Items
from .plans import NoOp, Order, Plan
from .spelling import named

NAME_MAX = 14
Call = tuple[str, list[str]]


class Statements:
    """The statements that stand so far, and the names of what they give."""

    def __init__(self, items: Items, plan: Plan) -> None:
        self.items, self.graph, self.plan, self.order = items, items.graph, plan, Order(items, plan)
        self.lowered = items.lowered
        self.body: Body = []
        op = self.lowered.op
        self.used = {name for name, _ in op.params + op.results}
        self.standing = {self.graph.leaf(kind, name): name for name, kind in op.params}
        # words whose positions are all one bit
        self.spread: dict[int, str] = {}
        self.result_of: dict[int, tuple[str, str]] = {}
        for name, kind, lit in self.lowered.results:
            self.result_of.setdefault(lit, (name, kind))
        self.done: set[str] = set()

    def fresh(self, wanted: str) -> str:
        """A name that nothing has, the wanted one or that with a number."""
        wanted = wanted[:NAME_MAX]
        name, number = wanted, 0
        while name in self.used:
            name, number = f"{wanted}{number}", number + 1
        self.used.add(name)
        return name

    def name(self, lit: int, kind: str, wanted: str = "t") -> str:
        """A new name for a literal: the result's, where it is one."""
        result, its_kind = self.result_of.get(lit, ("", ""))
        if result and its_kind == kind and result not in self.done:
            self.done.add(result)
            name = result
        else:
            name = self.fresh(self.lowered.named.get(lit, wanted))
        self.names_for(lit, kind)[lit] = name
        return name

    def names_for(self, lit: int, kind: str = WORD) -> dict[int, str]:
        """Where the name of a literal of a kind is kept."""
        return self.spread if kind == WORD and self.items.bits_only(lit) else self.standing

    def call(self, targets: typing.Sequence[str], op: str, args: typing.Sequence[str]) -> None:
        self.body.append(WordStatement(tuple(targets), op, tuple(args)))

    def whole(self, number: int) -> None:
        """The statement of an operation that stays whole."""
        form, args = self.graph.wholes[number], []
        for arg in form.args:
            if arg not in self.names_for(arg):
                raise NoOp("an argument that stands in no row")
            args.append(self.names_for(arg)[arg])
        places = sorted(self.items.wholes[number])
        op = ("div", "rem")[places[0]] if form.op == "divmod" and len(places) == 1 else form.op
        self.call([self.name(self.graph.leaf(WHOLE, number, place), WORD) for place in places], op, args)

    def gate_form(self, lit: int) -> Form | None:
        """The word operation of a literal's gate; a choice's bit comes last."""
        kind, args = self.graph.node(lit)[:2]
        if kind == "and":
            return Form("or", tuple(arg ^ 1 for arg in args)) if lit & 1 else Form("and", args)
        if lit & 1 or kind not in ("xor", "mux"):
            return None
        return Form("xor", args) if kind == "xor" else Form("if_else", (*args[1:], args[0]))

    def word_form(self, lit: int) -> Call | None:
        """A word statement for a word whose arguments stand already."""
        if self.items.bits_only(lit):
            return None
        forms = [form for form in sorted(self.graph.forms.get(lit, []), key=lambda form: form.op == "add") if form.op not in TO_BIT]
        forms.append(Form("ones" if lit else "zero", ()) if lit < 2 else Form("not", (lit ^ 1,)))
        made = self.gate_form(lit)
        if made and not any(map(self.items.bits_only, made.args[:2])) and all(map(self.items.bits_only, made.args[2:])):
            forms.append(made)
        return next(((op, [self.standing[arg] for arg in args]) for op, args in forms if all(arg in self.standing for arg in args)), None)

    def bit(self, lit: int) -> str:
        """The name of a bit, by statements on bits where it is no one's yet."""
        if lit in self.standing:
            return self.standing[lit]
        if lit < 2:
            name = self.name(lit, BIT, "k")
            self.body.append(Block("up", ((name, lit),), (), ((name, read(name)),)))
        elif lit ^ 1 in self.standing:
            below = self.standing[lit ^ 1]
            self.call([self.name(lit, BIT)], "not", [below])
        else:
            self._bit_gate(lit)
        return self.bit(lit)

    def _bit_gate(self, lit: int) -> None:
        """The statement of a gate of bits; where only the opposite can be one, that of the opposite."""
        node = self.graph.node(lit)
        if node.is_leaf:
            raise NoOp("a bit that nothing gives")
        if node.kind == "maj":
            args = [named(arg, self.standing) or read(self.bit(arg)) for arg in node.args]
            name = self.name(lit & ~1, BIT)
            self.body.append(Block("up", ((name, 0),), (), ((name, gate("maj", *args)),)))
            return
        if node.kind == "xor" and lit & 1 and lit in self.result_of:
            op, given = "xor", [node.args[0] ^ 1, node.args[1]]
        else:
            lit = lit if node.kind == "and" else lit & ~1
            op, given = self.gate_form(lit)
        names = [self.bit(arg) for arg in given]
        self.call([self.name(lit, BIT)], op, names)

    def result(self, name: str, kind: str, lit: int) -> None:
        """A result that no statement gave yet."""
        if kind == WORD:
            self.done.add(name)
            names = self.names_for(lit)
            form = ("copy", [names[lit]]) if lit in names else self.word_form(lit)
            if not form:
                raise NoOp("a result that no statement gives")
            self.call([name], *form)
            return
        if lit not in self.standing:
            self.result_of[lit] = (name, kind)
            self.bit(lit)
        if name not in self.done:
            self.done.add(name)
            self.call([name], "copy", [self.bit(lit)])

"""From parts to scripts: objects for constants and results, a bbop for each part, and what is freed after it."""

import collections
import dataclasses
import typing

from ..files.program import Entry
from ..rules.op_tree import Op
from ..rules.ops_rules import OPS, read_ops
from .cutting import Part, can_join, renamed, text_of
from .expressions import Constant, Held, Step, Value
from .layout import Join, Product, Slice, whole_of
from .own_programs import OwnProgram
from .running import Script
from .simpler_texts import Texts

COPY, SPREAD, GATE, STEP = read_ops(b"""
op copy(a: word) -> y: word { y = copy(a); }
op spread(a: bit) -> y: word { serial up () { y = a; } }
op gate(a: word, b: bit) -> y: word { serial up () { y = and(a, b); } }
op step(p: word, a: word, b: bit) -> y: word, c: bit { serial up (c = 0) { let x = and(a, b); y = xor(xor(p, x), c); c = maj(p, x, c); } }
""")


class Scripts:
    """The scripts that give the targets at a count of elements, one after another; the last may be the only one."""

    def __init__(self, parts: typing.Sequence[Part], targets: typing.Sequence[Value], count: int, names: typing.Iterator[int],
                 simpler: Texts) -> None:
        self.count, self.names, self.simpler = count, names, simpler
        self.scripts = [Script()]
        self.objects: dict[int, str] = {}
        self.ops: dict[tuple[str, int], str] = {}
        # the texts of all ops as they were meant, each once
        self.written: dict[str, None] = {}
        self.kept = {id(whole_of(target)[0]) for target in targets}
        self.longest = max((len(part.steps) for part in parts), default=0)
        parts = [part for part in parts if not isinstance(part.steps[0].operation, Slice)]
        # of each value, how many sources of parts are still to be read from it
        self.readers = collections.Counter(id(whole_of(value)[0]) for part in parts for value in part.sources)
        for part in parts:
            self._do(part)
        for target in targets:
            self.object_of(target)

    @property
    def lines(self) -> list[str]:
        """The lines of the script in hand."""
        return self.scripts[-1].lines

    def object_of(self, value: Value, low: int = 0, size: int = 0) -> str:
        """The operand that is a value, or so many bits of it: an object, into which a constant is filled, or bits of one."""
        whole, base = whole_of(value)
        if whole is not value or size:
            return bits(self.object_of(whole), base + low, size or value.bits)
        if isinstance(value.origin, Held):
            return value.origin.name
        if id(value) not in self.objects:
            self.objects[id(value)] = f"v{next(self.names)}"
            self.make(self.objects[id(value)], value.bits)
            if isinstance(value.origin, Constant):
                self.lines.append(f"fill {self.objects[id(value)]}, {value.origin.number}")
        return self.objects[id(value)]

    def make(self, name: str, width: int) -> None:
        self.lines.append(f"bbop_trsp_init {name}, {self.count}, {width}")

    def _do(self, part: Part) -> None:
        """The lines of a part, and what no later part reads."""
        if by_layout := LINES.get(type(part.steps[0].operation)):
            by_layout(self, part.steps[0])
        else:
            self._run(part)
        sources = [whole_of(value)[0] for value in part.sources]
        self.readers.subtract(map(id, sources))
        for value in [*sources, *part.results]:
            if not self.readers[id(value)] and id(value) in self.objects and id(value) not in self.kept:
                self.lines.append(f"free {self.objects.pop(id(value))}")

    def _run(self, part: Part) -> None:
        """The lines of an op: its constants, its results, its bbop."""
        op, sources = self._op(part), {id(value): self.object_of(value) for value in part.sources}
        results = [self.object_of(value) for value in part.results]
        # an op of the designer's own may be given one value twice
        given = part.sources if can_join(part.steps[0]) else part.steps[0].arguments
        self.bbop(op, [*results, *(sources[id(value)] for value in given)], part.width or 1)

    def bbop(self, op: str, operands: typing.Sequence[str], width: int) -> None:
        self.lines.append(f"bbop_{op} {', '.join(operands)}, {self.count}, {width}")

    def op_of(self, op: Op) -> str:
        """The name of an op that is compiled as it stands."""
        name = self.ops.setdefault((op.text(name="e"), 0), self._fresh(self.ops.values()))
        self._add(op.text(name=name), op.text(name=name))
        return name

    def _op(self, part: Part) -> str:
        """The name of the op that does a part; equal texts are one op, and a script has at most 32."""
        own = None if can_join(part.steps[0]) else part.steps[0].operation
        text = own.text if own else text_of("e", part)
        # a text that is simplified or optimised is so for its width
        width = part.width or 1
        key = renamed(text, "e"), width if own is None and self.simpler.is_for(width) else 0
        if key not in self.ops:
            taken = self.ops.values()
            self.ops[key] = own.name if own and own.name not in taken else self._fresh(taken)
        name = self.ops[key]
        entry = self.simpler.entry(*key) if own is None else own.entry if isinstance(own, OwnProgram) else None
        # renaming leaves the text of a program as it is
        compiled = renamed(own.text if own else self.simpler.compiled(*key), name)
        self._add(renamed(text, name), compiled, entry and dataclasses.replace(entry, name=name))
        return name

    def _add(self, written: str, text: str, entry: Entry | None = None) -> None:
        """The op of a text, or an entry shown by it, is one of the script's; of a new one, where that has 32."""
        self.written[written] = None
        if text not in self.scripts[-1].ops:
            if len(self.scripts[-1].ops) == OPS:
                self.scripts.append(Script())
            self.scripts[-1].ops[text] = entry

    @staticmethod
    def _fresh(taken: typing.Collection[str]) -> str:
        return next(name for name in (f"e{k}" for k in range(len(taken) + 1)) if name not in taken)


def bits(name: str, low: int, size: int) -> str:
    """So many bits of an object, from the bit `low` on."""
    return f"{name}[{low}:{low + size}]"


def join(script: Scripts, step: Step) -> None:
    """Fills, copies, and bits in several places, one after another."""
    target, low = script.object_of(step.results[0]), 0
    for value, size in zip(step.arguments, step.operation.sizes):
        place = bits(target, low, size)
        if isinstance(value.origin, Constant):
            script.lines.append(f"fill {place}, {value.origin.number}")
        else:
            script.bbop(script.op_of(COPY if value.bits == size else SPREAD), (place, script.object_of(value)), size)
        low += size


def product(script: Scripts, step: Step) -> None:
    """A row for each bit of the second factor, which stands in the result and in a spare object in turn, so that the last one stands in
    the result. Each is the sum of the bits of the row before, without the lowest, and of the first factor where the bit is 1."""
    (a, _), target, spare = map(script.object_of, step.arguments), script.object_of(step.results[0]), f"v{next(script.names)}"
    size, count = (value.bits for value in step.arguments)
    bits_of_b = [script.object_of(step.arguments[1], k, 1) for k in range(count)]
    script.make(spare, size + count)
    rows = [target if (count - k) % 2 else spare for k in range(count)]
    script.bbop(script.op_of(GATE), (bits(rows[0], 0, size), a, bits_of_b[0]), size)
    script.lines.append(f"fill {bits(rows[0], size, 1)}, 0")
    for k in range(1, count):
        sums = (bits(rows[k], k, size), bits(rows[k], k + size, 1), bits(rows[k - 1], k, size))
        script.bbop(script.op_of(STEP), (*sums, a, bits_of_b[k]), size)
    for k in range(count - 2, -1, -2):
        script.bbop(script.op_of(COPY), (bits(target, k, 1), bits(spare, k, 1)), 1)
    if step.width > size + count:
        script.lines.append(f"fill {bits(target, size + count, step.width - size - count)}, 0")
    script.lines.append(f"free {spare}")


LINES = {Join: join, Product: product}

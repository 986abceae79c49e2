"""Names of a microprogram's rows: the designer's where the operation text is given, and else a, b, y, t0, w0."""

import typing

from ..files.decode import CELLS
from ..files.program import BIT, INDEXED, RESULT, SOURCE, WORD, Row
from ..rules.op_tree import OpShape, StatementShape
from ..rules.word_ops import gate_value
from .cell_values import ALL, drawn

PLAIN = ("B{}", "C{}", "", "", "t{}", "w{}", "p{}")


class RowNames:
    """The names of rows by their spaces and places: those of an op, and of its scratch if that is told."""

    def __init__(self, shape: OpShape | None, has_scratch: bool = True) -> None:
        named: list[tuple[int, typing.Iterable[str]]] = [(RESULT, "yz"), (SOURCE, "abcd")]
        self.bits: set[str] = set()
        if shape:
            named += [(SOURCE, shape.sources), (RESULT, shape.results)]
            named += [(BIT, shape.scratch("bit")), (WORD, shape.scratch("word"))] if has_scratch else []
            kinds = {**shape.sources, **shape.results, **shape.defined}
            self.bits = {name for name, kind in kinds.items() if kind == "bit"}
        self.names = {(space, which): name for space, names in named for which, name in enumerate(names)}

    def base(self, row: Row) -> str:
        """A row's name without its subscript; a plain one that the designer gave to another row gets a stroke."""
        plain = PLAIN[row.space].format(row.which)
        return self.names.get((row.space, row.which)) or plain + "'" * (plain in self.names.values())

    def text(self, row: Row, subscript) -> str:
        """A row's name, where the subscript of a register is given by a function."""
        base = self.base(row)
        if row.space in INDEXED and base not in self.bits:
            return f"{base}[{subscript(row.index)}]"
        return base + "'" * (base in CELLS)


def let_patterns(shape: OpShape, statement: StatementShape) -> dict[str, int]:
    """The value of each let of a block at a position i, as a pattern of the rows that it reads."""
    found: dict[str, int] = {}
    states = [name for name in statement.targets if shape.defined.get(name) == "bit"]
    kinds = {**shape.defined, **dict.fromkeys(states, "bit")}

    def leaf(name: str) -> int:
        if name in "01":
            return ALL if name == "1" else 0
        return found[name] if name in found else drawn(name if kinds.get(name) == "bit" else f"{name}[i]")

    for name, expr in statement.lets.items():
        found[name] = expr.computed(leaf, lambda gate, given: gate_value(gate, given, ALL))
    return {name: pattern for name, pattern in found.items() if pattern not in (0, ALL)}

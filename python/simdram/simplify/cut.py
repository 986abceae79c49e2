"""Two texts of one op with the same products, quotients and counts as sources.

Where both texts take a product of the same arguments, it is one unknown in both: what is equal for all values of the unknown is
equal for the product. So what a comparison of whole texts cannot follow is often known.
"""

import typing

from ..rules.op_tree import WORD, Op, Params, WordStatement
from ..rules.ops_rules import SOURCES
from .op_limits import live

OPERATIONS = ("mul", "div", "rem", "divmod", "bitcount")
COMMUTATIVE = ("mul",)


class Side:
    """An op with the values that can be cut: `key` has of each name what it is, in terms of the sources."""

    def __init__(self, op: Op) -> None:
        self.op, self.rest = op, []
        self.key = {name: name for name, _ in op.params}
        results = dict(op.results)
        for one in op.body:
            if not self._is_cut(one):
                self.rest.append(one)
                if isinstance(one, WordStatement) and one.op == "copy" and one.args[0] in self.key and one.targets[0] not in results:
                    self.key[one.targets[0]] = self.key[one.args[0]]
        # a result that is itself cut becomes a copy of the unknown, under another name
        self.results: Params = tuple((f"r_{name}"[:16] if name in self.key else name, kind) for name, kind in self.op.results)
        for (name, _), (other, _) in zip(self.op.results, self.results):
            if name in self.key:
                self.rest.append(WordStatement((other,), "copy", (name,)))
        self.rest = live(self.rest, [name for name, _ in self.results])
        self.read = set().union(*(one.reads for one in self.rest))

    def _is_cut(self, one: typing.Any) -> bool:
        """Notes the values of an operation of sources and of cut values."""
        if not isinstance(one, WordStatement) or one.op not in OPERATIONS or not all(arg in self.key for arg in one.args):
            return False
        args = [self.key[arg] for arg in one.args]
        args = sorted(args) if one.op in COMMUTATIVE else args
        for name, op in zip(one.targets, ("div", "rem") if one.op == "divmod" else (one.op,)):
            self.key[name] = f"{op}({','.join(args)})"
        return True

    def text(self, used: typing.Sequence[str]) -> str:
        """The op with what is cut as sources."""
        kinds = dict(self.op.params)
        sources = {key: (key if key in kinds else f"v_{k}") for k, key in enumerate(used)}
        names = {name: sources[key] for name, key in self.key.items() if name in self.read}
        params = tuple((sources[key], kinds.get(key, WORD)) for key in used)
        body = [one.reading(lambda name: names.get(name, name)) for one in self.rest]
        return Op(self.op.name, params, self.results, body).text()


def cut(old: Op, new: Op) -> tuple[str, str] | None:
    """The two texts, or nothing where the old one has no such operation, or they would need too many sources."""
    if not any(isinstance(one, WordStatement) and one.op in OPERATIONS for one in old.body):
        return None
    sides = [Side(old), Side(new)]
    used = sorted({side.key[name] for side in sides for name in side.read if name in side.key}) or [old.params[0][0]]
    return (sides[0].text(used), sides[1].text(used)) if len(used) <= SOURCES else None

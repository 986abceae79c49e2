"""Functions of arrays that have a program file of one entry, and their costs; those of a designer's own text of ops."""

import functools
import operator
import typing

from ..costs.costs import EntryCost, costs_at
from ..costs.profile import Profile, profiles
from ..files.store import folder_of
from ..launcher import run_program
from ..launcher.settings import taken
from ..rules import op_tree
from ..rules.ops_rules import read_ops
from .array import Array
from .cells import checked_width
from .operators import stepped
from .refusals import Stopped
from .running import compiled


class Counted:
    """A function of arrays with a program file, `program`, whose one entry computes it: the kinds that it takes and gives."""

    program: bytes
    name: str
    takes: list[str]
    gives: list[str]
    # the operation text that it is compiled from, if it is
    ops_text: str | None = None

    def __call__(self, *operands: typing.Any, bits: int | None = None) -> Array | tuple[Array, ...]:
        """Its result, or its two; `bits` is the width where no operand is a word."""
        results = stepped(self, operands, bits)
        self.check(results[0].value.origin.step.width or 1)
        return results[0] if len(results) == 1 else results

    def __repr__(self) -> str:
        return f"<simdram.{type(self).__name__} {self.name}({', '.join(self.takes)}) -> {', '.join(self.gives)}>"

    def check(self, width: int) -> None:
        """What is to be said before it is called at a width."""

    def cost(self, bits: int) -> EntryCost:
        """Its row commands in one bank at a width, and its rows of scratch."""
        return self.costs([bits])[bits]

    def costs(self, widths: typing.Iterable[int]) -> dict[int, EntryCost]:
        """Its cost at each of these widths."""
        asked = [checked_width(operator.index(bits)) for bits in widths]
        with folder_of(prog=self.program) as folder:
            found = costs_at([f"{folder}/prog"], asked, taken([])[0])
        return {bits: found[f"{folder}/prog", bits][0] for bits in asked}

    def profile(self, bits: int) -> Profile:
        """Its row commands in one bank at a width, by statement, where it has an operation text, and by loop."""
        with folder_of(prog=self.program, ops=(self.ops_text or "").encode()) as folder:
            ops = None if self.ops_text is None else f"{folder}/ops"
            return profiles(f"{folder}/prog", [checked_width(operator.index(bits))], taken([])[0], ops, True)[0]


class Op(Counted):
    """An op of the language, which takes and gives arrays; `text` is its canonical form."""

    def __init__(self, tree: op_tree.Op) -> None:
        self.name, self.text = tree.name, tree.text()
        self.ops_text, self.takes, self.gives = self.text, *([kind for _, kind in part] for part in (tree.params, tree.results))

    @functools.cached_property
    def program(self) -> bytes:
        """The program file that it is compiled to."""
        return compiled(self.text)


def ops(text: str) -> dict[str, Op]:
    """The ops of a text, by name and in its order; a text that the program refuses is raised with its line and kind."""
    return known_ops(canonical(text))


def known_ops(text: str) -> dict[str, Op]:
    """The ops of a text that the program accepts."""
    return {one.name: Op(one) for one in read_ops(text.encode())}


def op(text: str, name: str | None = None) -> Op:
    """The op of a text: the one of this name, or the only one."""
    found = ops(text)
    if name is None and len(found) == 1:
        return next(iter(found.values()))
    if name in found:
        return found[name]
    said = "simdram.op takes name= where a text has not one op; this one" if name is None else f"the text has no op {name}; it"
    raise ValueError(f"{said} has {', '.join(found) or 'none'}")


def canonical(text: str) -> str:
    if not isinstance(text, str):
        raise TypeError(f"an op is a text, and not {type(text).__name__}")
    with folder_of(ops=text.encode()) as folder:
        ended = run_program.run(["show", "ops"], folder)
    if ended.status:
        raise Stopped("show", ended, "ops", text)
    return ended.out

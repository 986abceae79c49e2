"""What became of an op of a text: what was found for it, what is known of that, and what is said of both."""

import dataclasses
import typing

from ..rules.verdicts import RIGHT, UNKNOWN, WRONG
from .equal import Equality
from .search import Simpler

# an op as it was; another text that is equal; one of which that is not known; one that differs
STAYS, EQUAL = "stays", "equal"


def listed(widths: typing.Iterable[int]) -> str:
    return ",".join(map(str, widths))


@dataclasses.dataclass(frozen=True)
class Outcome:
    """An op, the text that was found for it, and what is known of both."""

    simpler: Simpler
    equality: Equality | None = None
    is_unvalidated: bool = False

    @property
    def kind(self) -> str:
        """What is known of the text that was found."""
        if self.equality is None:
            return STAYS
        return WRONG if self.equality.at(WRONG) else UNKNOWN if self.equality.at(UNKNOWN) else EQUAL

    @property
    def is_taken(self) -> bool:
        """Whether the text that was found is the op from now on."""
        return self.kind == EQUAL or self.kind == UNKNOWN and self.is_unvalidated

    def text(self, before: bytes) -> bytes:
        """The op's text: as it was, byte for byte, or the new one, with a comment on what is not known."""
        if not self.is_taken:
            return before
        unknown = self.equality.at(UNKNOWN)
        comment = f"# not compared at {listed(unknown)}\n" if unknown else ""
        return (comment + self.simpler.text.rstrip("\n")).encode()

    def line(self, before: bytes) -> str:
        """What is said of the op: its costs before and after, and what is known."""
        after = self.simpler.after if self.is_taken else self.simpler.before
        costs = [f"n={n} {old.commands} -> {after[n].commands} rows {old.rows} -> {after[n].rows}"
                 for n, old in self.simpler.before.items()]
        return f"{self.simpler.op.name} {', '.join(costs)}; {self._known(before)}"

    def _known(self, before: bytes) -> str:
        if self.equality is None:
            return f"unchanged: nothing cheaper found{'' if self.simpler.is_whole else ' in the time'}"
        equal = [width for width in self.simpler.before if self.equality.verdicts.get(width) == RIGHT]
        if self.kind == UNKNOWN and not self.is_taken and not equal:
            return f"unchanged: another text was found, and not {'compared in the time' if self.equality.is_late else 'known to be equal'}"
        said = [f"equal at {listed(equal)}" if equal else "equal at no width"]
        if self.equality.is_cut:
            said[0] += " with products and quotients as unknowns"
        if self.kind == WRONG:
            said.append(f"wrong at {listed(self.equality.at(WRONG))}, a fault of this tool: left as it was")
        elif self.kind == UNKNOWN:
            why = " in the time" if self.equality.is_late else ""
            said.append(f"not known{why} at {listed(self.equality.at(UNKNOWN))}{'' if self.is_taken else ': left as it was'}")
        if self.is_taken and b"#" in before:
            said.append("its comments are lost")
        if self.is_taken and not self.simpler.is_whole:
            said.append("the time was over before all was tried")
        return "; ".join(said)


def new_text(data: bytes, outcomes: typing.Sequence[Outcome]) -> bytes:
    """A text with its ops replaced; what stands between ops stays."""
    found, at = b"", 0
    for one in outcomes:
        op = one.simpler.op
        found += data[at:op.start] + one.text(data[op.start:op.end])
        at = op.end
    return found + data[at:]

"""The ops of a text, each simplified and compared with what it was, in a time."""

import dataclasses
import itertools

from ..launcher.faults import Fault
from ..launcher.parallel import in_parallel, processors
from ..rules.op_tree import Op
from ..rules.ops_rules import read_ops
from .equal import ALWAYS, Comparer
from .measured import Measured
from .outcome import Outcome
from .search import Search, Simpler
from .statement_alone import Costs
from .statement_cache import StatementCache
from .timed import TimeOver, Timed, spent

# the processor seconds for all ops, unless others are asked for
SECONDS = 40.0
# how much of its time an op's search has; the rest is for the comparison
SEARCHED = 0.6
# the part of the time after which calls of the program are ended
ENDED = 0.97


@dataclasses.dataclass(frozen=True)
class Options:
    """At which widths an op must not be dearer and is compared, in how many processor seconds, and what else."""

    widths: tuple[int, ...] = (4, 8, 16, 32)
    seconds: float = SECONDS
    keeps_rows: bool = False
    is_unvalidated: bool = False
    compared: tuple[int, ...] = ALWAYS


def share_of(until: float, left: int) -> float:
    """When the next of so many works has to end, of which some run at once: each has its part of what is left of a time."""
    now = spent()
    return now + max(0.0, until - now) / -(-left // processors())


class Simplifier:
    """Simplifies the ops of one text by a program."""

    def __init__(self, program: str, options: Options) -> None:
        self.options, self.timed = options, Timed(program, spent() + ENDED * options.seconds)

    def outcomes(self, data: bytes, what: str = "") -> list[Outcome]:
        """What becomes of each op of a text that the program accepts.

        Each op is searched and compared in its share of the time; what was not compared in it is compared in the time that is left.
        """
        if not (ops := read_ops(data)):
            return []
        cache = StatementCache(self.timed.program)
        # the processors are for the ops, or for the statements of the only one
        measured = Measured(self.timed, self.options.widths, processors() if len(ops) == 1 else 1, cache)
        before, left = self._before(measured, data), itertools.count(len(ops), -1)

        def worked(pair: tuple[Op, Costs]) -> Outcome:
            share, now = share_of(self.timed.until, next(left)), spent()
            mine = measured.until_then(now + SEARCHED * (share - now))
            return self.compared(Search(pair[0], mine, pair[1], self.options.keeps_rows, share).run(), share)

        try:
            found = in_parallel(worked, list(zip(ops, before)), what, self.timed.stopped.set)
        finally:
            cache.save()
        late = [one for one in found if one.equality and one.equality.is_late]
        again = iter(in_parallel(lambda one: self.compared(one.simpler, self.timed.until), late, stop=self.timed.stopped.set))
        return [next(again) if one.equality and one.equality.is_late else one for one in found]

    def compared(self, found: Simpler, until: float) -> Outcome:
        """A text, compared with what the op was."""
        if not found.is_changed:
            return Outcome(found)
        new = dataclasses.replace(found.op, body=found.body)
        widths = sorted({*self.options.compared, *self.options.widths})
        equality = Comparer(dataclasses.replace(self.timed, until=until)).equal(found.op, new, widths, found.program)
        return Outcome(found, equality, self.options.is_unvalidated)

    def _before(self, measured: Measured, data: bytes) -> list[Costs]:
        try:
            found = measured.compiled(data.decode("utf-8", "replace"))
        except TimeOver:
            raise Fault(f"{self.options.seconds:g} processor seconds are too few to measure the text as it is; --seconds gives more") from None
        if found is None:
            raise Fault(f"an op of the text cannot be executed at a width of {', '.join(map(str, self.options.widths))}")
        return found.costs

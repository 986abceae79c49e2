"""What statements cost: each is measured once, in an op of its own, many to a call of the program."""

import copy
import dataclasses
import typing

from ..costs.costs import cost_of
from ..files.store import folder_of, load
from ..launcher.parallel import in_parallel
from ..rules.op_tree import BIT, WORD, Body, Op, made_by
from .statement_alone import Alone, Cost, Costs, alone
from .statement_cache import Kept, StatementCache
from .timed import TimeOver, Timed

# the status of `compile` where the text is refused
REFUSED = 4
# statements to a call of the program; ops of one text are at most 32
AT_ONCE = 8
# widths at which a statement is always measured, so that it is known at them from then on
ALSO = (4, 8, 16, 32)


class Compiled(typing.NamedTuple):
    """Of a text the costs of its ops, and its program file."""

    costs: list[Costs]
    program: bytes


class Parts(typing.NamedTuple):
    """A body by its statements, and how many words and bits it defines in scratch."""

    statements: list[Alone]
    words: int
    bits: int


class Measured:
    """Costs of a program's compiler at widths, up to a time; what is measured once is kept."""

    def __init__(self, timed: Timed, widths: typing.Sequence[int], workers: int = 1, cache: StatementCache | None = None) -> None:
        self.timed, self.widths, self.workers = timed, list(widths), workers
        self.kept: Kept = cache.kept if cache else {}
        # what this search has asked for: its guesses do not depend on what others have measured
        self.asked: set[Alone] = set()

    def until_then(self, until: float) -> "Measured":
        """The same, with what is kept, up to another time, for another search."""
        other = copy.copy(self)
        other.timed, other.asked = dataclasses.replace(self.timed, until=until), set()
        return other

    def compiled(self, text: str, also: typing.Iterable[int] = ()) -> Compiled | None:
        """The program file of a text and the costs of its ops; nothing where the text is refused or an op is stuck."""
        with folder_of(ops=text.encode()) as folder:
            ended = self.timed.run(["compile", "ops", "prog"], folder)
            if ended.status == REFUSED:
                return None
            ended.check("compile")
            found: list[Costs] = []
            for width in dict.fromkeys([*self.widths, *also]):
                ended = self.timed.run(["cost", "prog", width], folder)
                ended.check("cost")
                costs = [cost_of(line) for line in ended.out.splitlines()]
                if any(cost.stuck for cost in costs):
                    return None
                found = found or [{} for _ in costs]
                for its, cost in zip(found, costs):
                    its[width] = Cost(cost.commands, cost.rows)
            return Compiled(found, load(f"{folder}/prog"))

    def of_parts(self, bodies: typing.Sequence[Parts]) -> list[Costs | None]:
        """The costs of bodies; nothing where a statement is refused."""
        self._measure([one for parts in bodies for one in parts.statements])
        self.asked.update(one for parts in bodies for one in parts.statements)
        return [self.guess(parts) for parts in bodies]

    def parts(self, op: Op, body: Body) -> Parts:
        """A body's statements, and how many words and bits they define besides the results."""
        kinds, found, counts = dict(op.params + op.results), [], {WORD: 0, BIT: 0}
        for one in body:
            for name, kind in made_by(one, kinds):
                counts[kind] += name not in kinds
                kinds[name] = kind
            found.append(alone(one, kinds))
        return Parts(found, counts[WORD], counts[BIT])

    def guess(self, parts: Parts) -> Costs | None:
        """The costs of a body: the sum over its statements, which share scratch rows; what was not measured is guessed, low.

        Nothing where a statement is refused.
        """
        total = {n: Cost(0, 0) for n in self.widths}
        for one in parts.statements:
            costs = self.kept[one.key] if one in self.asked else {n: Cost(int(one.guess * n), 0) for n in self.widths}
            if costs is None:
                return None
            total = {n: Cost(its.commands + costs[n].commands, max(its.rows, costs[n].rows)) for n, its in total.items()}
        return {n: Cost(its.commands, its.rows + parts.words * n + parts.bits) for n, its in total.items()}

    def is_known(self, one: Alone) -> bool:
        """Whether a statement was measured, now or before."""
        costs = self.kept.get(one.key, {})
        return costs is None or all(n in costs for n in self.widths)

    def _measure(self, statements: typing.Iterable[Alone]) -> None:
        """Measures what is not known yet, on all processors; a test guesses instead."""
        new = [one for one in dict.fromkeys(statements) if not self.is_known(one)]
        size = max(1, min(AT_ONCE, -(-len(new) // self.workers)))
        batches = [new[k:k + size] for k in range(0, len(new), size)]
        in_time = in_parallel(self._probed, batches) if self.workers > 1 else map(self._probed, batches)
        if not all(in_time):
            raise TimeOver

    def _probed(self, statements: typing.Sequence[Alone]) -> bool:
        """Whether statements could be measured in the time."""
        try:
            self._probe(statements)
        except TimeOver:
            return False
        return True

    def _probe(self, statements: typing.Sequence[Alone]) -> None:
        """Measures statements together, or one by one where one is refused."""
        found = self.compiled("".join(one.probe(f"e{k}") for k, one in enumerate(statements)), ALSO)
        if found is None and len(statements) > 1:
            for one in statements:
                self._probe([one])
            return
        for one, costs in zip(statements, found.costs if found else [None]):
            self.kept[one.key] = costs and {n: one.own_cost(n, cost) for n, cost in costs.items()}

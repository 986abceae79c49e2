"""The search for the text of an op that costs the least: over plans, spellings, and other forms of operations."""

import contextlib
import typing

from ..rules.op_tree import Body, Op, body_text
from .blocks import written
from .items import Items
from .lowering import Lowered
from .measured import AT_ONCE, Measured, Parts
from .moves import moves, spellings, starts
from .plans import NoOp, Plan
from .spelling import STYLES
from .statement_alone import Costs
from .timed import TimeOver

ROUNDS = 2
# how many drawn orders of the arguments of and, or are tried for each block of the best plan
DRAWN = 3
# a start whose low guess is so many times as dear as the best is not climbed from
FAR = 1.15
Score = tuple[float, ...]
WORST: Score = (float("inf"),)
# what is added to the score of a text for each width at which it is dearer
DEARER = 1000.0


class Found(typing.NamedTuple):
    """A plan with its body and its score."""

    score: Score
    body: Body | None
    plan: Plan | None


class Attempt(typing.NamedTuple):
    """The best plan with some forms of the operations, the graph that these give, and which of its options each is."""

    best: Found
    lowered: Lowered
    choice: list[int]

    def forms(self, k: int) -> int:
        """How many forms there are of an operation."""
        return len(self.lowered.options[k][1]) if k < len(self.choice) else 0


class Candidate(typing.NamedTuple):
    """A plan that may be better: a low guess at its score, its body, and its statements."""

    guess: float
    body: Body
    plan: Plan
    parts: Parts


class Simpler(typing.NamedTuple):
    """What became of an op: its body, its costs before and after, whether the search came to its end, and the new program file."""

    op: Op
    body: Body
    before: Costs
    after: Costs
    is_whole: bool
    program: bytes = b""

    @property
    def is_changed(self) -> bool:
        return self.body is not self.op.body

    @property
    def text(self) -> str:
        return self.op.text(self.body)


class Search:
    """The search for one op; no text is taken that is dearer at a width, or, with `keeps_rows`, has more scratch rows.

    `end` is when the text that was found must be measured as a whole.
    """

    def __init__(self, op: Op, measured: Measured, before: Costs, keeps_rows: bool = False, end: float = float("inf")) -> None:
        self.op, self.measured, self.before, self.keeps_rows, self.end = op, measured, before, keeps_rows, end
        self.best = Found(WORST, None, None)

    def score(self, costs: Costs | None) -> Score:
        """How dear a text is: its commands beside those before, then its rows."""
        if costs is None:
            return WORST
        pairs = [(costs[n], self.before[n]) for n in self.before]
        dearer = sum(now.commands > old.commands or self.keeps_rows and now.rows > old.rows for now, old in pairs)
        ratio = sum(now.commands / max(old.commands, 1) for now, old in pairs)
        return DEARER * dearer + ratio, sum(now.rows for now, _ in pairs)

    def candidates(self, items: Items, plans: typing.Iterable[Plan]) -> list[Candidate]:
        """The plans that are ops, those first that are guessed to be the least."""
        found = []
        for plan in plans:
            self.measured.timed.check_time()
            with contextlib.suppress(NoOp):
                body = written(items, plan)
                parts = self.measured.parts(self.op, body)
                found.append(Candidate(self.guess(parts), body, plan, parts))
        return sorted(found, key=lambda one: one.guess)

    def guess(self, parts: Parts) -> float:
        """How dear a body is guessed to be."""
        return self.score(self.measured.guess(parts))[0]

    def best_of(self, items: Items, plans: typing.Iterable[Plan], best: Found) -> Found:
        """A better plan among some, or the one so far: the most promising are measured, a few at a time, up to the first that is."""
        left = self.candidates(items, plans)
        while left:
            left = [one._replace(guess=self.guess(one.parts)) for one in left]
            left = [one for one in left if one.guess <= best.score[0]]
            left, new, count = sorted(left, key=lambda one: one.guess), set(), 0
            while count < len(left) and len(new) < AT_ONCE:
                new.update(set(left[count].parts.statements) - self.measured.asked)
                count += 1
            some, left = left[:count], left[count:]
            found = min(self._measured(some), key=lambda one: one.score, default=best)
            if found.score < best.score:
                return found
        return best

    def _measured(self, some: typing.Sequence[Candidate]) -> list[Found]:
        """Candidates, measured as many at once as there are workers; the best so far is known after each."""
        found = []
        for k in range(0, len(some), self.measured.workers):
            part = some[k:k + self.measured.workers]
            costs = self.measured.of_parts([one.parts for one in part])
            found += [Found((*self.score(cost), len(body_text(one.body))), one.body, one.plan) for one, cost in zip(part, costs)]
            self.best = min([self.best, *found], key=lambda one: one.score)
        return found

    def climb(self, items: Items, best: Found, beside: typing.Callable[[Items, Plan], list[Plan]] = moves) -> Found:
        """Goes to a better plan beside a plan as long as there is one."""
        while best.plan is not None:
            found = self.best_of(items, beside(items, best.plan), best)
            if found is best:
                break
            best = found
        return best

    def attempt(self, choice: list[int]) -> Attempt:
        """The best plan with some forms of the operations; a start that is far from the best so far is left out."""
        lowered = Lowered(self.op, choice)
        items, best = Items(lowered), Found(WORST, None, None)
        near = [one for one in self.candidates(items, starts(items)) if one.guess <= self.best.score[0] * FAR]
        for start in sorted(self._measured(near), key=lambda one: one.score):
            best = min(best, self.climb(items, start), key=lambda one: one.score)
        return Attempt(best, lowered, (choice + [0] * len(lowered.options))[:len(lowered.options)])

    def over_forms(self) -> None:
        """Tries the forms of operations: one for all, then each by itself."""
        best = self.attempt([])
        for number in range(1, max(map(best.forms, range(len(best.choice))), default=1)):
            best = self._better(best, [min(number, best.forms(k) - 1) for k in range(len(best.choice))])
        for _ in range(ROUNDS):
            before = best
            for k in range(len(best.choice)):
                for number in range(best.forms(k)):
                    if k < len(best.choice) and number != best.choice[k]:
                        best = self._better(best, [*best.choice[:k], number, *best.choice[k + 1:]])
            if best is before:
                break
        # the spellings of the best: its choices, its states' polarity, and blocks where word statements do
        self.climb(Items(best.lowered), best.best, lambda items, plan: spellings(items, plan, range(STYLES + DRAWN)))

    def _better(self, best: Attempt, choice: list[int]) -> Attempt:
        """The attempt with a choice where it is better, else the one so far."""
        found = self.attempt(choice)
        return found if found.best.score < best.best.score else best

    def run(self) -> Simpler:
        """The op with the best text that was found in the time, measured as a whole; else as it was."""
        is_whole, found = False, None
        with contextlib.suppress(TimeOver):
            self.over_forms()
            is_whole = True
        if self.best.body is not None:
            with contextlib.suppress(TimeOver):
                found = self.measured.until_then(self.end).compiled(self.op.text(self.best.body))
        old, new = self.score(self.before), self.score(found.costs[0] if found else None)
        if new < old or new == old and len(self.best.body) < len(self.op.body):
            return Simpler(self.op, self.best.body, self.before, found.costs[0], is_whole, found.program)
        return Simpler(self.op, self.op.body, self.before, self.before, is_whole)

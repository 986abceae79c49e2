"""Cuts an expression into ops, with at most four sources, sixteen statements and two results each; and their texts."""

import itertools
import re
import typing

from ..rules.op_tree import Op, WordStatement
from ..rules.ops_rules import RESULTS, SOURCES, STATEMENTS
from .expressions import Step, Value, givers, in_order
from .operations import Operation


class Part:
    """Steps that become one op, in order; the values that it takes, and those that it gives."""

    def __init__(self, steps: typing.Sequence[Step], wanted: typing.Container[int]) -> None:
        self.steps = list(steps)
        inside = {id(value) for step in self.steps for value in step.results}
        taken = {id(value): value for step in self.steps for value in step.arguments if id(value) not in inside}
        self.sources = list(taken.values())
        self.results = [value for step in self.steps for value in step.results
                        if id(value) in wanted or not can_join(step)]
        # the width of its words, or None where it has bits alone
        self.width = next((step.width for step in self.steps if step.width is not None), None)

    def fits(self, statements: int) -> bool:
        """Whether it is one op of the language, with at most so many statements."""
        widths = {step.width for step in self.steps if step.width is not None}
        small = len(self.sources) <= SOURCES and len(self.steps) <= statements and len(self.results) <= RESULTS
        return small and len(widths) <= 1 and all(map(can_join, self.steps))


def can_join(step: Step) -> bool:
    """Whether a step can be a statement beside others; an op of the designer's own is a bbop of its own."""
    return isinstance(step.operation, Operation)


def cut(targets: typing.Sequence[Value], statements: int = STATEMENTS) -> list[Part]:
    """The parts that give the targets, in an order in which they can be done, of at most so many statements each."""
    if not (steps := in_order(targets)):
        return []
    wanted = {id(target) for target in targets}
    whole = Part(steps, wanted)
    return [whole] if whole.fits(statements) else list(pieces(steps, wanted, statements))[::-1]


def pieces(steps: typing.Sequence[Step], wanted: set[int], statements: int) -> typing.Iterator[Part]:
    """The parts of steps that are no single op, the last first."""
    place = {id(step): k for k, step in enumerate(steps)}
    users: dict[int, set[int]] = {id(step): set() for step in steps}
    for step in steps:
        for below in givers(step.arguments):
            users[id(below)].add(id(step))

    def larger_than(part: Part) -> Part | None:
        """The part with one more step; those are tried first that bring the fewest new sources."""
        members, taken = {id(step) for step in part.steps}, {id(value) for value in part.sources}
        below = {id(step): step for step in givers(part.sources)}
        for step in sorted(below.values(), key=lambda one: len({id(value) for value in one.arguments} - taken)):
            larger = Part(sorted([step, *part.steps], key=lambda one: place[id(one)]), wanted)
            if users[id(step)] <= members and larger.fits(statements):
                return larger
        return None

    placed: set[int] = set()
    for step in reversed(steps):
        if id(step) not in placed:
            part, larger = None, Part([step], wanted)
            while larger:
                part, larger = larger, larger_than(larger) if can_join(step) else None
            placed |= {id(one) for one in part.steps}
            wanted |= {id(value) for value in part.sources}
            yield part


PARAMETER_NAMES, RESULT_NAMES = "abcd", "yz"
HEAD = re.compile(r"op (\w+)\(")


def text_of(name: str, part: Part) -> str:
    """The text, in its canonical form."""
    names = {id(value): letter for value, letter in zip(part.sources, PARAMETER_NAMES)}
    names.update((id(value), letter) for value, letter in zip(part.results, RESULT_NAMES))
    given, states, body = len(names), map("s{}".format, itertools.count()), []
    for step in part.steps:
        for value in step.results:
            names.setdefault(id(value), f"t{len(names) - given}")
        targets, arguments = ([names[id(value)] for value in values] for values in (step.results, step.arguments))
        if block := step.operation.block:
            own = {"y": targets[0], **dict(zip("ab", arguments))}
            own.update((letter, next(states)) for letter, _ in block.states if letter not in own)
            body.append(block.renamed(own.__getitem__))
        else:
            body.append(WordStatement(tuple(targets), step.operation.name, tuple(arguments)))
    params, results = (tuple((names[id(value)], value.kind) for value in values) for values in (part.sources, part.results))
    return Op(name, params, results, body).text()


def renamed(text: str, name: str) -> str:
    """The same op under another name."""
    return HEAD.sub(f"op {name}(", text, count=1)

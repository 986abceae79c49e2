"""Where a search over plans starts, and which plans are next to a plan."""

import dataclasses
import itertools
import typing

from .blocks import written
from .gates import STATE
from .items import OPERATION, ROW, STATES, Item, Items
from .op_limits import fits
from .plans import Group, NoOp, Plan, is_whole

NONE, TOO_GREAT, FITS = 0, 1, 2


def possible(items: Items, plan: Plan) -> int:
    """Whether a plan is an op, and whether it keeps to the limits."""
    try:
        return FITS if fits(written(items, plan, False)) else TOO_GREAT
    except NoOp:
        return NONE


def starts(items: Items) -> list[Plan]:
    """The text as it was, only what must stand in rows, and all merged that can be."""
    base = [frozenset([Item(STATES, one)]) for one in range(len(items.components))]
    base += [frozenset([Item(OPERATION, one)]) for one in sorted(items.wholes)]
    required, optional = ([Item(ROW, lit) for lit in lits] for lits in (items.words, items.optional))
    plans = [_start(items, base, words) for words in ([*optional, *required], required)]
    return [*plans, merged(items, plans[0])]


def _start(items: Items, base: typing.Sequence[Group], words: typing.Sequence[Item]) -> Plan:
    """A statement for each word, with the states that it alone reads."""
    plan = Plan((*base, *(frozenset([word]) for word in words)))
    for word in words:  # a word that is a state at each position stands in its block
        node = items.graph.node(word.number)
        if node.kind == STATE:
            plan = _joined(plan, Item(STATES, items.component[node.ident]), word)
    for word in words:
        for node in map(items.graph.nodes.__getitem__, sorted(items.graph.node(word.number).leaves)):
            if node.kind == STATE:
                state = Item(STATES, items.component[node.ident])
                home = next((group for group in plan.groups if state in group), frozenset())
                trial = _joined(plan, state, word)
                if len(home) == 1 and trial is not plan and possible(items, trial):
                    plan = trial
    return plan


def _joined(plan: Plan, one: Item, other: Item) -> Plan:
    """The plan with the groups of two items as one; the same where they are."""
    first, second = (next(group for group in plan.groups if item in group) for item in (one, other))
    return plan if first is second else _merge(plan, first, second)


def _merge(plan: Plan, first: Group, second: Group) -> Plan:
    return plan.with_groups([*(group for group in plan.groups if group not in (first, second)), first | second])


def merged(items: Items, plan: Plan) -> Plan:
    while True:
        least = possible(items, plan)
        trial = next((one for one in merges(plan) if possible(items, one) >= max(least, TOO_GREAT)), None)
        if trial is None:
            return plan
        plan = trial


def merges(plan: Plan) -> typing.Iterator[Plan]:
    """Two groups as one."""
    return (_merge(plan, *pair) for pair in itertools.combinations(plan.groups, 2) if not any(map(is_whole, pair)))


def _placed(plan: Plan, groups: typing.Sequence[Group], item: Item, at: int = -1) -> typing.Iterator[Plan]:
    """These groups with one more item, in a group of its own, or in another than the one where it stood."""
    yield plan.with_groups([*groups, frozenset([item])])
    for k, group in enumerate(groups):
        if k != at and not is_whole(group):
            yield plan.with_groups([*groups[:k], group | {item}, *groups[k + 1:]])


def splits(plan: Plan) -> typing.Iterator[Plan]:
    """An item in a group of its own, or in another group."""
    for k, group in enumerate(plan.groups):
        for item in sorted(group) if len(group) > 1 and not is_whole(group) else ():
            yield from _placed(plan, [*plan.groups[:k], group - {item}, *plan.groups[k + 1:]], item, k)


def rows(items: Items, plan: Plan) -> typing.Iterator[Plan]:
    """A word of the text in a row, or in none."""
    for word in (Item(ROW, lit) for lit in items.optional):
        if any(word in group for group in plan.groups):
            yield plan.with_groups(group - {word} for group in plan.groups)
        else:
            yield from _placed(plan, plan.groups, word)


def again(items: Items, plan: Plan) -> typing.Iterator[Plan]:
    """A component that each reader computes for itself, or no longer; its last value then in a pass of its own."""
    for number in range(len(items.components)):
        item, groups = Item(STATES, number), plan.groups
        now = dataclasses.replace(plan, again=plan.again ^ {number})
        without = [group - {item} for group in groups]
        if number in now.again and not items.read_last & items.components[number]:
            groups = without
        elif number in plan.again and not any(item in group for group in groups):
            groups = [*groups, frozenset([item])]
        yield now.with_groups(groups)
        if number in now.again:
            yield now.with_groups([*without, frozenset([item])])


def moves(items: Items, plan: Plan) -> list[Plan]:
    """The plans next to a plan, each once."""
    found = itertools.chain(merges(plan), splits(plan), rows(items, plan), again(items, plan))
    return list({one.key: one for one in found}.values())


def spellings(items: Items, plan: Plan, numbers: typing.Iterable[int]) -> list[Plan]:
    """The same groups written otherwise."""
    found, numbers = [], list(numbers)
    for k, group in enumerate(plan.groups):
        if not is_whole(group):
            spelled = ({**dict(plan.spelling), k: number} for number in numbers)
            found += [dataclasses.replace(plan, spelling=tuple(one.items())) for one in spelled]
            found.append(dataclasses.replace(plan, blocks=plan.blocks ^ {k}))
    found += [dataclasses.replace(plan, turned=plan.turned ^ {state}) for one in items.components for state in sorted(one)]
    return found

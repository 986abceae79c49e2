"""What the limits of the language and the readers of a name ask of a body."""

import typing

from ..rules.op_tree import Block, Body, Expr, WordStatement, read
from ..rules.ops_rules import ASSIGNMENTS, DEPTH, LETS, STATEMENTS, STATES, WEIGHT
from ..rules.word_ops import WEIGHTS


def weight(expr: Expr) -> int:
    return WEIGHTS.get(expr.gate, 0) + sum(map(weight, expr.args))


def depth(expr: Expr) -> int:
    return 1 + max(map(depth, expr.args)) if expr.args else 0


def block_fits(block: Block) -> bool:
    counts = ((block.states, STATES), (block.assigns, ASSIGNMENTS), (block.lets, LETS))
    return bool(block.assigns) and all(len(part) <= most for part, most in counts) \
        and sum(map(weight, block.expressions)) <= WEIGHT and max(map(depth, block.expressions)) <= DEPTH


def fits(body: Body) -> bool:
    return len(body) <= STATEMENTS and all(isinstance(one, WordStatement) or block_fits(one) for one in body)


def live_block(block: Block, wanted: set[str]) -> Block | None:
    """A block without what nothing reads; the names that it reads are wanted from then on."""
    own, nexts = dict(block.states + block.lets), dict(block.lets + block.assigns)
    todo, needed = [name for name, _ in block.states + block.assigns if name in wanted], set()
    while todo:
        name = todo.pop()
        if name not in needed:
            needed.add(name)
            todo += [below for below in nexts[name].names() if below in own] if name in nexts else []
    if not needed:
        return None
    states, lets, assigns = (tuple(one for one in part if one[0] in needed) for part in (block.states, block.lets, block.assigns))
    found = Block(block.direction, states, lets, assigns or ((states[0][0], read(states[0][0])),))
    wanted |= found.reads
    return found


def live(body: Body, results: typing.Iterable[str]) -> Body:
    """The body without what nothing reads: statements, assignments, states and lets."""
    wanted, kept = set(results), []
    for one in reversed(body):
        if isinstance(one, Block):
            kept.append(live_block(one, wanted))
        elif wanted.intersection(one.targets):
            wanted |= one.reads
            kept.append(one)
    return list(filter(None, kept[::-1]))

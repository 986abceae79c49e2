"""Which forms a loop, or the program itself, holds in registers: subscripts of its rows, and what inner loops begin with."""

import typing

from ..rules.answer import Breach
from .forms import N, Form
from .tree import Command, For, If

LAST_WIDTH = 128
# what is around a statement: loops, and each `if` that is there only where its form is not zero
Around = typing.Sequence[For | If]


class Needs(typing.NamedTuple):
    """Forms of rows, which a register has to hold as they are, and forms that may differ by a number from a register."""

    exact: dict[Form, None]
    near: dict[Form, None]

    def of(self, around: Around) -> list[Form]:
        """The forms whose innermost variable is that of the last loop, or that have none where there is no loop: each that is
        exact, and one of each kind that is near, which is never below zero."""
        own = around[-1].variable if around else None
        mine = [form for form in self.exact if innermost(form, around) == own]
        for form in self.near:
            if own and innermost(form, around) == own and all(form.terms != other.terms for other in mine):
                mine.append(form + max(0, -least(form, around)))
        return mine


def innermost(form: Form, around: Around) -> str | None:
    order = [loop.variable for loop in around if isinstance(loop, For)]
    return max(form.variables, key=order.index, default=None)


def needs_of(statements: typing.Iterable[typing.Any], around: Around) -> Needs:
    """The forms that statements need of what is around them."""
    found = Needs({}, {})
    for one in statements:
        if isinstance(one, Command):
            found.exact.update({row.index: None for row in one.rows if isinstance(row.index, Form) and row.index != Form()})
        elif isinstance(one, If):
            found.near[tested(one, around)[0]] = None
            for inner in (needs_of(one.zero, around), needs_of(one.other, [*around, one])):
                found.exact.update(inner.exact)
                found.near.update(inner.near)
        elif isinstance(one, For):
            within = [*around, one]
            inner = needs_of(one.body, within)
            starts = [form.put(one.variable, one.start) for form in inner.of(within)]
            found.exact.update({form: None for form in inner.exact if not form.times(one.variable)})
            found.near.update({form: None for form in [*inner.near, *starts, one.count] if not form.times(one.variable)})
    return found


def narrowest(around: Around) -> int:
    """The least width at which a statement is done: loops over n alone have an iteration, and a form of n alone is not zero."""
    found = 1
    for one in around:
        form = one.count if isinstance(one, For) else one.form
        if form.terms == ((N, 1),) and (isinstance(one, For) or found + form.number == 0):
            found = max(found, 1 - form.number)
    return found


def least(form: Form, around: Around) -> int:
    """A number that the form is never below there."""
    for loop in reversed([one for one in around if isinstance(one, For)]):
        low, high = loop.range
        form = form.put(loop.variable, low if form.times(loop.variable) > 0 else high)
    return form.put(N, Form(narrowest(around) if form.times(N) >= 0 else LAST_WIDTH)).number


def tested(one: If, around: Around) -> tuple[Form, int | None]:
    """What an `if` asks of a form that is never below zero, the one of the `if` or its opposite: whether it is zero, or, where
    such a form is compared with a number that it may be above and below, this number."""
    both = (one.form, Form() - one.form)
    for form in both:
        if least(form, around) >= 0:
            return form, None
    for form in both:
        alone = Form(0, form.terms)
        if form.number < 0 and least(alone, around) >= 0:
            return alone, -form.number
    raise Breach(one.token, "number", f"{one.form} may be above and below zero here", "the one side is never less than the other, or is "
                    "a number")

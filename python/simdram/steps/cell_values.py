"""What cells hold while commands are done: values with a text, and a pattern by which equal ones are found.

A pattern is the value under 256 drawn settings of the rows that are read, so that two values with one pattern are one
function of these rows, but for a chance that nobody meets.
"""

import dataclasses
import random

BITS = 256
ALL = 2**BITS - 1


@dataclasses.dataclass(frozen=True)
class Value:
    """A value: its text, and its pattern; of a cell that was not written yet there is none."""

    text: str
    pattern: int | None = None


UNKNOWN = Value("?")
ZERO, ONE = Value("0", 0), Value("1", ALL)


def drawn(name: str) -> int:
    """The pattern of a row that is read."""
    return random.Random(name).getrandbits(BITS)


def row_value(name: str) -> Value:
    """What a row holds before it is written."""
    return Value(name, drawn(name))


def old_value(name: str) -> Value:
    """What a row that is written held before, by a name of its own."""
    return Value(f"old {name}", drawn(name))


def now_value(name: str, number: int) -> Value:
    """What a row holds after the number-th write in a part to a row that it may be."""
    text = f"now{number if number > 1 else ''} {name}"
    return Value(text, drawn(text))


def complemented(value: Value, is_turned: bool = True) -> Value:
    """The complement of a value, as an n-wordline reads or writes it; or the value itself."""
    if value.pattern is None or not is_turned:
        return value
    if value in (ZERO, ONE):
        return ONE if value == ZERO else ZERO
    text = value.text[1:] if value.text.startswith("~") else f"~{value.text}"
    return Value(text, value.pattern ^ ALL)


def majority(values: list[Value]) -> Value:
    """The majority of three values, as short as equal and opposite ones, 0 and 1 make it."""
    x, y, z = sorted(values, key=lambda value: value.text)
    for one, two, three in ((x, y, z), (x, z, y), (y, z, x)):
        if one.pattern is not None and one.pattern == two.pattern:
            return one
        if one.pattern is not None and two.pattern == one.pattern ^ ALL:
            return three
    if UNKNOWN in (x, y, z):
        return UNKNOWN
    pattern = x.pattern & y.pattern | x.pattern & z.pattern | y.pattern & z.pattern
    named = [value.text for value in (x, y, z) if value not in (ZERO, ONE)]
    if len(named) == 2:
        return Value(f"{'and' if ZERO in (x, y, z) else 'or'}({named[0]}, {named[1]})", pattern)
    return Value(f"M({x.text}, {y.text}, {z.text})", pattern)


class Names:
    """The values that have names of their own: lets, and long ones that are numbered."""

    def __init__(self, lets: dict[str, int], longest: int) -> None:
        self.longest = longest
        self.by_pattern = {pattern: name for name, pattern in lets.items()}
        self.said: list[tuple[str, str]] = []

    def named(self, value: Value) -> Value:
        """The value by its name, where it has one or is long."""
        if value.pattern is None or value in (ZERO, ONE):
            return value
        for pattern, sign in ((value.pattern, ""), (value.pattern ^ ALL, "~")):
            if pattern in self.by_pattern:
                return Value(sign + self.by_pattern[pattern], value.pattern)
        if len(value.text) <= self.longest:
            return value
        bare = complemented(value) if value.text.startswith("~") else value
        name = f"v{len(self.said) + 1}"
        self.by_pattern[bare.pattern] = name
        self.said.append((name, bare.text))
        return Value(("" if bare is value else "~") + name, value.pattern)

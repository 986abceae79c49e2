"""Sums of n, loop variables and numbers, as subscripts and bounds have them."""

import collections
import typing

N = "n"


class Form(typing.NamedTuple):
    """A number, and how often each name is added to it."""

    number: int = 0
    terms: tuple[tuple[str, int], ...] = ()

    @classmethod
    def of(cls, name: str) -> "Form":
        return cls(0, ((name, 1),))

    def times(self, name: str) -> int:
        """How often a name is added."""
        return dict(self.terms).get(name, 0)

    def plus(self, other: "Form | int", factor: int = 1) -> "Form":
        """The sum with a multiple of another form, or of a number."""
        number, terms = other if isinstance(other, Form) else (other, ())
        sums = collections.Counter(dict(self.terms))
        for name, times in terms:
            sums[name] += factor * times
        return Form(self.number + factor * number, tuple(sorted((name, times) for name, times in sums.items() if times)))

    def __add__(self, other: "Form | int") -> "Form":
        return self.plus(other)

    def __sub__(self, other: "Form | int") -> "Form":
        return self.plus(other, -1)

    def put(self, name: str, value: "Form") -> "Form":
        """The form with a value in place of a name."""
        return self.plus(value - Form.of(name), self.times(name))

    @property
    def variables(self) -> list[str]:
        return [name for name, _ in self.terms if name != N]

    def __str__(self) -> str:
        """As a text writes it: n first, then the variables, the number last."""
        terms = sorted(self.terms, key=lambda term: (term[1] < 0, term[0] != N))
        parts = [(times, name if abs(times) == 1 else f"{abs(times)} * {name}") for name, times in terms]
        if self.number or not parts:
            parts.append((self.number, str(abs(self.number))))
        text = f"{'-' if parts[0][0] < 0 else ''}{parts[0][1]}"
        return text + "".join(f" {'-' if times < 0 else '+'} {part}" for times, part in parts[1:])

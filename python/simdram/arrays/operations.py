"""What an operation of an expression is: the word operations of the language, and serial blocks of the front beside them.

In a block `a` and `b` are its arguments in order, `y` is its result, and the other letters are its states.
"""

import typing

from ..rules.op_tree import Block
from ..rules.ops_rules import read_ops
from ..rules.word_ops import KIND_OF, WORD_OPS, Numbers, signed

WORD, BIT = KIND_OF["w"], KIND_OF["b"]
# an argument or a result that is a word or a bit as the others of this kind are
SAME = "same"


class Operation(typing.NamedTuple):
    """An operation: its name, the kinds of its arguments and results, its value on numbers at a width (what is above the width is
    cut off), and the statement that it is where it is a serial block."""

    name: str
    takes: tuple[str, ...]
    gives: tuple[str, ...]
    value: typing.Callable[..., Numbers] | None = None
    block: Block | None = None

    def folded(self, bits: int, numbers: typing.Sequence[int]) -> tuple[int, ...]:
        """Its results on numbers below 2^bits, before they are cut to their widths."""
        found = self.value(bits, *numbers)
        return found if isinstance(found, tuple) else (found,)


def _kinds(letters: str) -> tuple[str, ...]:
    return tuple(KIND_OF.get(letter, SAME) for letter in letters)


# signed order: the top bits count the other way round, so the last position compares with a and b exchanged
_BLOCKS = b"""
op signed_gt(a: word, b: word) -> y: bit {
  serial up (g = 0, y = 0) { y = maj(not(a), b, g); g = maj(a, not(b), g); }
}
op signed_ge(a: word, b: word) -> y: bit {
  serial up (g = 1, y = 0) { y = maj(not(a), b, g); g = maj(a, not(b), g); }
}
op negative(a: word) -> y: word {
  serial up (d = 0) { y = xor(a, d); d = or(a, d); }
}
op sign(a: word) -> y: bit {
  serial up (y = 0) { y = a; }
}
op zero_unless(a: word, b: bit) -> y: word {
  serial up () { y = and(a, b); }
}
op zero_if(a: word, b: bit) -> y: word {
  serial up () { y = and(a, not(b)); }
}
"""
_VALUES: dict[str, typing.Callable[..., Numbers]] = {
    "signed_gt": lambda bits, x, y: int(signed(bits, x) > signed(bits, y)),
    "signed_ge": lambda bits, x, y: int(signed(bits, x) >= signed(bits, y)),
    "negative": lambda _bits, x: -x, "sign": lambda bits, x: x >> bits - 1,
    "zero_unless": lambda _bits, x, condition: x if condition else 0, "zero_if": lambda _bits, x, condition: 0 if condition else x,
}
OPERATIONS = {name: Operation(name, _kinds(one.takes), _kinds(one.gives), one.value) for name, one in WORD_OPS.items()}
BLOCKS = {op.name: Operation(op.name, tuple(dict(op.params).values()), tuple(dict(op.results).values()), _VALUES[op.name], op.body[0])
          for op in read_ops(_BLOCKS)}
NAMED = {**OPERATIONS, **BLOCKS}

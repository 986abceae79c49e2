"""Random ops of the language, for tests."""

import support  # noqa: F401  (the path)

from simdram.rules.op_tree import BIT, WORD, Block, Op, WordStatement, gate, read
from simdram.simplify.op_limits import fits

ONE = ("not", "copy", "shl1", "shr1", "abs", "relu", "bitcount")
TWO = ("and", "or", "xor", "add", "sub", "min", "max")
NESTED = ("mul", "div", "rem")
TO_BIT_ONE, TO_BIT_TWO = ("and_red", "or_red", "xor_red"), ("eq", "gt", "ge")
GATES = (("not", 1), ("and", 2), ("or", 2), ("xor", 2), ("maj", 3))


class Maker:
    """Makes ops from random draws."""

    def __init__(self, draws):
        self.draws = draws

    def op(self):
        """A random op that keeps to the limits."""
        while True:
            made = self._op()
            if made is not None and fits(made.body):
                return made

    def _op(self):
        self.kinds = {"a": WORD, "b": WORD, "c": self.draws.choice((WORD, BIT))}
        params, body = tuple(self.kinds.items()), []
        for k in range(self.draws.randint(2, 6)):
            body.append(self._statement(f"t{k}", f"s{k}"))
        made = [name for name in self.kinds if name not in dict(params)]
        names = list(dict.fromkeys([made[-1], self.draws.choice(made)]))
        results = tuple((name, self.kinds[name]) for name in names)
        return Op("f", params, results, body)

    def _any(self, kind):
        return self.draws.choice([name for name, its in self.kinds.items() if its == kind])

    def _statement(self, target, state):
        pick, has_bit = self.draws.random(), BIT in self.kinds.values()
        if pick < .25:
            return self._block(target, state)
        if pick < .4:
            made = self._word(target, WORD, self.draws.choice(ONE), 1)
        elif pick < .7:
            made = self._word(target, WORD, self.draws.choice(TWO if self.draws.random() < .9 else NESTED), 2)
        elif pick < .85:
            count = self.draws.randint(1, 2)
            made = self._word(target, BIT, self.draws.choice((TO_BIT_ONE, TO_BIT_TWO)[count - 1]), count)
        elif has_bit and pick < .95:
            made = WordStatement((target,), "if_else", (self._any(WORD), self._any(WORD), self._any(BIT)))
            self.kinds[target] = WORD
        elif has_bit:
            made = WordStatement((target,), self.draws.choice(("and", "or", "xor")), (self._any(BIT), self._any(BIT)))
            self.kinds[target] = BIT
        else:
            made = self._word(target, WORD, self.draws.choice(("zero", "ones")), 0)
        return made

    def _word(self, target, kind, operation, count):
        made = WordStatement((target,), operation, tuple(self._any(WORD) for _ in range(count)))
        self.kinds[target] = kind
        return made

    def _block(self, target, state):
        states = tuple((f"{state}_{k}", self.draws.randint(0, 1)) for k in range(self.draws.randint(0, 2)))
        names = [*self.kinds, *(name for name, _ in states)]
        assigns = tuple((name, self._expr(names, 2)) for name in [*(name for name, _ in states), target])
        direction = self.draws.choice(("up", "down"))
        self.kinds.update((name, BIT) for name, _ in states)
        self.kinds[target] = WORD
        return Block(direction, states, (), assigns)

    def _expr(self, names, depth):
        if depth == 0 or self.draws.random() < .25:
            return read(self.draws.choice(names))
        kind, count = self.draws.choice(GATES)
        return gate(kind, *(self._expr(names, depth - 1) for _ in range(count)))

"""Drawn expressions have the same values before and after they are simplified, without a program."""

import random
import unittest

from support import needs_numpy, numpy

if numpy is not None:
    from simdram.arrays.expressions import Constant, Held, Result, Value, in_order, step
    from simdram.arrays.layout import Layout, Product, Slice, bits_of, extended, joined, laid, shifted
    from simdram.arrays.operations import BIT, BLOCKS, OPERATIONS, WORD
    from simdram.arrays.simplify import simplified


def values_of(targets, held):
    """The numbers of values, where objects hold these."""
    known = {}

    def of(value):
        if isinstance(value.origin, Held):
            return held[value.origin.name]
        return value.origin.number if isinstance(value.origin, Constant) else known[id(value)]

    for one in in_order(targets):
        given = [(of(value), value.bits) for value in one.arguments]
        found = laid_out(one.operation, given) if isinstance(one.operation, Layout) else one.operation.folded(one.width or 1, list(zip(*given))[0])
        known.update((id(value), number % (1 << value.bits)) for value, number in zip(one.results, found))
    return [of(target) for target in targets]


def laid_out(operation, given):
    """The number of a slice, a join or a product."""
    if isinstance(operation, Slice):
        return (given[0][0] >> operation.low,)
    if isinstance(operation, Product):
        return (given[0][0] * given[1][0],)
    total = at = 0
    for (number, bits), size in zip(given, operation.sizes):
        total |= (number if bits == size else (2**size - 1) * number) << at
        at += size
    return (total,)


class Drawn:
    """Values that are drawn from a few objects, plain numbers, and operations on those before."""

    def __init__(self, dice, bits):
        self.dice = dice
        plain = {0, 1, 2**bits - 1, 2**bits - 2, 1 << bits - 1, (1 << bits - 1) - 1, dice.getrandbits(bits)}
        self.words = [Value(WORD, bits, Held(name)) for name in "ab"]
        self.words += [Value(WORD, bits, Constant(number % 2**bits)) for number in plain]
        self.wide = list(self.words)
        self.flags = [Value(BIT, 1, Held("s")), Value(BIT, 1, Constant(0)), Value(BIT, 1, Constant(1))]
        self.operations = [one for one in (*OPERATIONS.values(), *BLOCKS.values()) if one.takes]

    def add(self):
        """One more step, mostly on the latest values, or on bits of them."""
        if self.dice.random() < 0.3:
            self.add_bits()
            return
        operation = self.dice.choice(self.operations)
        same = self.dice.choice((WORD, WORD, BIT))
        kinds = [kind if kind in (WORD, BIT) else same for kind in operation.takes]
        given = [self.dice.choice(pool if self.dice.random() < 0.4 else pool[-4:])
                 for pool in (self.words if kind == WORD else self.flags for kind in kinds)]
        for value in step(operation, given).results:
            (self.words if value.kind == WORD else self.flags).append(value)


    def add_bits(self):
        """A slice, a join or a product of values of other widths, and a word of theirs."""
        bits, few = self.words[0].bits, self.wide[-4:] + self.words[-4:] + self.flags[-2:]
        one, two = self.dice.choice(few), self.dice.choice(few)
        low = self.dice.randrange(one.bits)
        self.wide.append(self.dice.choice((
            lambda: bits_of(one, low, self.dice.randint(1, one.bits - low)), lambda: bits_of(one, low, 1),
            lambda: joined([(two, two.bits), (bits_of(one, low, 1, BIT), 3), (one, one.bits)]), lambda: laid(Product(), (one, two), one.bits + two.bits),
            lambda: shifted(one, low, False), lambda: shifted(one, -low, False), lambda: shifted(one, -low, True)))())
        self.flags.append(bits_of(one, low, 1, BIT))
        self.words.append(extended(self.wide[-1], bits, self.dice.random() < 0.5))


@needs_numpy
class Rules(unittest.TestCase):
    """Rules keep values, and make no step that nothing reads."""

    def test_values_stay(self):
        dice = random.Random(10)
        for _ in range(3000):
            bits = dice.choice((1, 2, 3, 5, 8))
            drawn = Drawn(dice, bits)
            for _ in range(dice.randrange(1, 9)):
                drawn.add()
            targets = dice.sample(drawn.words[-3:] + drawn.flags[-2:] + drawn.wide[-2:], 2)
            for by_digits in (True, False):
                made = simplified(targets, by_digits)
                self.assertEqual([(value.kind, value.bits) for value in made], [(value.kind, value.bits) for value in targets])
                for _ in range(8):
                    held = {"a": dice.getrandbits(bits), "b": dice.getrandbits(bits), "s": dice.getrandbits(1)}
                    self.assertEqual(values_of(made, held), values_of(targets, held), [one.operation.name for one in in_order(targets)])
                self.assert_small(made)

    def assert_small(self, made):
        """No step has constants alone, and none stands twice."""
        steps = in_order(made)
        for one in steps:
            self.assertFalse(all(isinstance(value.origin, Constant) for value in one.arguments), one.operation.name)
        keys = [(one.operation if isinstance(one.operation, Layout) else one.operation.name, one.width, *map(id, one.arguments)) for one in steps]
        self.assertEqual(len(keys), len(set(keys)))
        self.assertTrue(all(isinstance(value.origin, Result) for one in steps for value in one.results))


if __name__ == "__main__":
    unittest.main()

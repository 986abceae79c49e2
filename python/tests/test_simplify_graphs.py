"""The graphs of `simplify`: each identity alone, equal states, plans and limits; no program is needed."""

import itertools
import random
import unittest

import support  # noqa: F401  (the path)
from random_ops import Maker

from simdram.rules.op_tree import BIT, Block, Op, WordStatement, gate, read
from simdram.rules.ops_rules import read_ops
from simdram.simplify import gates
from simdram.simplify.blocks import written
from simdram.simplify.cut import cut
from simdram.simplify.gates import Graph
from simdram.simplify.items import Items
from simdram.simplify.lowering import Lowered
from simdram.simplify.moves import moves, starts
from simdram.simplify.op_limits import fits, live, weight
from simdram.simplify.plans import NoOp, Plan
from simdram.simplify.statement_alone import alone

# statements that give y, and others that give z, which is the same
WORDS = (
    ("y = and(a, a);", "z = copy(a);"),
    ("t = not(a); y = not(t);", "z = copy(a);"),
    ("t = not(a); y = and(a, t);", "z = zero();"),
    ("y = xor(a, a);", "z = zero();"),
    ("t = xor(a, b); y = xor(t, b);", "z = copy(a);"),
    ("t = not(a); u = not(b); v = or(t, u); y = not(v);", "z = and(a, b);"),
    ("t = or(a, b); y = and(a, t);", "z = copy(a);"),
    ("y = add(a, b);", "z = add(b, a);"),
    ("t = add(a, b); y = sub(t, b);", "z = copy(a);"),
    ("t = sub(a, b); y = add(b, t);", "z = copy(a);"),
    ("t = zero(); u = sub(t, b); y = add(a, u);", "z = sub(a, b);"),
    ("t = zero(); u = sub(t, b); y = sub(a, u);", "z = add(a, b);"),
    ("t = zero(); u = sub(a, b); y = sub(t, u);", "z = sub(b, a);"),
    ("y = sub(a, a);", "z = zero();"),
    ("t = zero(); y = add(a, t);", "z = copy(a);"),
    ("y = if_else(a, a, s);", "z = copy(a);"),
    ("t = not(s); y = if_else(a, b, t);", "z = if_else(b, a, s);"),
    ("o = ones(); z0 = zero(); t = if_else(a, z0, s); y = if_else(o, t, s);", "o1 = ones(); z1 = zero(); z = if_else(o1, z1, s);"),
    ("t = xor(a, b); n = not(t); y = if_else(t, n, s);", "u = xor(a, b); serial up () { z = xor(u, not(s)); }"),
    ("y = min(a, a);", "z = copy(a);"),
    ("y = min(a, b);", "z = min(b, a);"),
    ("t = ones(); y = max(a, t);", "z = ones();"),
    ("t = zero(); y = max(a, t);", "z = copy(a);"),
    ("t = relu(a); y = relu(t);", "z = relu(a);"),
    ("t = relu(a); y = abs(t);", "z = relu(a);"),
    ("y = mul(a, b);", "z = mul(b, a);"),
    ("t = zero(); y = mul(a, t);", "z = zero();"),
    ("t = zero(); y = div(a, t);", "z = ones();"),
    ("t = zero(); y = rem(a, t);", "z = copy(a);"),
    ("y = rem(a, a);", "z = zero();"),
    ("y, t = divmod(a, b);", "z = div(a, b);"),
    ("t = zero(); y = bitcount(t);", "z = zero();"),
    ("serial up (k = 0) { y = k; k = a; }", "z = shl1(a);"),
    ("serial down (k = 0) { y = k; k = a; }", "z = shr1(a);"),
    ("serial up (k = 0) { y = xor(k, xor(b, a)); k = or(and(a, b), and(k, or(a, b))); }", "z = add(a, b);"),
    ("serial up (k = 1) { y = xor(not(xor(a, b)), k); k = maj(a, not(b), k); }", "z = sub(a, b);"),
    ("serial up (k = 0) { y = and(k, a); k = and(k, b); }", "z = zero();"),
    ("serial up () { y = or(and(a, s), and(b, not(s))); }", "z = if_else(a, b, s);"),
)
BITS = (
    ("y = gt(a, a);", "y1 = gt(b, b); z = and(y1, y1);"),
    ("t = ge(b, a); y = not(t);", "z = gt(a, b);"),
    ("t = gt(a, b); u = eq(a, b); y = or(t, u);", "z = ge(a, b);"),
    ("t = ge(a, b); u = ge(b, a); y = and(t, u);", "z = eq(a, b);"),
    ("t = gt(a, b); u = gt(b, a); v = or(t, u); y = not(v);", "z = eq(b, a);"),
    ("t = add(a, b); y = gt(a, t);", "z0 = add(b, a); z = gt(b, z0);"),
    ("t = xor(a, b); u = or_red(t); y = not(u);", "z = eq(a, b);"),
    ("t = not(a); u = and_red(t); y = not(u);", "z = or_red(a);"),
    ("serial up (y = 0) { y = maj(a, not(b), y); }", "z = gt(a, b);"),
    ("serial down (y = 1) { y = and(y, not(xor(a, b))); }", "z = eq(a, b);"),
    ("t = xor(s, s); y = or(t, s);", "z = copy(s);"),
)


def lowered(body, kind="word"):
    """The graph of an op of these statements."""
    return Lowered(read_ops(f"op f(a: word, b: word, s: bit) -> y: {kind}, z: {kind} {{ {body} }}".encode())[0])


class Identities(unittest.TestCase):
    """Each identity: both results are one literal."""

    def same(self, pairs, kind):
        for first, second in pairs:
            (_, _, y), (_, _, z) = lowered(f"{first} {second}", kind).results
            self.assertEqual(y, z, f"{first} / {second}")

    def test_words(self):
        self.same(WORDS, "word")

    def test_bits(self):
        self.same(BITS, "bit")

    def test_what_is_not_equal_stays_apart(self):
        for first, second in (("y = add(a, b);", "z = sub(a, b);"), ("y = shl1(a);", "z = shr1(a);"),
                              ("y = div(a, b);", "z = div(b, a);"), ("y = min(a, b);", "z = max(a, b);"),
                              ("serial up (k = 0) { y = k; k = a; }", "serial up (j = 1) { z = j; j = a; }"),
                              ("serial up (k = 0) { y = xor(a, k); k = xor(a, k); }",
                               "serial down (j = 0) { z = xor(a, j); j = xor(a, j); }")):
            (_, _, y), (_, _, z) = lowered(f"{first} {second}").results
            self.assertNotEqual(y, z, first)


class Gates(unittest.TestCase):
    """Literals against the values of gates."""

    def test_random_gates_by_their_tables(self):
        draws, graph = random.Random(3), Graph()
        leaves = [graph.leaf(BIT, f"v{k}") for k in range(4)]
        rows = list(itertools.product((0, 1), repeat=4))
        known = {leaf: tuple(row[k] for row in rows) for k, leaf in enumerate(leaves)}
        known.update({0: (0,) * 16, 1: (1,) * 16})
        rules = {"and": lambda a, b: a & b, "or": lambda a, b: a | b, "xor": lambda a, b: a ^ b,
                 "maj": lambda a, b, c: int(a + b + c > 1), "mux": lambda s, a, b: a if s else b}
        for _ in range(400):
            kind = draws.choice(list(rules))
            args = [draws.choice(list(known)) ^ draws.randint(0, 1) for _ in range(3 if kind in ("maj", "mux") else 2)]
            values = [known.get(arg) or tuple(1 - bit for bit in known[arg ^ 1]) for arg in args]
            made = tuple(rules[kind](*bits) for bits in zip(*values))
            lit = graph.gate(kind, *args)
            before = known.get(lit) or lit ^ 1 in known and tuple(1 - bit for bit in known[lit ^ 1])
            self.assertIn(before, (None, False, made))
            known[lit] = made
        self.assertEqual(len(set(known.values())), len(known), "two literals of one table")

    def test_tables_over_what_matters(self):
        self.assertEqual(gates.smallest(0b1010, (5, 7)), (0b10, (5,)))
        self.assertEqual(gates.smallest(0b1111, (5, 7)), (0b1, ()))
        self.assertEqual(gates.over(0b10, (5,), (3, 5)), 0b1100)


class Plans(unittest.TestCase):
    """Plans, the limits, and what nothing reads."""

    def test_all_plans_keep_to_the_limits(self):
        draws = Maker(random.Random(11))
        for _ in range(12):
            items = Items(Lowered(draws.op()))
            for start in starts(items):
                for plan in [start, *moves(items, start)]:
                    try:
                        self.assertTrue(fits(written(items, plan)))
                    except NoOp:
                        continue

    def test_limits(self):
        names = [f"n{k}" for k in range(9)]
        block = Block("up", (), (), tuple((name, read("a")) for name in names))
        self.assertTrue(fits([Block("up", (), (), block.assigns[:8])]))
        self.assertFalse(fits([block]))
        self.assertFalse(fits([Block("up", tuple((name, 0) for name in names), (), block.assigns[:1])]))
        one = WordStatement(("t",), "not", ("a",))
        self.assertTrue(fits([one] * 16))
        self.assertFalse(fits([one] * 17))
        heavy = gate("xor", read("a"), read("b"))
        for _ in range(7):
            heavy = gate("xor", heavy, read("b"))
        self.assertEqual(weight(heavy), 24)
        self.assertTrue(fits([Block("up", (), (), (("t", heavy),))]))
        self.assertFalse(fits([Block("up", (), (), (("t", gate("and", heavy, read("a"))),))]))
        deep = read("a")
        for _ in range(33):
            deep = gate("not", deep)
        self.assertFalse(fits([Block("up", (), (), (("t", deep),))]))

    def test_names_have_at_most_sixteen_bytes(self):
        long = "abcdefghijklmnop"
        op = read_ops(f"op f(a: word, b: word) -> y: word {{ {long} = gt(a, b); t = sub(a, b); u = sub(b, a); "
                      f"y = if_else(t, u, {long}); }}".encode())[0]
        items = Items(Lowered(op))
        for plan in starts(items):
            names = [name for one in written(items, plan) if isinstance(one, Block) for name, _ in one.states + one.assigns]
            self.assertTrue(all(len(name) <= 16 for name in names), names)

    def test_what_nothing_reads_goes(self):
        op = read_ops(b"op f(a: word) -> y: word { t = mul(a, a); serial up (c = 0, d = 0) { let x = and(a, c); y = x; u = a; c = a; "
                      b"d = xor(d, a); } }")[0]
        block, = live(op.body, ["y"])
        self.assertEqual((len(block.states), len(block.lets), [name for name, _ in block.assigns]), (1, 1, ["y", "c"]))

    def test_a_cycle_is_no_plan(self):
        op = read_ops(b"op f(a: word, b: word) -> y: word { t = add(a, b); s = gt(a, t); u = shl1(t); y = if_else(u, t, s); }")[0]
        items = Items(Lowered(op))
        everything = frozenset(item for plan in starts(items) for group in plan.groups for item in group)
        with self.assertRaises(NoOp):
            written(items, Plan((everything,)))

    def test_equal_statements_have_one_key(self):
        texts = ("xor(xor(a, b), c)", "xor(c, xor(b, a))", "xor(b, xor(c, a))")
        ops = [read_ops(f"op f(a: word, b: word, c: word) -> y: word {{ serial up () {{ y = {text}; }} }}".encode())[0] for text in texts]
        self.assertEqual(len({alone(op.body[0], dict(op.params)).key for op in ops}), 1)

    def test_products_become_sources(self):
        old, new = (read_ops(f"op f(a: word, b: word) -> y: word {{ t = mul({pair}); y = {rest}; }}".encode())[0]
                    for pair, rest in (("a, b", "add(t, a)"), ("b, a", "add(a, t)")))
        texts = cut(old, new)
        self.assertTrue(all("v_1: word" in text and "mul" not in text for text in texts), texts)

    def test_texts_are_read_as_they_are_printed(self):
        draws = Maker(random.Random(7))
        for _ in range(20):
            op = draws.op()
            again = read_ops(op.text().encode())[0]
            self.assertEqual((Op(again.name, again.params, again.results, again.body)), op)

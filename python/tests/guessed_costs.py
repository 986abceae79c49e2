"""Costs that are guessed instead of measured: a search by them is fast and tries other plans, for tests of what is written."""

import support  # noqa: F401  (the path)

from simdram.rules.op_tree import Block
from simdram.rules.ops_rules import read_ops
from simdram.simplify.statement_alone import OPTIMISM, Cost, guessed
from simdram.simplify.measured import Measured
from simdram.simplify.timed import Timed


class Guessed(Measured):
    """Measures nothing."""

    def __init__(self, widths):
        super().__init__(Timed(""), widths)

    def _measure(self, statements):
        for one in statements:
            if not self.is_known(one):
                statement = read_ops(one.probe("e").encode())[0].body[len(one.reads)]
                kinds = dict(one.reads)
                each = guessed(statement, kinds) / (OPTIMISM if isinstance(statement, Block) else 1)
                self.kept[one.key] = {n: Cost(int(each * n) + 1, 0) for n in self.widths}

    def of_text(self, text):
        op = read_ops(text.encode())[0]
        return self.of_parts([self.parts(op, op.body)])

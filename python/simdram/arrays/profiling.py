"""Where the row commands of a computed array went: by op, by instruction of its script, and by statement of its ops."""

import dataclasses
import typing

from ..costs.profile import Row, summed, table
from ..costs.report import OK
from .costing import Cost
from .running import Made, computes
from .user_ops import known_ops

HEAD = ("share", "commands", "aap", "ap", "times")


@dataclasses.dataclass(frozen=True)
class ScriptProfile:
    """The row commands of a script's bbops and fills, over all banks: their sum is `cost`.

    `ops` has a row for each op and one for the fills, `instructions` one for each line, and `statements` one for each
    statement of each op. A row has `what`, `aap`, `ap`, `commands` and `times`, the number of instructions.
    """

    cost: Cost
    ops: tuple[Row, ...] = ()
    instructions: tuple[Row, ...] = ()
    statements: tuple[Row, ...] = ()

    def __str__(self) -> str:
        lines = [f"{self.cost.commands} commands, {self.cost}"]
        for what, rows in (("op", self.ops), ("instruction", self.instructions), ("statement", self.statements)):
            lines += table([*HEAD, what], rows, self.cost.commands) if rows else []
        return "\n".join(lines)


def profile(made: Made) -> ScriptProfile:
    """The profile of how an array was computed, and what it was computed from. Ops of several computations have their number."""
    parts = [one for one in made.all() if one.report]
    ops: list[Row] = []
    instructions: list[Row] = []
    statements: list[Row] = []
    for number, part in enumerate(parts, 1):
        own, where = counted(part), f", computation {number}" if len(parts) > 1 else ""
        ops += [dataclasses.replace(row, what=name + where) for name, row in summed((op_of(row.what), row) for row in own).items()]
        statements += [dataclasses.replace(row, what=row.what + where) for row in by_statement(part, own)]
        instructions += own
    return ScriptProfile(made.whole().cost, tuple(ops), tuple(instructions), tuple(statements))


def counted(made: Made) -> list[Row]:
    """The lines that compute, each with what the report says of it."""
    reported = (line for line in made.report.splitlines() if not line.startswith("total "))
    pairs = [(line, OK.fullmatch(report)) for line, report in zip(made.script.splitlines(), reported)]
    return [Row(line, int(match[2]), int(match[3]), 1) for line, match in pairs if match and computes(line)]


def op_of(line: str) -> str:
    """The op of a bbop, or `fill`."""
    return line.split()[0].replace("bbop_", "", 1)


def by_statement(made: Made, instructions: typing.Sequence[Row]) -> tuple[Row, ...]:
    """The rows of the ops' statements: what each takes in one bank, as often as the op was executed in one.

    A program of a designer's own has no statements.
    """
    ops = known_ops(made.ops)
    done = [(op_of(row.what), int(row.what.rpartition(",")[2]), row) for row in instructions
            if row.what.startswith("bbop_") and op_of(row.what) in ops]
    rows: list[Row] = []
    for name, bits in dict.fromkeys((name, bits) for name, bits, _ in done):
        found = ops[name].profile(bits)
        own = [row for other, width, row in done if (other, width) == (name, bits)]
        # over all bbops of the op and over all their banks
        times = sum(row.commands for row in own) // max(found.cost.commands, 1)
        rows += [Row(f"{name} at {bits} bits, {row.what}", times * row.aap, times * row.ap, len(own)) for row in found.statements]
    return tuple(rows)

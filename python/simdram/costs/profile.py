"""Row commands of each entry by statement and by loop, with their shares.

FILE is an operation text, which is compiled for this, or a program file; of a program file, --ops names the operation text
that it was compiled from. Each N is a width, or a list of widths, as 4,8,16-20. The parts are those of `simdram steps`: instructions between two places at
which the code can jump. Commands that implement several statements in one loop are counted for these statements together.
`times` says how often a part is executed; without an operation text there are parts alone. Counts are those of one bank.
"""

import dataclasses
import typing

from ..assembler.walks import executions
from ..files.program import AAP, Entry, Program
from ..files.store import folder_of, load
from ..launcher import run_program
from ..launcher.commands import kind_of
from ..launcher.faults import Fault
from ..launcher.settings import Settings
from ..launcher.tool_parser import Asked, flag, option, tool
from ..launcher.widths import widths_of
from ..rules.answer import first_breach
from ..rules.ops_rules import read_ops
from ..steps.code_parts import Part, parts
from ..steps.op_texts import OpText, of_entries
from .costs import EntryCost, costs_at
from .table_formats import as_csv, as_text

CSV_HEAD = ("name", "width", "kind", "what", "times", "aap", "ap", "commands", "share")


@dataclasses.dataclass(frozen=True)
class Row:
    """What a statement or a part takes: its row commands, and how often it is executed."""

    what: str
    aap: int
    ap: int
    times: int = 0

    @property
    def commands(self) -> int:
        return self.aap + self.ap


@dataclasses.dataclass(frozen=True)
class Profile:
    """An entry's row commands at a width, by statement and by part."""

    name: str
    width: int
    cost: EntryCost
    statements: tuple[Row, ...] = ()
    parts: tuple[Row, ...] = ()
    other: str = ""

    def __str__(self) -> str:
        if self.cost.stuck:
            return f"{self.name} at n = {self.width}: {self.cost.stuck}"
        lines = [f"{self.name} at n = {self.width}: {self.cost.commands} commands, aap={self.cost.aap} ap={self.cost.ap}", *([self.other] if self.other else [])]
        if self.statements:
            lines += table(["share", "commands", "aap", "ap", "statement"], self.statements, self.cost.commands)
        lines += table(["share", "commands", "aap", "ap", "times", "part"], self.parts, self.cost.commands)
        return "\n".join(lines)


def cells_of(row: Row, whole: int, has_times: bool) -> list[str]:
    numbers = [row.commands, row.aap, row.ap, *([row.times] if has_times else [])]
    return [f"{100 * row.commands / whole:.1f}%" if whole else "-", *map(str, numbers), row.what]


def table(head: list[str], rows: tuple[Row, ...], whole: int) -> list[str]:
    """Rows in columns: numbers to the right, and what they are of at the end."""
    cells = [head, *(cells_of(row, whole, "times" in head) for row in rows)]
    return [f"  {line}" for line in as_text(cells, len(head) - 1).splitlines()]


def row_of(part: Part, times: list[int]) -> Row:
    commands = [(one.kind == AAP, times[part.first + k]) for k, one in enumerate(part.code) if one.rows]
    aap, ap = (sum(count for is_aap, count in commands if is_aap == kind) for kind in (True, False))
    return Row(part.title(), aap, ap, times[part.first])


def summed(pairs: typing.Iterable[tuple[typing.Any, Row]]) -> dict[typing.Any, Row]:
    """The sums of the rows under each key."""
    found: dict[typing.Any, Row] = {}
    for key, row in pairs:
        before = found.get(key, Row(row.what, 0, 0))
        found[key] = Row(row.what, before.aap + row.aap, before.ap + row.ap, before.times + row.times)
    return found


def by_statement(found: list[Part], rows: list[Row]) -> tuple[Row, ...]:
    """The rows of the statements, in the order of the text; a loop of several is one row."""
    sums = summed((part.statements, Row(part.what, row.aap, row.ap)) for part, row in zip(found, rows))
    return tuple(sums[key] for key in sorted(sums))


def profile(entry: Entry, width: int, cost: EntryCost, text: OpText | None = None) -> Profile:
    """An entry's profile at a width, by the statements of its operation text where that is given."""
    if cost.stuck:
        return Profile(entry.name, width, cost)
    found, times = text.parts(parts(entry.code)) if text else parts(entry.code), executions(entry.code, width)
    rows = [row_of(part, times) for part in found]
    counted = (sum(row.aap for row in rows), sum(row.ap for row in rows))
    if counted != (cost.aap, cost.ap):
        raise Fault(f"{entry.name} at n = {width}: the parts have aap={counted[0]} ap={counted[1]}, and the entry {cost}")
    other = text.other if text else ""
    return Profile(entry.name, width, cost, by_statement(found, rows) if text and not other else (), tuple(rows), other)


def profiles(path: str, widths: list[int], settings: Settings, ops: str | None = None, is_compiled: bool = False) -> list[Profile]:
    """The profiles of a program file's entries at widths; `ops` is the file of its operation text, which is compiled to be
    compared with it, but where it is known to be compiled from it."""
    program = Program.load(path)
    texts = of_entries(path, program.entries, ops, settings, is_compiled)
    found = costs_at([path], widths, settings, "profile")
    return [profile(entry, width, found[path, width][k], texts[entry.name])
            for k, entry in enumerate(program.entries) for width in widths]


def of_file(path: str, widths: list[int], settings: Settings, ops: str | None = None) -> list[Profile]:
    """The profiles of a program file, or of an operation text, which is compiled into a file that is removed after it."""
    data = load(path)
    if kind_of(data) == "program":
        return profiles(path, widths, settings, ops)
    if ops:
        raise Fault(f"{path} is no program file: --ops goes with one")
    with folder_of(ops=data) as folder:
        ended = run_program.run(["compile", "ops", "prog"], folder, settings)
        if ended.status:
            fault = first_breach(path, data, read_ops)
            raise Fault("\n".join(fault.lines()) if fault else f"{path}: compile ended with {ended.out.strip() or ended.status}")
        return profiles(f"{folder}/prog", widths, settings, path, True)


def csv_rows(one: Profile) -> typing.Iterator[list]:
    for kind, rows in (("statement", one.statements), ("part", one.parts)):
        for row in rows:
            share = row.commands / one.cost.commands if one.cost.commands else 0
            times = row.times if kind == "part" else ""
            yield [one.name, one.width, kind, row.what, times, row.aap, row.ap, row.commands, f"{share:.6f}"]


@tool(option("file", "OPS|PROG"),
      option("widths", "N", "widths, 1 to 128: 8, or 4,8,16-20", nargs="+"),
      option("--ops", "OPS", "the operation text that PROG was compiled from"),
      option("--op", "NAME", "this entry alone"),
      flag("--csv", "with commas, for other programs"))
def main(asked: Asked) -> None:
    found = of_file(asked.file, widths_of(",".join(asked.widths), "N"), asked.settings, asked.ops)
    names = list(dict.fromkeys(one.name for one in found))
    if asked.op and asked.op not in names:
        raise Fault(f"{asked.file} has no entry {asked.op}: it has {', '.join(names) or 'none'}")
    found = [one for one in found if asked.op in (None, one.name)]
    rows = [list(CSV_HEAD), *(row for one in found for row in csv_rows(one))]
    print(as_csv(rows) if asked.csv else "".join(f"{one}\n" for one in found), end="")

"""The operation text that is named beside a program's entry: its names, and its statements where the entry is of it."""

import typing

from ..files.program import Entry, Program
from ..files.store import folder_of, load
from ..launcher import run_program
from ..launcher.faults import Fault
from ..launcher.settings import Settings
from ..rules.op_tree import OpShape
from ..rules.ops_rules import op_shape
from .code_parts import Part, with_statements
from .row_names import RowNames


def compiled(data: bytes, settings: Settings) -> Program:
    with folder_of(ops=data) as folder:
        run_program.run(["compile", "ops", "prog"], folder, settings).check("compile")
        return Program.load(f"{folder}/prog")


class OpText(typing.NamedTuple):
    """What an operation text says of an entry. Where the entry is not what the text compiles to, it has the names of the
    sources and results alone, and `other` says so."""

    shape: OpShape
    data: bytes
    other: str = ""

    def names(self) -> RowNames:
        return RowNames(self.shape, not self.other)

    def parts(self, found: list[Part]) -> list[Part]:
        """The entry's parts, each with its statements where they are known."""
        return found if self.other else with_statements(found, self.names(), self.shape, self.data)


def of_entries(prog: str, entries: typing.Iterable[Entry], ops: str | None, settings: Settings,
               is_compiled: bool = False) -> dict[str, OpText | None]:
    """What an operation text says of entries of a program file, by their names; nothing where no text is named. It is compiled
    to be compared with them, but where they are known to be compiled from it."""
    entries = list(entries)
    if ops is None:
        return dict.fromkeys((entry.name for entry in entries), None)
    data = load(ops, "ops")
    shapes = {entry.name: op_shape(ops, data, entry.name) for entry in entries}
    made = {entry.name: entry for entry in (entries if is_compiled else compiled(data, settings).entries)}
    return {entry.name: OpText(shapes[entry.name], data, difference(prog, entry, ops, made[entry.name])) for entry in entries}


def difference(prog: str, entry: Entry, ops: str, made: Entry) -> str:
    """In one line how an entry is not what its text compiles to, or nothing."""
    if (entry.sources, entry.results) != (made.sources, made.results):
        raise Fault(f"{prog}: the sources and results of {entry.name} are not those of the op in {ops}")
    if entry == made:
        return ""
    return f"{prog} has another {entry.name} than {ops} compiles to: its operands have their names, and nothing is said of statements"

"""Combinational netlists: inputs, outputs, and tables. An input c and an output c_next are a state."""

import dataclasses
import typing

from ..launcher.faults import Fault

NEXT = "_next"


@dataclasses.dataclass(frozen=True)
class Table:
    """A table: its line, its inputs, and its value for each pattern of them, as the bits of a number."""

    line: int
    inputs: tuple[str, ...]
    values: int


@dataclasses.dataclass
class Netlist:
    """A netlist: its name, its inputs and outputs in order, the table of each signal that has one, and how states begin, where
    the file says it."""

    name: str = "block"
    inputs: list[str] = dataclasses.field(default_factory=list)
    outputs: list[str] = dataclasses.field(default_factory=list)
    tables: dict[str, Table] = dataclasses.field(default_factory=dict)
    starts: dict[str, str] = dataclasses.field(default_factory=dict)

    @property
    def states(self) -> list[str]:
        return [one for one in self.inputs if one + NEXT in self.outputs]

    @property
    def sources(self) -> list[str]:
        """The inputs that are no states."""
        return [one for one in self.inputs if one + NEXT not in self.outputs]

    @property
    def words(self) -> list[str]:
        """The outputs that are no states' next values."""
        states = self.states
        return [one for one in self.outputs if not (one.endswith(NEXT) and one[:-len(NEXT)] in states)]


def in_order(net: Netlist, path: str, targets=None) -> list[str]:
    """The signals with tables that targets need, the outputs where none are named, each after those that it reads."""
    waiting, found, open_ways = list(net.outputs if targets is None else targets)[::-1], dict[str, None](), set[str]()
    while waiting:
        name = waiting[-1]
        inputs = net.tables[name].inputs if name in net.tables and name not in found else ()
        left = [one for one in inputs if one not in found and one in net.tables]
        if (looped := next((one for one in left if one in open_ways), None)) is not None:
            raise Fault(f"{path} line {net.tables[looped].line}: {looped} reads itself through other tables")
        if left:
            open_ways.add(name)
            waiting.append(left[0])
        else:
            waiting.pop()
            open_ways.discard(name)
            if name in net.tables:
                found.setdefault(name)
    return list(found)


def fresh(name: str, taken: typing.Collection[str]) -> str:
    """A name that no input or output has."""
    while name in taken:
        name += "_"
    return name

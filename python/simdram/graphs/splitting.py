"""A netlist that is too large for one op, as several netlists, each small enough, in an order in which each finds what it reads.

A state is computed in one netlist with all that it is computed from at a position; others find what it holds there as a word.
"""

import dataclasses
import typing

from ..launcher.faults import Fault
from ..rules.ops_rules import RESULTS, SOURCES, WEIGHT
from ..simplify import op_limits
from .least_gates import spelled
from .netlist import NEXT, Netlist, Table, in_order

AT = "_at"
COPY = 0b10


def function(table: Table) -> int:
    """A table as a function of x, y and z."""
    return sum(1 << k for k in range(8) if table.values >> (k & (1 << len(table.inputs)) - 1) & 1)


def weight(table: Table) -> int:
    """What the gates of a table weigh in a block."""
    return op_limits.weight(spelled(function(table)))


class Cone(typing.NamedTuple):
    """A signal as it is computed in one op: the signals that it is computed from, and the tables between."""

    leaves: frozenset
    tables: frozenset


class Splitter:
    """Splits a netlist: which signals are words of their own, and from what each is computed."""

    def __init__(self, net: Netlist, path: str) -> None:
        self.net, self.path = net, path
        self.order = in_order(net, path)
        self.needs: dict[str, frozenset] = {one: frozenset((one,)) if one in net.states else frozenset() for one in net.inputs}
        for name in self.order:
            self.needs[name] = frozenset().union(*(self.needs[one] for one in net.tables[name].inputs))
        self.found: list[Netlist] = []
        # of each signal its cone, from the inputs and the signals that are words already
        self.cones: dict[str, Cone] = {one: Cone(frozenset((one,)), frozenset()) for one in net.sources}
        self.kept: dict[str, Cone] = {}

    def pieces(self) -> list[Netlist]:
        self.spread()
        for group in self.groups():
            self.states(group)
            self.spread()
        for name in self.net.words:
            self.keep(name)
        self.flush()
        return self.found

    def groups(self) -> list[tuple[str, ...]]:
        """The states that need each other, each after those that it needs."""
        reach = {state: set(self.needs[state + NEXT]) | {state} for state in self.net.states}
        for _ in reach:
            for state, its in reach.items():
                its.update(*(reach[one] for one in its))
        groups = (tuple(one for one in self.net.states if one in reach[state] and state in reach[one]) for state in reach)
        return sorted(dict.fromkeys(groups), key=lambda group: len(reach[group[0]]))

    def spread(self) -> None:
        """The cones of the signals that are known now; those that grow too large are cut."""
        done = {one for one in self.net.states if f"{one}{AT}" in self.cones}
        for name in self.order:
            if name in self.cones or not self.needs[name] <= done:
                continue
            inputs = [f"{one}{AT}" if one in done else one for one in self.net.tables[name].inputs]
            cone = self.joined(name, inputs, ())
            while not self.fits(cone):
                widest = max((one for one in inputs if one not in cone.leaves), key=lambda one: len(self.cones[one].leaves))
                self.keep(widest)
                cone = self.joined(name, inputs, ())
            self.cones[name] = cone

    def joined(self, name: str, inputs: typing.Iterable[str], states: typing.Collection[str]) -> Cone:
        """The cone of a table, from those of its inputs, where kept ones and states are leaves."""
        cones = [Cone(frozenset((one,)), frozenset()) if one in self.kept or one in states else self.cones[one] for one in inputs]
        return Cone(frozenset().union(*(one.leaves for one in cones)), frozenset((name,)).union(*(one.tables for one in cones)))

    def fits(self, cone: Cone) -> bool:
        return len(cone.leaves) <= SOURCES and sum(weight(self.net.tables[one]) for one in cone.tables) <= WEIGHT

    def keep(self, name: str) -> None:
        """A signal becomes a word of its own."""
        if name in self.net.sources or name in self.kept:
            return
        self.kept[name] = self.cones[name]
        self.cones[name] = Cone(frozenset((name,)), frozenset())

    def states(self, group: typing.Sequence[str]) -> None:
        """The netlists of states: each gives what two of them hold at each position."""
        inside = [name for name in in_order(self.net, self.path, [one + NEXT for one in group]) if self.needs[name] & set(group)]
        inside += [one + NEXT for one in group if one + NEXT not in inside]
        outside = {self.name_of(one) for name in inside for one in self.net.tables[name].inputs if not self.needs[one] & set(group)}
        whole = self.joined("", outside, ())
        cone = Cone(whole.leaves, whole.tables - {""} | frozenset(inside))
        if not self.fits(cone):
            for one in sorted(outside):
                self.keep(one)
            cone = Cone(frozenset(outside), frozenset(inside))
        if not self.fits(cone):
            raise Fault(f"{self.path}: the state{'s' * (len(group) > 1)} {', '.join(group)} cannot be split: with {len(cone.leaves)} words at a "
                        f"position, where an op takes {SOURCES}, and gates that weigh {sum(weight(self.net.tables[one]) for one in cone.tables)} of {WEIGHT}")
        self.flush()
        for first in range(0, len(group), RESULTS):
            shown = {f"{one}{AT}": Table(0, (one,), COPY) for one in group[first:first + RESULTS]}
            self.add(cone, [*shown, *(one + NEXT for one in group)], group).tables.update(shown)
        for one in group:
            self.cones[f"{one}{AT}"] = Cone(frozenset((f"{one}{AT}",)), frozenset())

    def name_of(self, signal: str) -> str:
        """A signal, or what a state that is done holds at a position."""
        return f"{signal}{AT}" if f"{signal}{AT}" in self.cones else signal

    def add(self, cone: Cone, outputs: list[str], group: typing.Sequence[str] = ()) -> Netlist:
        """One more netlist, of a cone, with the states of a group."""
        # an op has a source, whether it reads it or not
        inputs = sorted(cone.leaves) or self.net.sources[:1]
        net = Netlist(f"{self.net.name[:12]}_{len(self.found) + 1}", [*inputs, *group], outputs)
        for name in cone.tables:
            table = self.net.tables[name]
            net.tables[name] = dataclasses.replace(table, inputs=tuple(one if one in group else self.name_of(one) for one in table.inputs))
        net.starts = {one: self.net.starts[one] for one in group if one in self.net.starts}
        self.found.append(net)
        return net

    def flush(self) -> None:
        """The netlists of the signals that are kept and have none yet: two in one where it has room for both."""
        there = {name for net in self.found for name in net.outputs}
        left = [name for name in self.kept if name not in there]
        while left:
            names, cone = [left[0]], self.kept[left[0]]
            for other in left[1:]:
                both = Cone(cone.leaves | self.kept[other].leaves, cone.tables | self.kept[other].tables)
                if self.fits(both) and not both.leaves & set(left):
                    names, cone = [*names, other], both
                    break
            self.add(cone, names)
            left = [name for name in left if name not in names]


def split(net: Netlist, path: str) -> list[Netlist]:
    """The netlist, or several in order where an op has no room for it."""
    is_small = len(net.sources) <= SOURCES and len(net.words) <= RESULTS
    found = [net] if is_small else Splitter(net, path).pieces()
    if len(found) == 1:
        found[0].name = net.name
    return found

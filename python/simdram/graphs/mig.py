"""Majority-inverter graphs: nodes of three literals, and named inputs and outputs; as DOT, BLIF or AIGER.

A literal is twice the number of what it reads, and one more where it is complemented. Number 0 is the constant 0, so that
the literals 0 and 1 are the constants; then come the inputs, and then the nodes.
"""

import dataclasses
import itertools
import typing

from ..rules.word_ops import GATE_VALUES
from .netlist import fresh

ZERO, ONE = 0, 1


def normal_majority(*literals: int) -> int | tuple[tuple[int, ...], int]:
    """The literal that decides a majority of three, where two are equal or opposite; else the three in order, of which one at most is
    complemented, and whether the majority of these is complemented."""
    x, y, z = sorted(literals)
    for one, two, three in ((x, y, z), (x, z, y), (y, z, x)):
        if one >> 1 == two >> 1:
            return one if one == two else three
    turned = int((x & 1) + (y & 1) + (z & 1) > 1)
    return (x ^ turned, y ^ turned, z ^ turned), turned


@dataclasses.dataclass
class Graph:
    """A graph: the names of its inputs in order, its nodes, and its outputs by name."""

    inputs: list[str] = dataclasses.field(default_factory=list)
    nodes: dict[tuple[int, int, int], int] = dataclasses.field(default_factory=dict)
    outputs: dict[str, int] = dataclasses.field(default_factory=dict)
    # of each number what it is: an input's name or a node's three literals
    items: list[typing.Any] = dataclasses.field(default_factory=lambda: [None])

    def input(self, name: str) -> int:
        """The literal of an input, which is a new one where there is none of this name."""
        if name not in self.inputs:
            self.inputs.append(name)
            self.items.append(name)
        return 2 * self.items.index(name)

    def maj(self, x: int, y: int, z: int) -> int:
        """The majority of three literals; equal and opposite ones decide it without a node."""
        found = normal_majority(x, y, z)
        if isinstance(found, int):
            return found
        key, turned = found
        if key not in self.nodes:
            self.items.append(key)
            self.nodes[key] = 2 * (len(self.items) - 1)
        return self.nodes[key] ^ turned

    def gate(self, name: str, given: typing.Sequence[int]) -> int:
        if name == "not":
            return given[0] ^ 1
        if name == "maj":
            return self.maj(*given)
        x, y = given
        both, some = self.maj(x, y, ZERO), self.maj(x, y, ONE)
        return {"and": both, "or": some}[name] if name != "xor" else self.maj(some, both ^ 1, ZERO)

    def values(self, inputs: typing.Mapping[str, int], mask: int) -> dict[str, int]:
        """The outputs for patterns of the inputs, each bit of which is a case of its own."""
        held = [0]
        for item in self.items[1:]:
            if isinstance(item, str):
                held.append(inputs[item] & mask)
            else:
                held.append(GATE_VALUES["maj"](*(held[one >> 1] ^ (mask if one & 1 else 0) for one in item)))
        return {name: held[one >> 1] ^ (mask if one & 1 else 0) for name, one in self.outputs.items()}


def live(graph: Graph) -> list[int]:
    """The numbers of the nodes that an output needs, in order."""
    wanted = {one >> 1 for one in graph.outputs.values()}
    for number in reversed(range(len(graph.items))):
        if number in wanted and isinstance(graph.items[number], tuple):
            wanted.update(one >> 1 for one in graph.items[number])
    return [number for number in sorted(wanted) if isinstance(graph.items[number], tuple)]


def as_dot(graph: Graph, name: str) -> str:
    """A picture for Graphviz: nodes are majorities, and a dashed edge is complemented."""
    lines = [f"digraph {name} {{", "  rankdir=BT;", '  node [shape=circle, label="M"];']
    wanted, ends = live(graph), []
    for number in wanted:
        ends += [(one, f"n{number}") for one in graph.items[number]]
    for output, one in graph.outputs.items():
        lines.append(f'  "{output}" [shape=invtriangle, label="{output}"];')
        ends.append((one, f'"{output}"'))
    names = {number: f'"in {item}"' for number, item in enumerate(graph.items) if isinstance(item, str)}
    lines += [f'  {shown} [shape=triangle, label="{graph.items[number]}"];' for number, shown in names.items()]
    if any(one < 2 for one, _ in ends):
        lines.append('  zero [shape=box, label="0"];')
    lines += [f"  n{number};" for number in wanted]
    lines += [f"  {names.get(one >> 1, f'n{one >> 1}') if one > 1 else 'zero'} -> {end}{' [style=dashed]' * (one & 1)};"
              for one, end in ends]
    return "\n".join([*lines, "}", ""])


def signal(graph: Graph, number: int) -> str:
    """The name of an input or a node in BLIF."""
    item = graph.items[number]
    return item if isinstance(item, str) else fresh(f"n{number}", [*graph.inputs, *graph.outputs])


def table(literals: list[int]) -> list[str]:
    """The rows of a table for a majority, of which one literal may be a constant."""
    free = [one for one in literals if one > 1]
    both, either = [(0, 1)], [(0,), (1,)]
    true = itertools.combinations(range(3), 2) if len(free) == 3 else both if 0 in literals else either
    return [f"{''.join(str(1 - (one & 1)) if k in those else '-' for k, one in enumerate(free))} 1" for those in true]


def as_blif(graph: Graph, name: str, notes: list[str]) -> str:
    """A netlist whose tables are majorities."""
    lines = [f".model {name}", *(f"# {note}" for note in notes), f".inputs {' '.join(graph.inputs)}".rstrip(),
             f".outputs {' '.join(graph.outputs)}"]
    for number in live(graph):
        literals = list(graph.items[number])
        lines.append(f".names {' '.join(signal(graph, one >> 1) for one in literals if one > 1)} {signal(graph, number)}")
        lines += table(literals)
    for output, one in graph.outputs.items():
        lines += [f".names {output}", *["1"] * one] if one < 2 else [f".names {signal(graph, one >> 1)} {output}", f"{1 - (one & 1)} 1"]
    return "\n".join([*lines, ".end", ""])


class Ands:
    """The and-gates of AIGER, each of two literals, in order."""

    def __init__(self, inputs: int) -> None:
        self.first = 1 + inputs
        self.gates: list[tuple[int, int]] = []
        self.known: dict[tuple[int, int], int] = {}

    def both(self, x: int, y: int) -> int:
        x, y = max(x, y), min(x, y)
        if y < 2 or x == y or x == y ^ 1:
            return 0 if y == 0 or x == y ^ 1 else x
        if (x, y) not in self.known:
            self.known[x, y] = 2 * (self.first + len(self.gates))
            self.gates.append((x, y))
        return self.known[x, y]

    def majority(self, x: int, y: int, z: int) -> int:
        """Both of the first two, or one of them and the third."""
        some = self.both(x ^ 1, y ^ 1) ^ 1
        return self.both(self.both(x, y) ^ 1, self.both(z, some) ^ 1) ^ 1


def delta(number: int) -> bytes:
    """A number in AIGER's binary form: seven bits a byte, the lowest first."""
    found = bytearray()
    while number >= 128:
        found.append(number & 127 | 128)
        number >>= 7
    return bytes([*found, number])


def as_aiger(graph: Graph, is_text: bool) -> bytes:
    """And-gates, as a binary or a text file of AIGER."""
    ands = Ands(len(graph.inputs))
    held = {0: 0, **{number: 2 * (1 + graph.inputs.index(item)) for number, item in enumerate(graph.items) if isinstance(item, str)}}
    for number in live(graph):
        held[number] = ands.majority(*(held[one >> 1] ^ (one & 1) for one in graph.items[number]))
    outputs = [held[one >> 1] ^ (one & 1) for one in graph.outputs.values()]
    count, gates = len(graph.inputs), ands.gates
    head = f"{'aag' if is_text else 'aig'} {count + len(gates)} {count} 0 {len(outputs)} {len(gates)}\n"
    if is_text:
        head += "".join(f"{2 * (1 + k)}\n" for k in range(count))
    head += "".join(f"{one}\n" for one in outputs)
    body = b""
    for k, (x, y) in enumerate(gates):
        own = 2 * (ands.first + k)
        body += f"{own} {x} {y}\n".encode() if is_text else delta(own - x) + delta(x - y)
    symbols = "".join(f"i{k} {name}\n" for k, name in enumerate(graph.inputs))
    symbols += "".join(f"o{k} {name}\n" for k, name in enumerate(graph.outputs))
    return head.encode() + body + symbols.encode()

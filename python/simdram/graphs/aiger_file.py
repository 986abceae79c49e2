"""And-inverter graphs in AIGER, as text or binary, read as netlists.

An input has its symbol's name, or i0, i1, .. by its number, an output o0, o1, .. A latch is a state: an input c, by its symbol
or as l0, and an output c_next, which begins with the latch's reset value.
"""

import typing

from ..launcher.faults import Fault
from .netlist import NEXT, Netlist, Table, fresh

MAGIC = (b"aig ", b"aag ")
FALSE = "zero"
MOST = 100_000


class Head(typing.NamedTuple):
    """The numbers of a header: the greatest variable, inputs, latches, outputs and gates."""

    most: int
    inputs: int
    latches: int
    outputs: int
    gates: int


class Reader:
    """Reads a file; the first line that is wrong ends it with its number."""

    def __init__(self, path: str, data: bytes) -> None:
        self.path, self.data, self.at, self.line = path, data, 0, 0

    def fault(self, what: str) -> Fault:
        return Fault(f"{self.path} line {self.line}: {what}")

    def words(self) -> list[str]:
        """The words of the next line."""
        end = self.data.find(b"\n", self.at)
        if end < 0:
            self.line += 1
            raise self.fault("the file ends here")
        text, self.at = self.data[self.at:end].decode("utf-8", "replace"), end + 1
        self.line += 1
        return text.split()

    def numbers(self, counts: typing.Sequence[int], what: str) -> list[int]:
        """The numbers of the next line, of which there are as many as one of the counts."""
        words = self.words()
        if len(words) not in counts or not all(word.isascii() and word.isdigit() for word in words):
            raise self.fault(f"{what} is {' or '.join(map(str, counts))} number{'s' * (counts != (1,))}, and not {' '.join(words) or 'empty'}")
        return list(map(int, words))

    def head(self) -> Head:
        words = self.words()[1:]
        if len(words) < 5 or not all(word.isascii() and word.isdigit() for word in words):
            raise self.fault("a header is aig or aag and the numbers of variables, inputs, latches, outputs and gates")
        head = Head(*map(int, words[:5]))
        if any(int(word) for word in words[5:]):
            raise self.fault("bad states, constraints and properties are not read here")
        if head.most > MOST or head.inputs + head.latches + head.gates > head.most:
            raise self.fault(f"{head.most} variables: there are as many as inputs, latches and gates, at most {MOST}")
        return head

    def delta(self) -> int:
        """A number of the binary form: seven bits a byte, the lowest first."""
        number = shift = 0
        while True:
            if self.at >= len(self.data):
                raise Fault(f"{self.path} byte {self.at}: the gates end here")
            byte = self.data[self.at]
            self.at += 1
            number |= (byte & 127) << shift
            shift += 7
            if byte < 128:
                return number

    def gates(self, head: Head, is_text: bool) -> list[tuple[int, int, int]]:
        """The gates: a variable, and the two literals that it is both of."""
        found = []
        for k in range(head.gates):
            if is_text:
                own, one, other = self.numbers((3,), "a gate")
            else:
                own = 2 * (head.inputs + head.latches + k + 1)
                one = own - self.delta()
                other = one - self.delta()
            if own % 2 or not 0 < own <= 2 * head.most + 1 or not (0 <= one <= 2 * head.most + 1 and 0 <= other <= 2 * head.most + 1):
                raise self.fault(f"a gate {own} of {one} and {other}: literals are 0 to {2 * head.most + 1}, and a gate's own is even")
            found.append((own >> 1, one, other))
        return found

    def symbols(self) -> dict[str, str]:
        """The names of inputs, latches and outputs, as `i0`, `l0` and `o0`."""
        found = {}
        for line in self.data[self.at:].decode("utf-8", "replace").splitlines():
            kind, blank, name = line.partition(" ")
            if kind == "c" and not blank:
                break
            if kind[:1] in ("i", "l", "o") and kind[1:].isdigit() and name:
                found[kind] = name.strip()
        return found

    def read(self) -> Netlist:
        is_text = self.data.startswith(b"aag ")
        head = self.head()
        own = [self.numbers((1,), "an input")[0] >> 1 for _ in range(head.inputs)] if is_text else list(range(1, head.inputs + 1))
        latches = []
        for k in range(head.latches):
            numbers = self.numbers((2, 3) if is_text else (1, 2), "a latch")
            latches.append(numbers if is_text else [2 * (head.inputs + k + 1), *numbers])
        outputs = [self.numbers((1,), "an output")[0] for _ in range(head.outputs)]
        gates = self.gates(head, is_text)
        return self.netlist(own, latches, outputs, gates, self.symbols())

    def netlist(self, own, latches, outputs, gates, symbols: dict[str, str]) -> Netlist:
        net = Netlist(self.path.rpartition("/")[2].partition(".")[0] or "block")
        names = {0: FALSE}
        for k, variable in enumerate(own):
            names[variable] = symbols.get(f"i{k}", f"i{k}")
        for k, (literal, _, *reset) in enumerate(latches):
            names[literal >> 1] = symbols.get(f"l{k}", f"l{k}")
            net.starts[names[literal >> 1]] = "1" if reset == [1] else "0"
        net.inputs = [name for variable, name in names.items() if variable]
        targets = [(symbols.get(f"o{k}", f"o{k}"), literal) for k, literal in enumerate(outputs)]
        targets += [(names[literal >> 1] + NEXT, after) for literal, after, *_ in latches]
        net.outputs = [name for name, _ in targets]
        taken = {*net.inputs, *net.outputs, FALSE}
        for variable, _, _ in gates:
            names[variable] = fresh(f"n{variable}", taken)
        if len(set(net.outputs)) < len(net.outputs) or len(set(net.inputs)) < len(net.inputs):
            raise Fault(f"{self.path}: two inputs or two outputs have one name")
        self.tables(net, names, gates, targets)
        return net

    def tables(self, net: Netlist, names: dict[int, str], gates, targets) -> None:
        for literal in [one for _, *both in gates for one in both] + [one for _, one in targets]:
            if literal >> 1 not in names:
                raise Fault(f"{self.path}: the literal {literal} is no input, latch or gate")
        net.tables[FALSE] = Table(0, (), 0)
        for variable, one, other in gates:
            inputs = (names[one >> 1], names[other >> 1])
            net.tables[names[variable]] = Table(0, inputs, sum(1 << k for k in range(4) if (k & 1) ^ (one & 1) and (k >> 1) ^ (other & 1)))
        for name, literal in targets:
            source = names[literal >> 1]
            if name == source and not literal & 1:
                continue
            if name in net.inputs:
                raise Fault(f"{self.path}: {name} is an input and another output")
            net.tables[name] = Table(0, (source,), 0b01 if literal & 1 else 0b10)

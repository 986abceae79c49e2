"""Combinational netlists in BLIF: inputs, outputs, tables, and gates, of yosys itself or of a genlib file. A table of more
than three inputs becomes several."""

import operator
import re
import typing

from ..launcher.faults import Fault
from .netlist import Netlist, Table

GATE = re.compile(r"GATE\s+(\"[^\"]*\"|\S+)\s+\S+\s+([^;]*);")
TOKEN = re.compile(r"[A-Za-z_][\w.\[\]<>$]*|[!*+&|^()']|[01]|(?P<stranger>\S)")
LEVELS = (("+|", operator.or_), ("^", operator.xor), ("*&", operator.and_))
COMMENT = re.compile(r"#[^\n]*")
# the gates that yosys writes without a library
OWN = {"$_BUF_": "Y=A", "$_NOT_": "Y=!A", "$_AND_": "Y=A*B", "$_NAND_": "Y=!(A*B)", "$_OR_": "Y=A+B", "$_NOR_": "Y=!(A+B)",
       "$_XOR_": "Y=A^B", "$_XNOR_": "Y=!(A^B)", "$_ANDNOT_": "Y=A*!B", "$_ORNOT_": "Y=A+!B", "$_MUX_": "Y=!S*A+S*B",
       "$_NMUX_": "Y=!(!S*A+S*B)", "$_AOI3_": "Y=!(A*B+C)", "$_OAI3_": "Y=!((A+B)*C)", "$_AOI4_": "Y=!(A*B+C*D)",
       "$_OAI4_": "Y=!((A+B)*(C+D))"}


class Cell(typing.NamedTuple):
    """A gate: its output pin, its input pins, and its value for each pattern of them, as the bits of a number."""

    output: str
    inputs: tuple[str, ...]
    values: int


class Formula:
    """Reads a formula over pins: `!` or `'` for not, `*` or nothing for and, `^`, and `+`."""

    def __init__(self, text: str, pins: typing.Mapping[str, int], mask: int) -> None:
        # the tokens that are left, the next one last, and nothing where they end
        self.tokens, self.pins, self.mask = ["", *reversed(words_of(text))], pins, mask

    def took(self, *tokens: str) -> bool:
        is_it = self.tokens[-1] in tokens
        if is_it:
            self.tokens.pop()
        return is_it

    def value(self) -> int:
        found = self.level()
        if self.tokens[-1]:
            raise ValueError(self.tokens[-1])
        return found

    def level(self, depth: int = 0) -> int:
        """What stands between the operators of a level, the loosest first; what stands beside each other is a product."""
        if depth == len(LEVELS):
            return self.factor()
        signs, join = LEVELS[depth]
        found = self.level(depth + 1)
        while self.took(*signs) or join is operator.and_ and self.tokens[-1] not in ("", "+", "|", "^", ")"):
            found = join(found, self.level(depth + 1))
        return found

    def factor(self) -> int:
        """A pin, a constant, or what stands in brackets, and how often it is complemented."""
        if self.took("!"):
            return self.mask ^ self.factor()
        word = self.tokens.pop()
        if word == "(":
            found = self.level()
            if not self.took(")"):
                raise ValueError("(")
        elif word in ("0", "1", "CONST0", "CONST1"):
            found = self.mask if word.endswith("1") else 0
        else:
            found = self.pins[word]
        while self.took("'"):
            found ^= self.mask
        return found


def words_of(text: str) -> list[str]:
    found = list(TOKEN.finditer(text))
    for stranger in (one for one in found if one["stranger"]):
        raise ValueError(text[stranger.start():].rstrip())
    return [one[0] for one in found]


def cell_of(text: str) -> Cell:
    """The gate of `OUTPUT=FORMULA`."""
    output, equals, formula = text.partition("=")
    pins = list(dict.fromkeys(word for word in words_of(formula) if re.match(r"[A-Za-z_]", word) and word not in ("CONST0", "CONST1")))
    if not equals or not output.strip():
        raise ValueError(text)
    cases = 1 << len(pins)
    patterns = {pin: sum(1 << k for k in range(cases) if k >> at & 1) for at, pin in enumerate(pins)}
    return Cell(output.strip(), tuple(pins), Formula(formula, patterns, (1 << cases) - 1).value())


def cells_in(path: str, text: str) -> dict[str, Cell]:
    """The gates of a genlib file, by name."""
    found = {}
    for match in GATE.finditer(COMMENT.sub("", text)):
        name = match[1].strip('"')
        try:
            found[name] = cell_of(match[2])
        except (ValueError, KeyError) as fault:
            raise Fault(f"{path}: the gate {name} has no formula, at {fault.args[0]}") from None
    if not found:
        raise Fault(f"{path} has no line `GATE NAME AREA OUTPUT=FORMULA; ..`")
    return found


MOST_INPUTS, OF_ONE = 10, 3
IGNORED = (".default_input_arrival", ".area", ".delay", ".wire_load_slope")


def lines_of(text: str) -> list[tuple[int, list[str]]]:
    """The lines with their numbers, as words; comments are left out, and a line that ends in \\ goes on in the next one."""
    found: list[tuple[int, list[str]]] = []
    goes_on = False
    for number, line in enumerate(text.splitlines(), 1):
        line = line.partition("#")[0].rstrip()
        words = line.removesuffix("\\").split()
        if goes_on:
            found[-1][1].extend(words)
        elif words or line.endswith("\\"):
            found.append((number, words))
        goes_on = line.endswith("\\")
    return found


def chosen(low: int, high: int, parts: list[int]) -> int:
    """The table of a choice by its first input: of what stands where it is 0, and where it is 1. Those of these that are parts are
    further inputs, in order, and the others are these bits."""
    values = 0
    for k in range(1 << 1 + len(parts)):
        which = k & 1
        bit = k >> 1 + parts.index(which) & 1 if which in parts else (low, high)[which]
        values |= bit << k
    return values


class Reader:
    """Reads a netlist line by line; the first line that is wrong ends it with its number."""

    def __init__(self, path: str, text: str, cells: dict[str, Cell] | None = None) -> None:
        self.path, self.netlist = path, Netlist()
        self.cells = {**{name: cell_of(text) for name, text in OWN.items()}, **(cells or {})}
        self.lines = lines_of(text)
        self.at = 0

    def fault(self, line: int, what: str) -> Fault:
        return Fault(f"{self.path} line {line}: {what}")

    def read(self) -> Netlist:
        """The netlist, where each signal that is read is an input or has a table."""
        while self.at < len(self.lines):
            line, words = self.lines[self.at]
            self.at += 1
            if words[:1] == [".end"]:
                break
            self.command(line, words)
        net = self.netlist
        for name, table in net.tables.items():
            if unknown := [one for one in table.inputs if one not in net.tables and one not in net.inputs]:
                raise self.fault(table.line, f"{name} reads {unknown[0]}, which is no input and has no table")
        missing = [one for one in net.outputs if one not in net.tables and one not in net.inputs]
        if missing or not net.outputs:
            raise Fault(f"{self.path}: {f'the output {missing[0]} has no table' if missing else 'the netlist has no outputs'}")
        return net

    def command(self, line: int, words: list[str]) -> None:
        """A line that begins with a point, and the rows below it."""
        kind, rest = words[0], words[1:]
        if kind == ".model":
            self.netlist.name = rest[0] if rest else self.netlist.name
        elif kind in (".inputs", ".outputs"):
            (self.netlist.inputs if kind == ".inputs" else self.netlist.outputs).extend(rest)
        elif kind == ".names":
            self.table(line, rest)
        elif kind == ".gate":
            self.gate(line, rest)
        elif kind == ".latch":
            raise self.fault(line, "a latch: only combinational netlists are read; a state is an input c and an output c_next")
        elif kind not in IGNORED:
            raise self.fault(line, f"{kind} is not read here: a netlist has .model, .inputs, .outputs, .names, .gate and .end")

    def table(self, line: int, names: list[str]) -> None:
        if not names:
            raise self.fault(line, ".names without a signal")
        *inputs, name = names
        if len(inputs) > MOST_INPUTS:
            raise self.fault(line, f"the table of {name} has {len(inputs)} inputs, and {MOST_INPUTS} at most are read: "
                             "let the other tool map to tables of three inputs")
        rows = []
        while self.at < len(self.lines) and not self.lines[self.at][1][0].startswith("."):
            rows.append(self.lines[self.at])
            self.at += 1
        self.add(line, name, tuple(inputs), self.values(len(inputs), rows))

    def gate(self, line: int, words: list[str]) -> None:
        """A gate of a library, `NAME PIN=SIGNAL ..`."""
        pins = dict(word.split("=", 1) for word in words[1:] if "=" in word)
        cell = self.cells.get(words[0]) if words else None
        if cell is None:
            raise self.fault(line, f"there is no gate {words[0] if words else ''}: --genlib FILE names a library that has it")
        wanted = {cell.output, *cell.inputs}
        if set(pins) != wanted or len(words) != 1 + len(wanted):
            raise self.fault(line, f"the gate {words[0]} has the pins {', '.join(sorted(wanted))}")
        self.add(line, pins[cell.output], tuple(pins[pin] for pin in cell.inputs), cell.values)

    def add(self, line: int, name: str, inputs: tuple[str, ...], values: int) -> None:
        """A table, which becomes several by its last inputs where it has many."""
        if name in self.netlist.tables or name in self.netlist.inputs:
            raise self.fault(line, f"{name} has a table already or is an input")
        if len(inputs) <= OF_ONE:
            self.netlist.tables[name] = Table(line, inputs, values)
            return
        half = 1 << len(inputs) - 1
        low, high = values & (1 << half) - 1, values >> half
        if low == high:
            self.add(line, name, inputs[:-1], low)
            return
        parts = {f"{name}.{k}": its for k, its in enumerate((low, high)) if its not in (0, (1 << half) - 1)}
        self.netlist.tables[name] = Table(line, (inputs[-1], *parts), chosen(low & 1, high & 1, [int(part[-1]) for part in parts]))
        for part, its in parts.items():
            self.add(line, part, inputs[:-1], its)

    def values(self, count: int, rows: list[tuple[int, list[str]]]) -> int:
        """The value for each pattern of the inputs: those of the rows, or, where the rows have 0, all others."""
        found, ends = 0, set()
        for line, words in rows:
            plane, end = ("", words[0]) if count == 0 and len(words) == 1 else (words + ["", ""])[:2]
            if len(plane) != count or end not in ("0", "1") or set(plane) - set("01-"):
                raise self.fault(line, f"a row of this table has {count} of 0, 1 and -, and then 0 or 1")
            ends.add(end)
            found |= sum(1 << k for k in range(1 << count) if all(bit in ("-", str(k >> at & 1)) for at, bit in enumerate(plane)))
        if len(ends) > 1:
            raise self.fault(rows[0][0], "the rows of a table all end with 1, or all with 0")
        return found if ends != {"0"} else found ^ ((1 << (1 << count)) - 1)

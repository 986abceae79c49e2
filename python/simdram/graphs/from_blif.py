"""A serial block from a netlist of another tool: the text of an op, from combinational BLIF, or from AIGER.

FILE is BLIF with .names tables of up to ten inputs, or .gate lines of yosys or of the library that --genlib names, and without
latches; or it is AIGER, binary or text. Inputs are words of the op, or bits with --bit; where there are an input c and an
output c_next, c is a state of the block, which begins with 0, or with 1 by --state c=1. A latch of AIGER is such a state, with
its reset value. Other outputs are the words that the block assigns; where there are fewer than two, states are results too. The
block goes upwards, or downwards with --down. A table that is read several times becomes a `let`. Names that are none of the
language are changed, which a comment says. A netlist of more than four inputs or two outputs becomes several ops; comments have
the instructions that call them in order. What breaks a limit of the language is refused with its rule.
"""

import collections
import re
import sys
import typing

from ..files.store import load
from ..launcher.faults import Fault
from ..launcher.tool_parser import Asked, flag, option, tool
from ..rules.answer import first_breach
from ..rules.op_tree import BIT, WORD, Block, Expr, Op, gate, read
from ..rules.ops_rules import RESERVED, RESULTS, SOURCES, read_ops
from ..rules.tokens import NAME_MAX
from ..rules.word_ops import GATES
from . import aiger_file
from .blif_file import Reader, cells_in
from .least_gates import spelled
from .netlist import NEXT, Netlist, Table, in_order
from .splitting import function, split


class Names(dict[str, str]):
    """Names of the language for those of a netlist: a signal's own where it is one of the language."""

    def __missing__(self, signal: str) -> str:
        base = re.sub(r"\W+", "_", signal, flags=re.ASCII).strip("_")[:NAME_MAX] or "n"
        base = base if re.match(r"[A-Za-z_]", base) and base not in (*RESERVED, *GATES, "trsp_init") else f"n{base}"[:NAME_MAX]
        taken, made, count = set(self.values()), base, 0
        while made in taken:
            count += 1
            made = f"{base[:NAME_MAX - len(str(count)) - 1]}_{count}"
        self[signal] = made
        return made


def expression(table: Table, held: dict[str, Expr]) -> Expr:
    """What a table gives, from what stands for its inputs."""
    inputs = dict(zip("xyz", table.inputs))
    return spelled(function(table)).computed(lambda name: held[inputs[name]] if name in inputs else gate(name),
                                             lambda kind, args: gate(kind, *args))


def text_of(net: Netlist, path: str, direction: str, starts: dict[str, str], bits: typing.Container[str] = (),
            gives_states: bool = True) -> str:
    """The text of an op of one block from a netlist, in which a table that is read several times is a let."""
    if not net.sources:
        raise Fault(f"{path}: an op has 1 to {SOURCES} parameters, and the netlist 0 inputs that are no states")
    # the op's own names come first, so that they are kept where they can be
    names, order = Names(), in_order(net, path)
    own = {one: names[one] for one in (*net.sources, *net.states, *net.words)}
    reads = collections.Counter(net.outputs)
    for table in map(net.tables.__getitem__, order):
        inputs = dict(zip("xyz", table.inputs))
        reads.update(inputs[letter] for letter in spelled(function(table)).names())
    held, lets = {one: read(own[one]) for one in (*net.sources, *net.states)}, []
    for one in order:
        held[one] = expression(net.tables[one], held)
        if reads[one] > 1:
            # the let of an output has another name than the output
            lets.append((names[f"{one}_let" if one in net.outputs else one], held[one]))
            held[one] = read(lets[-1][0])
    params = tuple((own[one], BIT if one in bits else WORD) for one in net.sources)
    results = [(own[one], WORD) for one in net.words]
    results += [(own[one], BIT) for one in net.states if gives_states or not net.words]
    assigns = [(own[one], held[one]) for one in net.words] + [(own[one], held[one + NEXT]) for one in net.states]
    states = tuple((own[one], int({**net.starts, **starts}.get(one, 0))) for one in net.states)
    changed = "".join(f"# {its} is {one}\n" for its, one in names.items() if its != one)
    return changed + Op(net.name, params, tuple(results[:RESULTS]), [Block(direction, states, tuple(lets), tuple(assigns))]).text()


def netlist_of(path: str, genlib: str | None) -> Netlist:
    data = load(path)
    if data.startswith(aiger_file.MAGIC):
        return aiger_file.Reader(path, data).read()
    cells = cells_in(genlib, load(genlib).decode("utf-8", "replace")) if genlib else {}
    return Reader(path, data.decode("utf-8", "replace"), cells).read()


def calls(net: Netlist, nets: list[Netlist], path: str) -> str:
    """Where a netlist becomes several ops, the instructions that call them in order, as comments; and a line that says so."""
    if len(nets) == 1:
        return ""
    said = f"{len(net.sources)} inputs and {len(net.words)} outputs, where an op has {SOURCES} and {RESULTS} at most: {len(nets)} ops"
    print(f"{path}: {said}, which comments call in order", file=sys.stderr)
    # the names of the whole come first
    names = Names()
    names.update((one, names[one]) for one in (*net.sources, *net.words))
    lines = [f"bbop_{one.name} {', '.join(names[its] for its in (*one.words, *one.sources))}, COUNT, N" for one in nets]
    return "".join(f"# {line}\n" for line in [said, *lines])


@tool("FILE",
      option("--name", "NAME", "the op's name; else the model's"),
      flag("--down", "the block goes from the top bit down"),
      option("--bit", "NAME", "an input that is one bit for all positions", action="append", default=[]),
      option("--genlib", "LIBRARY", "the library of the gates in .gate lines"),
      option("--state", "NAME=BIT", "how a state begins", action="append", default=[]))
def main(asked: Asked) -> None:
    starts = {}
    for one in asked.state:
        name, equals, bit = one.partition("=")
        if not equals or bit not in ("0", "1"):
            raise Fault(f"--state takes NAME=0 or NAME=1, and not {one}")
        starts[name] = bit
    net = netlist_of(asked.file, asked.genlib)
    unknown = [one for one in [*asked.bit, *starts] if one not in (net.sources if one in asked.bit else net.states)]
    if unknown:
        raise Fault(f"{asked.file} has no {'input' if unknown[0] in asked.bit else 'state'} {unknown[0]}")
    net.name = Names()[asked.name or net.name]
    nets = split(net, asked.file)
    direction = "down" if asked.down else "up"
    text = calls(net, nets, asked.file) + "".join(text_of(one, asked.file, direction, starts, asked.bit, len(nets) == 1) for one in nets)
    if (answer := first_breach(asked.file, text.encode(), read_ops)) is not None:
        raise Fault(f"{asked.file}: the op would break a rule, {answer.kind}: {answer.rule}")
    print(text, end="")

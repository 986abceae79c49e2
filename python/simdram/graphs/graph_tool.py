"""The majority-inverter graph of a serial block, as written or as compiled, as DOT, BLIF or AIGER.

OPS is an operation text. The block is the first one of the op, or number K with --block. The graph is that of the block as
it is written, or, with --compiled, that of the loop that it is compiled to, where each triple activation is a node; an
iteration of that loop may go through several positions. Inputs are the words at the position, bits, and states; outputs are
the assigned words at the position, and the next values of states, as c_next. With --positions the graph as it is written
goes through so many positions.
BLIF has a table for each majority, DOT a dashed edge for each complement, AIGER and-gates: binary, or as text where OUT ends
in .aag. Without OUT the graph is printed.
"""

import sys

from ..files.store import load
from ..launcher.faults import Fault
from ..launcher.overwrite import write
from ..launcher.tool_parser import Asked, flag, option, tool
from ..rules.op_tree import OpShape, StatementShape
from ..rules.ops_rules import op_shape, shapes_of
from .block_graph import Compiled, as_compiled, written
from .mig import as_aiger, as_blif, as_dot, live

FORMATS = ("dot", "blif", "aiger")


def block_of(path: str, data: bytes, name: str | None, number: int) -> tuple[OpShape, StatementShape]:
    """A block of an op, and the op."""
    with_blocks = [shape for shape in shapes_of(path, data) if any(one.direction for one in shape.statements)]
    if name is None and not with_blocks:
        raise Fault(f"{path} has no serial block")
    shape = op_shape(path, data, name) if name else with_blocks[0]
    blocks = [one for one in shape.statements if one.direction]
    if not 1 <= number <= len(blocks):
        raise Fault(f"op {shape.name} has {len(blocks)} serial block{'s' * (len(blocks) != 1)}, and --block is {number}")
    return shape, blocks[number - 1]


@tool("OPS", "[OUT]",
      option("--op", "NAME", "the op; else the first that has a serial block"),
      option("--block", "K", "which of its blocks, from 1", type=int, default=1),
      option("--format", choices=FORMATS, default="dot"),
      flag("--compiled", "the graph of the loop that the block is compiled to"),
      option("--positions", "K", "over how many positions, as it is written", type=int, default=1))
def main(asked: Asked) -> None:
    data = load(asked.ops, "ops")
    shape, block = block_of(asked.ops, data, asked.op, asked.block)
    if not 1 <= asked.positions <= 16 or asked.compiled and asked.positions != 1:
        raise Fault("--positions is 1 to 16, and goes with the graph as it is written")
    graph, positions, left_out = (as_compiled(block, shape, data, asked.settings) if asked.compiled else
                                  Compiled(written(block, shape, asked.positions), asked.positions, []))
    states = ", ".join(f"{name} = {bit}" for name, bit in block.starts.items())
    notes = [f"{shape.name}, {'compiled' if asked.compiled else 'as written'}: {len(live(graph))} majority nodes, {block.direction}wards, "
             f"{positions} position{'s' * (positions > 1)}{'; states ' if states else ''}{states}"]
    notes += [f"no result needs {', '.join(left_out)}: the loop does not compute it"] * bool(left_out)
    made = {"dot": lambda: as_dot(graph, shape.name).encode(), "blif": lambda: as_blif(graph, shape.name, notes).encode(),
            "aiger": lambda: as_aiger(graph, (asked.out or ".aag").endswith(".aag"))}[asked.format]()
    if asked.out:
        write(asked.out, made, asked.format, asked.settings)
    else:
        sys.stdout.buffer.write(made)

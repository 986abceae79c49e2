"""Prints the text of a program file, which `simdram assemble` takes.

Cells and operands have their names, and loops are written as loops where the text then does the same commands; sources are
a, b, c, d, results y and z, scratch t0, t1, .. and w0, w1, .. With --raw it prints the lines of `simdram list` below heads, which
assemble to the same file, byte for byte.
"""

from ..files.program import Program
from ..launcher.tool_parser import Asked, flag, tool
from .reading import raw_text, readable_text


@tool("PROG",
      flag("--raw", "the lines of `list`, instruction by instruction"))
def main(asked: Asked) -> None:
    program = Program.load(asked.prog)
    print(raw_text(program) if asked.raw else readable_text(program), end="")

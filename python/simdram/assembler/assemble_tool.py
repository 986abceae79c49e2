"""Assembles a text of microprograms, a designer's own command sequences, into a program file.

TEXT has one program after another, each with its head, `program xor(a: word, b: word) -> y: word`. docs/MICROPROGRAMS.md
teaches the text. What the file does is said by `simdram verify`. A text at fault is told with its line and column, what is
wrong and what would be right, and nothing is written.
"""

import sys

from ..files.store import load
from ..launcher.faults import WRONG
from ..launcher.overwrite import write
from ..launcher.tool_parser import Asked, tool
from . import Breach, assemble


@tool("TEXT", "PROG")
def main(asked: Asked) -> None:
    data = load(asked.text, "micro")
    try:
        program = assemble(data)
    except Breach as fault:
        print("\n".join(fault.answer(asked.text, data).lines()), file=sys.stderr)
        return WRONG
    write(asked.prog, program.file(), "program", asked.settings)
    print(f"assembled {len(program.entries)}")

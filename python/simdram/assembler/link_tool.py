"""Puts the entries of several program files into one, in their order.

So a script can name entries of the compiler and of a designer's own beside each other. Entries have different names, and there
are at most 32. OUT is a file of version 2.
"""

from ..files.program import ENTRIES, Entry, Program
from ..launcher.faults import Fault
from ..launcher.overwrite import write
from ..launcher.tool_parser import Asked, option, tool


def linked(paths: list[str]) -> Program:
    entries: list[Entry] = []
    origin: dict[str, str] = {}
    for path in paths:
        for entry in Program.load(path).entries:
            if entry.name in origin:
                raise Fault(f"{path} has an entry {entry.name}, and so has {origin[entry.name]}; entries of one file have different names")
            origin[entry.name] = path
            entries.append(entry)
    if len(entries) > ENTRIES:
        raise Fault(f"the files have {len(entries)} entries, and a program file has at most {ENTRIES}")
    return Program(entries)


@tool(option("progs", "PROG", nargs="+"),
      option("out", "OUT"))
def main(asked: Asked) -> None:
    if asked.out in asked.progs:
        raise Fault(f"{asked.out} is both linked and written; OUT is another file")
    program = linked(asked.progs)
    write(asked.out, program.file(), "program", asked.settings)
    print(f"linked {len(program.entries)}")

"""Makes a file from its bytes, written as hexadecimal digits.

In NOTE a `#` begins a comment to the end of the line; the rest is the bytes, two digits each, with any blanks between them. So a
program file can be written by hand with a comment for each instruction, such as examples/exec/xor.hex.
"""

import re

from ..launcher.commands import kind_of
from ..launcher.faults import Fault
from ..launcher.overwrite import write
from ..launcher.tool_parser import Asked, tool
from .store import load

BYTES = re.compile("(?:[0-9a-fA-F]{2})+")
SHOWN = 40


def bytes_in(note: str) -> bytes:
    found = bytearray()
    for number, line in enumerate(load(note).decode("utf-8", "replace").split("\n"), 1):
        words = line.partition("#")[0].split()
        if (wrong := next((word for word in words if not BYTES.fullmatch(word)), None)) is not None:
            raise Fault(f"{note} line {number}: {wrong[:SHOWN]!r} is not a sequence of bytes of two hexadecimal digits each")
        found += bytes.fromhex("".join(words))
    return bytes(found)


@tool("NOTE", "FILE")
def main(asked: Asked) -> None:
    data = bytes_in(asked.note)
    write(asked.file, data, kind_of(data) or "bytes", asked.settings)

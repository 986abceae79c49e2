"""A text for microprograms: from the text to a program, and from a program to the text (docs/MICROPROGRAMS.md)."""

from ..files.program import Program
from ..rules.answer import Breach
from .lowering import entry_of, lowered
from .parser import parsed

__all__ = ["Breach", "assemble"]


def assemble(data: bytes) -> Program:
    """The program that a text writes; a text at fault raises `Breach`."""
    text = parsed(data)
    return Program([entry_of(one.head, lowered(one)) for one in text.programs], text.version)

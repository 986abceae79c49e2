"""The lines of a text of microprograms from which the instructions of an entry were assembled, where the text is at hand."""

import contextlib
import os
import typing

from ..files.program import Entry
from ..files.store import load
from ..launcher.faults import FileFault
from ..rules.answer import Breach
from ..rules.tokens import line_of
from .lowering import entry_of, lowered
from .parser import parsed

ENDING = ".micro"
# how many texts of a folder are looked at, and up to which size
TEXTS, LARGEST = 64, 1_000_000


class TextLines(typing.NamedTuple):
    """A text, and of each instruction of an entry its line there, from 1."""

    path: str
    lines: tuple[int, ...]

    def said(self, at: int) -> str:
        """Where an instruction stands, in words."""
        return f"{os.path.basename(self.path)} line {self.lines[at]}"


def texts_beside(prog: str) -> list[str]:
    """The texts in a program file's folder, first the one of its own name."""
    folder = os.path.dirname(prog)
    own = os.path.splitext(prog)[0] + ENDING
    try:
        names = sorted(name for name in os.listdir(folder or ".") if name.endswith(ENDING))
    except OSError:
        return []
    paths = [os.path.join(folder, name) for name in names[:TEXTS]]
    return sorted((path for path in paths if os.path.isfile(path) and os.path.getsize(path) <= LARGEST), key=lambda path: path != own)


def text_lines(prog: str, entry: Entry) -> TextLines | None:
    """The lines of an entry of a program file, in the text of its name or another text of its folder."""
    for path in texts_beside(prog):
        with contextlib.suppress(Breach, FileFault, OSError):
            data = load(path)
            for one in (one for one in parsed(data).programs if one.head.name == entry.name):
                made = lowered(one)
                if entry_of(one.head, made) == entry:
                    return TextLines(path, tuple(line_of(data, out.token.at) for out in made.code))
    return None


def place_of(prog: str, entry: Entry, at: int) -> str:
    """`, NAME.micro line K,` for an instruction whose text is at hand, or nothing."""
    found = text_lines(prog, entry)
    return f", {found.said(at)}," if found and at < len(found.lines) else ""

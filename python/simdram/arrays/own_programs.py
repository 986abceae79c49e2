"""Programs of a designer's own, in the text for microprograms, as functions of arrays (docs/MICROPROGRAMS.md)."""

import warnings

from ..assembler import Breach, assemble
from ..files.program import Program
from ..files.store import folder_of
from ..launcher import run_program
from ..rules.ops_rules import read_ops
from ..rules.verdicts import VERIFIED, Verdict, verdicts_of
from .user_ops import Counted, canonical
from .cutting import renamed
from .refusals import Stopped


class Unverified(UserWarning):
    """A program is called at a width at which nothing says that it does what it should."""


class OwnProgram(Counted):
    """A program of a text, which takes and gives arrays; `entry` is what the program file has of it."""

    def __init__(self, text: str) -> None:
        if not isinstance(text, str):
            raise TypeError(f"a program is a text, and not {type(text).__name__}")
        try:
            entries = assemble(text.encode()).entries
        except Breach as fault:
            raise ValueError("\n".join(fault.answer("program", text.encode()).lines())) from None
        if len(entries) != 1:
            raise ValueError(f"simdram.program takes the text of one program, and this has {len(entries)}")
        self.text, self.entry = text, entries[0]
        self.name, self.takes, self.gives = self.entry.name, list(self.entry.sources), list(self.entry.results)
        self.program = Program([self.entry]).file()
        self.verdicts: dict[int, Verdict] = {}

    def verify(self, op: str, bits: int) -> Verdict:
        """Whether the program does an op at a width, for all numbers and whatever the cells of the chip hold."""
        if not 1 <= bits <= 128:
            raise ValueError(f"a program is verified at a width of 1 to 128, and not {bits}")
        text = canonical(op)
        if len(read_ops(text.encode())) != 1:
            raise ValueError("a program is verified against the text of one op")
        with folder_of(ops=renamed(text, self.name).encode(), prog=self.program) as folder:
            ended = run_program.run(["verify", "ops", "prog", bits], folder)
        if ended.status not in VERIFIED:
            raise Stopped("verify", ended, "ops", text)
        self.verdicts[bits] = verdicts_of(ended.out)[0]
        return self.verdicts[bits]

    def check(self, width: int) -> None:
        """Warns where the program is not known to be right at this width."""
        if not (known := self.verdicts.get(width)):
            said = f"is {known.kind}" if known is not None else "was never verified"
            warnings.warn(f"{self.name} {said} at width {width}: {self.name}.verify(\"op ..\", {width}) says whether it is right",
                          Unverified, stacklevel=3)


def program(text: str) -> OwnProgram:
    """The program of a text; a text at fault is raised with its line and column."""
    return OwnProgram(text)

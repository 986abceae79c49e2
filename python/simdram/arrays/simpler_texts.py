"""What the texts of a chip's ops are compiled to, kept on disk: simplified texts, and entries of few commands."""

import functools
import typing

from ..files.program import Entry, Program
from ..files.store import folder_of
from ..launcher import run_program
from ..launcher.faults import Fault, FileFault
from ..launcher.settings import taken
from ..optimise.named_rows import right_names
from ..optimise.search import fewest
from ..simplify.simplifier import Options, Simplifier
from ..simplify.statement_cache import kept_of, keep_for, sum_of

# in which time an op's text is simplified
SECONDS = 10.0


class Texts:
    """From the text of an op as it is meant to the text that is compiled: the same where the chip does not simplify; and to an
    entry of few commands, at widths at which the chip asks for one."""

    def __init__(self, is_simplified: bool = False, optimised: typing.Iterable[int] = ()) -> None:
        self.is_simplified, self.widths = is_simplified, frozenset(optimised)
        self.texts: dict[tuple[str, int], str] = {}
        self.entries: dict[tuple[str, int], Entry] = {}

    def is_for(self, width: int) -> bool:
        """Whether what is compiled for a text depends on this width."""
        return self.is_simplified or width in self.widths

    def entry(self, text: str, width: int) -> Entry | None:
        """The entry of few commands for a text at a width, or nothing where the chip does not ask for one."""
        if width not in self.widths:
            return None
        compiled = self.compiled(text, width)
        if (compiled, width) not in self.entries:
            self.entries[compiled, width] = self._kept_entry(text, compiled, width)
        return self.entries[compiled, width]

    def compiled(self, text: str, width: int) -> str:
        """The text that is compiled for a text at a width."""
        if not self.is_simplified:
            return text
        if (text, width) not in self.texts:
            self.texts[text, width] = self._kept_text(text, width)
        return self.texts[text, width]

    def _kept_text(self, text: str, width: int) -> str:
        """The text that is kept on disk, or else what the tool finds now, which is kept."""
        what = {"program": self._program_sum, "width": width, "text": text}
        if (found := kept_of("text", what, "compiled")) is not None:
            return str(found)
        compiled, is_whole = simplified(text, width)
        if is_whole:
            keep_for("text", what, "compiled", compiled)
        return compiled

    def _kept_entry(self, written: str, compiled: str, width: int) -> Entry:
        """The entry that is kept on disk, where `verify` finds it right, or else what is found now, which is kept."""
        what = {"program": self._program_sum, "width": width, "text": written, "compiled": compiled}
        program = run_program.program(taken([])[0])
        if (found := right_entry(kept_of("entry", what, "entry"), written, width, program)) is None:
            found = fewest(program, written.encode(), compiled.encode(), width)[0].entry
            keep_for("entry", what, "entry", Program([found]).file().hex())
        return found

    @functools.cached_property
    def _program_sum(self) -> str:
        """What tells a program's compiler from others."""
        return sum_of(run_program.program(taken([])[0]))


def right_entry(digits: typing.Any, text: str, width: int, program: str) -> Entry | None:
    """The one entry of a program file in hexadecimal digits, where it is one and does the text at the width."""
    try:
        entries = Program.read(bytes.fromhex(digits)).entries
    except (FileFault, ValueError, TypeError):
        return None
    with folder_of(ops=text.encode()) as place:
        right = right_names(program, f"{place}/ops", entries, width)
    return entries[0] if len(entries) == 1 and entries[0].name in right else None


def simplified(text: str, width: int) -> tuple[str, bool]:
    """The text of an op that costs the least at a width and has no more rows; and whether the search came to its end."""
    options = Options((width,), SECONDS, keeps_rows=True, compared=())
    try:
        outcome = Simplifier(run_program.program(taken([])[0]), options).outcomes(text.encode())[0]
    except Fault:  # it could not even be measured in the time
        return text, False
    return outcome.simpler.text if outcome.is_taken else text, outcome.simpler.is_whole

"""Whether two texts of an op are equal at widths: by the program's `verify`, for all inputs."""

import contextlib
import typing

from ..files.store import folder_of
from ..launcher import run_program
from ..rules.op_tree import Op
from ..rules.verdicts import RIGHT, UNKNOWN, VERIFIED, WRONG, verdicts_of
from .cut import cut
from .timed import TimeOver, Timed

# widths at which every new text is compared besides those that are asked for
ALWAYS = (1, 2, 3, 4)


class Equality(typing.NamedTuple):
    """What is known at each width, whether products and quotients were taken as unknowns, and whether the time was over."""

    verdicts: dict[int, str]
    is_cut: bool = False
    is_late: bool = False

    def at(self, kind: str) -> list[int]:
        """The widths at which this is known: that the texts differ, or nothing."""
        return [width for width, its in self.verdicts.items() if its == kind]


class Comparer:
    """Compares texts by a program, up to a time in processor seconds."""

    def __init__(self, timed: Timed) -> None:
        self.timed, self.is_late = timed, False

    def _run(self, words: typing.Sequence[typing.Any], folder: str) -> run_program.Ended | None:
        """The program's end, or nothing where the time is over."""
        with contextlib.suppress(TimeOver):
            return self.timed.run(words, folder)
        self.is_late = True
        return None

    def by_texts(self, meant: str, made: str, widths: typing.Sequence[int], program: bytes = b"") -> dict[int, str]:
        """Of one op in two texts, at each width whether the second, whose program file may be known, does what the first means."""
        with folder_of(meant=meant.encode(), made=made.encode(), **({"prog": program} if program else {})) as folder:
            compiled = None if program else self._run(["compile", "made", "prog"], folder)
            if not program and (compiled is None or compiled.status):
                return dict.fromkeys(widths, UNKNOWN)
            return {width: self._verdict(folder, width) for width in widths}

    def _verdict(self, folder: str, width: int) -> str:
        ended = self._run(["verify", "meant", "prog", width], folder)
        found = verdicts_of(ended.out) if ended is not None and ended.status in VERIFIED else []
        return found[0].kind if found and found[0].kind in (RIGHT, WRONG) else UNKNOWN

    def equal(self, old: Op, new: Op, widths: typing.Sequence[int], program: bytes = b"") -> Equality:
        """Whether two ops of the same parameters and results are equal at widths.

        With products and the like as unknowns first, then as they are; what is not known is asked the other way round.
        """
        if (pair := cut(old, new)) is not None:
            found = self.by_texts(*pair, widths)
            if set(found.values()) == {RIGHT}:
                return Equality(found, True)
        found = self.by_texts(old.text(), new.text(), widths, program)
        if unknown := [width for width in widths if found[width] == UNKNOWN]:
            found.update(self.by_texts(new.text(), old.text(), unknown))
        return Equality(found, False, self.is_late)

"""What the front raises where the program refuses."""

from ..launcher.run_program import Ended
from ..rules import answers


class Refused(ValueError):
    """An array, an operation or an instruction that is refused: the program's word, its place if it has one, and why.

    The words are those of docs/FORMATS.md and docs/LANGUAGE.md, such as `no_rows`, `width` and `range`.
    """

    def __init__(self, word: str, what: str, place: int | None = None) -> None:
        super().__init__(f"refused {word}{'' if place is None else f' {place}'}: {what}")
        self.word, self.place = word, place


class Stopped(RuntimeError):
    """A call of the program that ended early: its status and its last line, such as `ops line 1 unknown`.

    Of a text that is refused the message goes on with the place and the rule.
    """

    def __init__(self, command: str, ended: Ended, kind: str = "", text: str = "") -> None:
        self.status, self.line = ended.status, last_line(ended.out)
        said = self.line or ended.err.strip() or "it said nothing"
        found = answers.first_fault(kind, kind, text.encode()) if kind else None
        more = found.lines() if found and self.line.startswith(f"{kind} ") else []
        super().__init__("\n".join([f"{command} ended with status {self.status}: {said}", *more]))


def last_line(text: str) -> str:
    return (text.splitlines() or [""])[-1]

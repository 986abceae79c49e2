"""What is wrong with a file, where, and what would be right, as lines."""

import dataclasses
import textwrap
import typing

from ..launcher.faults import Fault
from ..launcher.words import nearest
from .tokens import STRANGER, Token, line_of, said

WIDEST = 100


@dataclasses.dataclass(frozen=True)
class Answer:
    """A fault: the file, its place in words, the kind, the rule, what would be right, and the line of text with its caret."""

    path: str
    place: str
    kind: str
    rule: str
    right: tuple[str, ...] = ()
    shown: str = ""
    caret: tuple[int, int] = (0, 0)

    def lines(self) -> list[str]:
        found = [f"{self.path} {self.place}: {self.kind}".replace(" : ", ": ")]
        if self.shown:  # the line and a caret under a part of it, cut where the line is long
            column, length = self.caret
            start = max(0, column - WIDEST // 2) if len(self.shown) > WIDEST else 0
            part = self.shown[start:start + WIDEST]
            carets = "^" * max(1, min(length, len(part) - (column - start)))
            found += [f"    {'..' if start else ''}{part}".rstrip(), " " * (4 + 2 * bool(start) + column - start) + carets]
        for text in (self.rule, *self.right):
            found += textwrap.wrap(text, WIDEST, initial_indent="  ", subsequent_indent="    ", break_long_words=False,
                                   break_on_hyphens=False)
        return found


class Breach(Exception):
    """A token of a text that breaks a rule: the kind in a word, the rule in a sentence, and what would be right."""

    def __init__(self, token: Token, kind: str, rule: str, *right: str) -> None:
        super().__init__(rule)
        self.token, self.kind, self.rule, self.right = token, kind, rule, right

    def answer(self, path: str, data: bytes, refused: str = "") -> Answer:
        """The fault with its line and column in a file; of an instruction or a query, what of it is refused."""
        line = line_of(data, self.token.at)
        texts = data.split(b"\n")
        text = texts[line - 1] if texts else b""
        before = sum(len(text) + 1 for text in texts[:line - 1])
        column = len(text[:self.token.at - before].decode("utf-8", "replace"))
        shown = "".join(one if one.isprintable() else " " if one in "\t\r" else "?" for one in text.decode("utf-8", "replace"))
        return Answer(path, f"line {line} column {column + 1}", f"{refused} refused {self.kind}" if refused else self.kind, self.rule, self.right,
                      shown if shown.strip() else "", (column, 1 if self.token.kind == STRANGER else len(self.token.text)))

    def fault(self, path: str, data: bytes) -> Fault:
        answer = self.answer(path, data)
        return Fault(f"{path} {answer.place}: {answer.kind}: {answer.rule}")


def not_allowed(token: Token, wanted: str, *right: str) -> Breach:
    """The fault of a token that the grammar does not allow."""
    return Breach(token, "syntax", f"the grammar does not allow {said(token)} here", f"allowed here: {wanted}", *right)


def first_breach(path: str, data: bytes, read: typing.Callable[..., typing.Any], *more: typing.Any, refused: str = "") -> Answer | None:
    """The first fault that a reader of a text finds, if any; `refused` is the instruction or the query that is."""
    try:
        read(data, *more)
    except Breach as breach:
        return breach.answer(path, data, refused)
    return None


def near(word: str, known) -> str:
    """The known words that a word is nearly, as a question."""
    found = nearest(word, known)
    return f"; did you mean {' or '.join(found)}?" if found else ""

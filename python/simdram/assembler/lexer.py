"""The tokens of a text for microprograms: as those of an operation text, with more symbols, and the ends of lines."""

import re

from ..rules.answer import Breach
from ..rules.tokens import END, NAME, NEWLINE, NUMBER, STRANGER, SYMBOL, Token, no_token, said, tokens

ITEM = re.compile(rb"(?P<gap>[ \t\r]+|#[^\n]*)|(?P<newline>\n)|(?P<name>[A-Za-z_][A-Za-z0-9_]*)|(?P<number>[0-9]+)"
                  rb"|(?P<symbol>->|\.\.|==|!=|[(){}\[\],;:=+\-*~])|(?P<stranger>.)", re.DOTALL)


class Tokens:
    """The tokens of a text that are left."""

    def __init__(self, data: bytes) -> None:
        self.found, self.at = tokens(data, ITEM), 0
        if self.found[-1].kind == STRANGER:
            raise Breach(self.found[-1], "lex", no_token(self.found[-1]))
        # of the program that is read the width for which alone it is, or none, and the registers that it names
        self.width: int | None = None
        self.registers: set[int] = set()

    @property
    def here(self) -> Token:
        return self.found[self.at]

    def next(self) -> Token:
        token = self.here
        self.at += token.kind != END
        return token

    def is_at(self, *texts: str) -> bool:
        """Whether the next token is a symbol or a name with one of these texts."""
        return self.here.kind in (SYMBOL, NAME) and self.here.text in texts

    def is_label(self) -> bool:
        """Whether the next token is a name that a colon follows."""
        after = self.found[min(self.at + 1, len(self.found) - 1)]
        return self.here.kind == NAME and after.kind == SYMBOL and after.text == ":"

    def took(self, text: str) -> bool:
        """Takes the next token if it is this one."""
        return self.is_at(text) and bool(self.next())

    def expect(self, text: str, after: str) -> Token:
        """Takes this token, which has to come."""
        if not self.is_at(text):
            raise Breach(self.here, "syntax", f"{said(self.here)} stands where `{text}` is expected{after}")
        return self.next()

    def of_kind(self, what: str, *kinds: str) -> Token:
        """Takes a token of one of these kinds, which has to come."""
        if self.here.kind not in kinds:
            raise Breach(self.here, "syntax", f"{said(self.here)} stands where {what} is expected")
        return self.next()

    def name(self, what: str) -> Token:
        return self.of_kind(what, NAME)

    def number(self, what: str) -> Token:
        return self.of_kind(what, NUMBER)

    def at_line_end(self) -> bool:
        """Whether a statement ends here."""
        return self.here.kind in (NEWLINE, END) or self.is_at(";", "}")

    def skip_lines(self) -> None:
        """Takes the ends of statements."""
        while self.here.kind == NEWLINE or self.is_at(";"):
            self.next()

"""The tokens of a text, with their places."""

import re
import typing

NAME, NUMBER, SYMBOL, STRANGER, END, NEWLINE = "name", "number", "symbol", "stranger", "end", "newline"
ITEM = re.compile(rb"(?P<gap>[ \t\r\n]+|#[^\n]*)|(?P<name>[A-Za-z_][A-Za-z0-9_]*)|(?P<number>[0-9]+)"
                  rb"|(?P<symbol>->|[][(){},;:=])|(?P<stranger>.)", re.DOTALL)
NAME_MAX = 16


class Token(typing.NamedTuple):
    """A token: its kind, its text, and the place of its first byte. The end of a text is one too, and so is a byte that starts none."""

    kind: str
    text: str
    at: int


def tokens(data: bytes, item: re.Pattern = ITEM) -> list[Token]:
    """The tokens of a text up to the first byte that starts none, and the end; `item` says what tokens there are."""
    found = []
    for match in item.finditer(data):
        kind = match.lastgroup
        if kind != "gap":
            found.append(Token(kind, match.group().decode("ascii", "backslashreplace"), match.start()))
        if kind == STRANGER:
            return found
    return [*found, Token(END, "", len(data))]


def said(token: Token) -> str:
    """A token as a fault names it."""
    return {END: "the end of the text", NEWLINE: "the end of the line"}.get(token.kind, f"`{token.text}`")


def no_token(token: Token) -> str:
    """Why a byte starts no token, as a rule."""
    if len(token.text) == 1:
        return f"no token begins with {token.text!r}; a comment begins with `#`"
    if token.at == 0 and token.text == "\\xef":
        return "the text begins with a byte order mark, which is no token: save it without one, as plain ASCII or UTF-8"
    return f"no token begins with the byte 0{token.text[1:]}: texts are ASCII, except in comments, which begin with `#`"


def line_of(data: bytes, at: int) -> int:
    """The line of a place, from 1; the end of the text is on the line of its last byte."""
    return 1 + data.count(b"\n", 0, min(at, max(len(data) - 1, 0)))


def value_of(digits: str) -> int:
    """The number that digits write; where it has more than 40 digits, some number above all that may stand anywhere."""
    kept = digits.lstrip("0") or "0"
    return int(kept) if len(kept) <= 40 else 10**40

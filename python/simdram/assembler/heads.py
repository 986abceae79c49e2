"""The head of a program: `program NAME(a: word, ..) -> y: word`, its scratch, its one width, and the line `entry` of a
listing."""

import typing

from ..files.program import BIT, RESULT, SOURCE, SOURCES, WORD
from ..rules.answer import Breach
from ..rules.tokens import Token, said
from .lexer import Tokens
from .names import KINDS, check_name, listed
from .tree import Head

ENTRY_FIELDS = ("sources", "bits", "words", "code", "results")
SCRATCH_MAX = 255
LAST_WIDTH = 128


def read_head(tokens: Tokens, earlier: set[str]) -> Head:
    """The head, from its name on."""
    token = tokens.name("the name of a program")
    check_name(token, "a program")
    if token.text in earlier:
        raise Breach(token, "twice", f"there is a program {token.text} already", "each program of a text has its own name")
    head = Head(token.text, token)
    tokens.width, tokens.registers = None, set()
    tokens.expect("(", " before the sources")
    read_operands(tokens, head, head.sources, SOURCE, SOURCES[1])
    tokens.expect(")", " after the sources")
    tokens.expect("->", " before the results")
    read_operands(tokens, head, head.results, RESULT, 2)
    end_line(tokens, "the head")
    tokens.skip_lines()
    while tokens.is_at("scratch", "width") and not tokens.is_label():
        if tokens.next().text == "scratch":
            read_scratch(tokens, head)
        else:
            read_width(tokens, head)
        tokens.skip_lines()
    return head


def read_width(tokens: Tokens, head: Head) -> None:
    """The one width of a program, after the word `width`."""
    token = tokens.number("a width, as in `width 8`")
    if not 1 <= int(token.text) <= LAST_WIDTH:
        raise Breach(token, "number", f"the width is {token.text}", f"widths are 1 to {LAST_WIDTH}")
    if head.width is not None:
        raise Breach(token, "twice", f"the program is for the width {head.width} already", "`width` stands once")
    head.width = tokens.width = int(token.text)
    end_line(tokens, "`width`")


def read_operands(tokens: Tokens, head: Head, found: dict[str, str], space: int, most: int) -> None:
    for token, kind in read_typed(tokens, head):
        if len(found) == most:
            what = "sources" if space == SOURCE else "results"
            raise Breach(token, "head", f"{token.text} is one of too many {what}", f"a program has 1 to {most}")
        check_listed(token, space, len(found))
        found[token.text] = kind


def read_scratch(tokens: Tokens, head: Head) -> None:
    """The names of scratch, after the word `scratch`."""
    for token, kind in read_typed(tokens, head):
        names = head.bits if kind == "bit" else head.words
        if len(names) == SCRATCH_MAX:
            raise Breach(token, "head", f"{token.text} is the 256th {kind} of scratch", "a program has at most 255 of each")
        check_listed(token, BIT if kind == "bit" else WORD, len(names))
        names.append(token.text)
    end_line(tokens, "`scratch`")


def read_typed(tokens: Tokens, head: Head) -> typing.Iterator[tuple[Token, str]]:
    """Names that are new here and their kinds, with commas between them."""
    has_more = True
    while has_more:
        token = tokens.name("a name")
        check_name(token, "a row")
        if token.text in (*head.sources, *head.results, *head.bits, *head.words):
            raise Breach(token, "twice", f"`{token.text}` is named already", "each source, result and scratch has its own name")
        tokens.expect(":", f" after {token.text}, as in `{token.text}: word`")
        kind = tokens.name("`word` or `bit`")
        if kind.text not in KINDS:
            raise Breach(kind, "head", f"`{kind.text}` is no kind", "a kind is `word` or `bit`")
        yield token, kind.text
        has_more = tokens.took(",")


def check_listed(token: Token, space: int, which: int) -> None:
    """Refuses a name that means another row in a listing."""
    place = listed(token.text)
    if place is not None and place != (space, which):
        raise Breach(token, "name", f"`{token.text}` is the name of another row in listings", "take another name: y and z are "
                        "the results there, s0 to s3 the sources, t0 and on the bits of scratch, w0 and on its words")


def end_line(tokens: Tokens, what: str) -> None:
    if not tokens.at_line_end():
        raise Breach(tokens.here, "syntax", f"{said(tokens.here)} stands after {what}", "a line ends there")


def read_entry(tokens: Tokens, head: Head) -> Token | None:
    """The rest of the line `entry` of a listing, which has to agree with the head; what it says of `code`."""
    name = tokens.name("the name of the program")
    if name.text != head.name:
        raise Breach(name, "head", f"the head has the name {head.name}", f"`entry {head.name} ..`")
    values = {}
    while tokens.here.kind == "name":
        field = tokens.next()
        if field.text not in ENTRY_FIELDS:
            raise Breach(field, "syntax", f"`{field.text}` is nothing that the line has", f"it has {', '.join(ENTRY_FIELDS)}")
        tokens.expect("=", f" after {field.text}")
        values[field.text] = tokens.number("a number")
    end_line(tokens, "`entry`")
    for field, token in values.items():
        number, have = int(token.text), {"sources": len(head.sources), "results": len(head.results)}.get(field, int(token.text))
        if field in ("bits", "words"):
            names, letter = (head.bits, "t") if field == "bits" else (head.words, "w")
            if not names and number <= SCRATCH_MAX:  # scratch that has no names yet is given those of listings
                names += [f"{letter}{k}" for k in range(number)]
            have = len(names)
        if number != have:
            raise Breach(token, "head", f"the head has {have} {field}, and this line {number}", f"`{field}={have}`")
    return values.get("code")

"""Rows of commands as a text writes them: cells, addresses, operands with their subscripts."""

import re

from ..files.decode import B_ADDRESSES, CELLS, RAISED
from ..files.program import B_ADDRESS, C_ADDRESS, INDEXED, SOURCE
from ..rules.answer import Breach
from ..rules.tokens import NAME, NUMBER, Token, said
from .forms import N, Form
from .lexer import Tokens
from .names import BY_CELLS, PAIRS, SINGLES, TRIPLES, Names, address_text, read_register, register_of
from .tree import Operand

ADDRESS = re.compile("([BC])([0-9]+)")


def read_row(tokens: Tokens, names: Names, loops: list[str]) -> Operand:
    token = tokens.here
    if tokens.is_at("{", "~") or token.text in CELLS:
        return read_cells(tokens)
    if token.kind != NAME:
        raise Breach(token, "syntax", f"{said(token)} stands where a row is expected", "as `T0`, `{T0, T1, T2}`, `a[i]` or `C0`")
    match = ADDRESS.fullmatch(token.text)
    if match and token.text not in names.known:
        tokens.next()
        return address(token, match[1], int(match[2]))
    return read_operand(tokens, names, loops)


def address(token: Token, group: str, which: int) -> Operand:
    most = B_ADDRESSES if group == "B" else 2
    if which >= most:
        raise Breach(token, "row", f"there is no address {token.text}", f"the addresses are {group}0 to {group}{most - 1}")
    return Operand(token, B_ADDRESS if group == "B" else C_ADDRESS, which)


def read_cell(tokens: Tokens) -> str:
    """A cell, with `~` before it for its n-wordline."""
    tilde = tokens.took("~")
    token = tokens.name("a cell")
    if token.text not in CELLS:
        raise Breach(token, "row", f"`{token.text}` is no cell", f"the cells are {', '.join(CELLS)}")
    if tilde and not token.text.startswith("DCC"):
        raise Breach(token, "row", f"{token.text} has no n-wordline", "only DCC0 and DCC1 are read and written complemented")
    return f"{'~' if tilde else ''}{token.text}"


def read_cells(tokens: Tokens) -> Operand:
    """One cell, two that are written together, or in braces three, whose majority is sensed."""
    token, is_triple = tokens.here, tokens.took("{")
    cells = [read_cell(tokens)]
    while tokens.took("," if is_triple else "+"):
        cells.append(read_cell(tokens))
    if is_triple:
        tokens.expect("}", " after the cells")
    is_whole = len(cells) == 3 if is_triple else len(set(cells)) == len(cells) <= 2
    found = BY_CELLS.get(frozenset(cells)) if is_whole else None
    if found is None:
        right = f"the triples are {TRIPLES}" if is_triple else f"the pairs are {PAIRS}" if len(cells) == 2 else f"three cells are written as {TRIPLES}"
        raise Breach(token, "row", f"no address raises {{{', '.join(cells)}}}" if is_triple else f"no address raises {'+'.join(cells)}", right)
    return Operand(token, B_ADDRESS, found)


def read_operand(tokens: Tokens, names: Names, loops: list[str]) -> Operand:
    """A source, a result or scratch, with its subscript where it is a word."""
    token = tokens.next()
    named = names.find(token)
    if named.space not in INDEXED:
        if tokens.is_at("["):
            raise Breach(tokens.here, "row", f"{token.text} is one row, and has no subscript", f"`{token.text}`")
        return Operand(token, named.space, named.which)
    if not tokens.took("["):
        if named.kind == "word":
            raise Breach(token, "row", f"{token.text} is a word, of which one row is meant", f"`{token.text}[i]` in a loop over i, "
                            f"or `{token.text}[0]`")
        return Operand(token, named.space, named.which, Form())
    place = tokens.here
    index = read_index(tokens, loops)
    tokens.expect("]", " after the subscript")
    if named.kind == "bit" and isinstance(index, Form) and index != Form():
        raise Breach(place, "row", f"{token.text} is a bit, with one row", f"`{token.text}`")
    return Operand(token, named.space, named.which, index)


def read_index(tokens: Tokens, loops: list[str]) -> int | Form:
    """A subscript: a register, or a form."""
    if tokens.here.kind == NAME and register_of(tokens.here.text) is not None:
        return read_register(tokens)
    place = tokens.here
    form = read_form(tokens, loops)
    if not form.terms and form.number < 0:
        raise Breach(place, "row", f"the subscript is {form}", "positions begin at 0")
    return form


def read_form(tokens: Tokens, loops: list[str]) -> Form:
    """A sum of n, loop variables and numbers."""
    form = read_term(tokens, loops)
    while tokens.is_at("+", "-"):
        factor = 1 if tokens.next().text == "+" else -1
        form = form.plus(read_term(tokens, loops), factor)
    return form if tokens.width is None else form.put(N, Form(tokens.width))


def read_term(tokens: Tokens, loops: list[str]) -> Form:
    """A number, a name, or a number times a name."""
    token = tokens.next()
    if token.kind == NUMBER:
        value = int(token.text)
        if value > 1023:
            raise Breach(token, "number", f"{token.text} is too great", "registers hold 0 to 1023")
        return Form().plus(read_name(tokens.next(), loops), value) if tokens.took("*") else Form(value)
    return read_name(token, loops)


def read_name(token: Token, loops: list[str]) -> Form:
    """n or a loop variable."""
    if token.kind != NAME or token.text not in (N, *loops):
        names = ", ".join([N, *loops])
        raise Breach(token, "name", f"{said(token)} stands where a number, n or a loop variable is expected", f"here there are {names}")
    return Form.of(token.text)


def check_places(rows: tuple[Operand, ...]) -> None:
    """The first row may be activated first, and the second written."""
    first = rows[0]
    if first.space == B_ADDRESS and len(RAISED[first.which]) == 2:
        raise Breach(first.token, "row", f"B{first.which}, {address_text(first.which)}, cannot be activated first: two cells would "
                        "share their charge", f"one cell is sensed ({SINGLES}), or the majority of three ({TRIPLES})")
    for row in rows[1:]:
        if row.space in (C_ADDRESS, SOURCE):
            what = "C0 and C1 keep 0 and 1" if row.space == C_ADDRESS else f"{row.token.text} is a source, which stays as it is"
            raise Breach(row.token, "row", f"{what}, and cannot be written", "the second row is a cell, a result, scratch or a spill row")

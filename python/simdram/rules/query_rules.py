"""Queries: their comparisons, the first token that breaks a rule of docs/FORMATS.md, and why a scan is refused."""

import typing

from ..launcher.words import nearest
from .answer import Breach, not_allowed
from .operands import FORM, Operand
from .tokens import END, NAME, NUMBER, STRANGER, Token, no_token, tokens, value_of

COMPARISONS = ("eq", "gt", "ge", "lt", "le")
JOINS = {"not": 1, "and": 2, "or": 2}
NODES, TESTS, VALUE_MAX = 64, 32, 2**128 - 1
FORMS = "eq, gt, ge, lt, le of (NAME, V) or (NAME[LO:HI], V); not(Q), and(Q, Q), or(Q, Q)"
SIGNS = {">=": "ge", "<=": "le", "==": "eq", "=": "eq", ">": "gt", "<": "lt"}


class Node(typing.NamedTuple):
    """A node of a query: its word, of a comparison its operand and number, of a join its sources."""

    lead: Token
    operand: Operand | None = None
    number: Token | None = None
    sources: tuple[int, ...] = ()


class Reader:
    """Reads a query token by token; each node stands after its sources."""

    def __init__(self, data: bytes) -> None:
        self.data = data
        self.tokens = tokens(data)
        self.at = 0
        self.begun = 0
        self.tests = 0
        self.nodes: list[Node] = []

    def take(self) -> Token:
        token = self.tokens[self.at]
        if token.kind == STRANGER:
            raise Breach(token, "lex", no_token(token), *self.sign_hint(token))
        self.at += 1
        return token

    def sign_hint(self, token: Token) -> list[str]:
        """What a sign of comparison is written as."""
        after = self.data[token.at:token.at + 2].decode("ascii", "replace")
        sign = next((sign for sign in (after, after[:1]) if sign in SIGNS), "")
        name = self.tokens[self.at - 1].text if self.at and self.tokens[self.at - 1].kind == NAME else "NAME"
        return [f"there are no operator symbols: `{name} {sign} V` is `{SIGNS[sign]}({name}, V)`"] if sign else []

    def mark(self, text: str) -> None:
        token = self.take()
        if token.text != text or token.kind == END:
            raise not_allowed(token, f"`{text}`", *(self.sign_hint(token) if token.text == "=" else []))

    def query(self) -> int:
        """A query; the number of its last node."""
        token = self.take()
        if token.kind != NAME or token.text not in (*COMPARISONS, *JOINS):
            raise self.no_query(token)
        is_test = token.text in COMPARISONS
        if self.begun >= NODES or (is_test and self.tests >= TESTS):
            raise Breach(token, "too_many", f"a query has at most {NODES} nodes, of which at most {TESTS} are comparisons")
        self.begun += 1
        self.tests += is_test
        self.mark("(")
        return self.comparison(token) if is_test else self.join(token)

    def no_query(self, token: Token) -> Breach:
        right = []
        if token.kind == NAME:
            found = nearest(token.text, (*COMPARISONS, *JOINS))
            right += [f"did you mean {' or '.join(found)}?"] if found else []
            ahead = self.tokens[self.at]
            if ahead.kind == STRANGER or ahead.text == "=":
                right += self.sign_hint(ahead)
        return not_allowed(token, f"a query: {FORMS}", *right)

    def comparison(self, lead: Token) -> int:
        name = self.take()
        if name.kind != NAME:
            raise not_allowed(name, "an object's name", *(["the name comes first: ge(NAME, V)"] if name.kind == NUMBER else []))
        operand = self.operand(name)
        self.mark(",")
        number = self.number("a number", "a query compares an object with a number, not with an object")
        if value_of(number.text) > VALUE_MAX:
            raise Breach(number, "bad_number", "a number is below 2^128")
        self.mark(")")
        return self.push(Node(lead, operand, number))

    def operand(self, name: Token) -> Operand:
        """The operand of this name: each token is checked before the next is read."""
        found = Operand(name)
        found.check_name()
        for mark in "[:":
            if self.tokens[self.at].text != mark:
                break
            self.mark(mark)
            found = Operand(name, (*found.ends, self.number("the number of a bit", FORM)))
            found.check_bits()
        if found.ends:
            self.mark("]")
        return found

    def number(self, wanted: str, right: str) -> Token:
        number = self.take()
        if number.kind != NUMBER:
            raise not_allowed(number, wanted, right)
        return number

    def join(self, lead: Token) -> int:
        sources = [self.query()]
        for _ in range(JOINS[lead.text] - 1):
            self.mark(",")
            sources.append(self.query())
        self.mark(")")
        return self.push(Node(lead, sources=tuple(sources)))

    def push(self, node: Node) -> int:
        self.nodes.append(node)
        return len(self.nodes) - 1

    def read(self) -> list[Node]:
        self.query()
        token = self.take()
        if token.kind != END:
            raise not_allowed(token, "the end of the text", "a text has one query: combine two with and(Q, Q) or or(Q, Q)")
        return self.nodes


def read_query(data: bytes) -> list[Node]:
    return Reader(data).read()

"""From a text to its tree: programs, statements, loops."""

import typing

from ..files.program import AAP, AP, BNEZ, ENTRIES, LARGEST, NAMES as INSTRUCTIONS, OPERANDS, Instruction
from ..rules.answer import Breach
from ..rules.tokens import END, NAME, NUMBER, Token, said
from .heads import read_entry, read_head
from .lexer import Tokens
from .names import Names, check_name, listed, read_register
from .rows import check_places, read_form, read_row
from .tree import Command, For, If, Jump, Label, Next, Numbered, Out, ProgramText, Text

LONGEST_STEP = 128
# what the operands of an instruction are called
FIELDS = {"r": "register", "s": "other", "k": "number"}
TARGET = "a label or a number"
STATEMENTS = "an instruction, `for`, `if`, `next`, `JMP` or a label"


def parsed(data: bytes) -> Text:
    """The tree of a text; the first fault is raised."""
    tokens, text = Tokens(data), Text([])
    tokens.skip_lines()
    if tokens.took("version"):
        token = tokens.number("1 or 2")
        if token.text not in ("1", "2"):
            raise Breach(token, "number", f"there is no version {token.text} of program files", "`version 1` or `version 2`")
        text.version = int(token.text)
        tokens.skip_lines()
    while tokens.here.kind != END:
        token = tokens.expect("program", ", as in `program xor(a: word, b: word) -> y: word`")
        if len(text.programs) == ENTRIES:
            raise Breach(token, "head", f"this is program {ENTRIES + 1} of the text", f"a program file has at most {ENTRIES}")
        text.programs.append(Reader(tokens, {one.head.name for one in text.programs}).program())
        if text.version == 1 and len(text.programs[-1].head.results) == 2:
            raise Breach(token, "head", "a program of two results has no file of version 1", "leave out `version 1`")
    return text


class Reader:
    """Reads one program."""

    def __init__(self, tokens: Tokens, earlier: set[str]) -> None:
        self.tokens = tokens
        self.head = read_head(tokens, earlier)
        self.code = read_entry(tokens, self.head) if tokens.took("entry") else None
        self.names = Names(self.head)
        self.loops: list[str] = []
        self.labels: set[str] = set()

    def program(self) -> ProgramText:
        body: list[typing.Any] = []
        self.tokens.skip_lines()
        while self.tokens.here.kind != END and not self.tokens.is_at("program"):
            self.statement(body)
        return ProgramText(self.head, body, self.tokens.registers, self.code)

    def block(self) -> list[typing.Any]:
        opened = self.tokens.expect("{", " before the statements")
        body: list[typing.Any] = []
        self.tokens.skip_lines()
        while not self.tokens.is_at("}"):
            if self.tokens.here.kind == END or self.tokens.is_at("program"):
                raise Breach(opened, "syntax", "this `{` has no `}`", "a block ends with `}`")
            self.statement(body)
        self.tokens.next()
        return body

    def statement(self, body: list[typing.Any]) -> None:
        """Reads a statement, with its number and its label where there are."""
        if self.tokens.here.kind == NUMBER:
            body.append(Numbered(self.tokens.next()))
        token = self.tokens.name(STATEMENTS)
        if self.tokens.is_at(":"):
            check_name(token, "a label")
            if token.text in self.labels:
                raise Breach(token, "twice", f"there is a label {token.text} already", "each label of a program has its own name")
            self.labels.add(token.text)
            body.append(Label(token))
            self.tokens.next()
            self.tokens.skip_lines()
            return
        self.named_statement(token, body)
        if token.text not in ("for", "if") and not self.tokens.at_line_end():
            raise Breach(self.tokens.here, "syntax", f"{said(self.tokens.here)} stands after a whole `{token.text}`",
                            "a statement ends with its line, or with `;`")
        self.tokens.skip_lines()

    def named_statement(self, token: Token, body: list[typing.Any]) -> None:
        if token.text == "for":
            body.append(self.loop(token))
        elif token.text == "if":
            body.append(self.choice(token))
        elif token.text == "next":
            if not self.loops:
                raise Breach(token, "loop", "`next` stands in no loop", "it stands in a loop's own body")
            body.append(Next(token))
        elif token.text == "JMP":
            body.append(Jump(token, None, self.tokens.of_kind(TARGET, NAME, NUMBER)))
        elif token.text in INSTRUCTIONS:
            body.append(self.instruction(token, INSTRUCTIONS.index(token.text)))
        else:
            raise Breach(token, "syntax", f"`{token.text}` stands where {STATEMENTS} is expected",
                            f"the instructions are {', '.join(INSTRUCTIONS)}")

    def loop(self, token: Token) -> For:
        """`for i in A..B { .. }`, or `for i in A..B step 2 { .. }`."""
        variable = self.tokens.name("a loop variable")
        check_name(variable, "a loop variable")
        if variable.text in self.loops or variable.text in self.names.known or listed(variable.text):
            raise Breach(variable, "twice", f"`{variable.text}` is named already", "a loop variable has its own name")
        self.tokens.expect("in", f" after {variable.text}")
        start = read_form(self.tokens, self.loops)
        self.tokens.expect("..", " between the bounds")
        end = read_form(self.tokens, self.loops)
        made = For(token, variable.text, start, end, goes_down(start, end), self.step())
        if not made.count.terms and made.count.number <= 0:
            raise Breach(token, "loop", f"the loop has no iteration: {start}..{end}", "upwards A..B ends before B, downwards at B")
        self.loops.append(variable.text)
        made.body = self.block()
        self.loops.pop()
        return made

    def step(self) -> int:
        """By how much a loop goes on: `step 2` after its bounds, or one."""
        if not self.tokens.took("step"):
            return 1
        token = self.tokens.number("a number after `step`")
        if not 1 <= int(token.text) <= LONGEST_STEP:
            raise Breach(token, "number", f"the step is {token.text}", f"a loop goes on by 1 to {LONGEST_STEP}")
        return int(token.text)

    def choice(self, token: Token) -> If:
        """`if A == B { .. } else { .. }`, or with `!=`."""
        first = read_form(self.tokens, self.loops)
        if not self.tokens.is_at("==", "!="):
            raise Breach(self.tokens.here, "syntax", f"{said(self.tokens.here)} stands where `==` or `!=` is expected")
        is_equal = self.tokens.next().text == "=="
        made = If(token, first - read_form(self.tokens, self.loops))
        one, at = self.block(), self.tokens.at
        self.tokens.skip_lines()
        other = self.block() if self.tokens.took("else") else None
        if other is None:  # `else` may stand on a line of its own, and the lines are left where it does not
            self.tokens.at = at
        made.zero, made.other = (one, other or []) if is_equal else (other or [], one)
        return made

    def instruction(self, token: Token, kind: int) -> typing.Any:
        if kind in (AAP, AP):
            rows = [read_row(self.tokens, self.names, self.loops)]
            if kind == AAP:
                self.tokens.took(",")
                rows.append(read_row(self.tokens, self.names, self.loops))
            check_places(tuple(rows))
            return Command(token, kind, tuple(rows))
        if kind == BNEZ:
            register = read_register(self.tokens)
            self.tokens.took(",")
            return Jump(token, register, self.tokens.of_kind(TARGET, NAME, NUMBER))
        given = {}
        for operand in OPERANDS[kind]:
            self.tokens.took(",")
            given[FIELDS[operand]] = self.number() if operand == "k" else read_register(self.tokens)
        return Out(token, Instruction(kind, **given))

    def number(self) -> int:
        token = self.tokens.number("a number")
        if int(token.text) > LARGEST:
            raise Breach(token, "number", f"{token.text} is too great", f"a number is at most {LARGEST}")
        return int(token.text)


def goes_down(start, end) -> bool:
    """Whether a loop goes down: from a number to a lesser one, from a variable to a number, or from n to what is without n."""
    return start.times("n") > end.times("n") if end.terms else bool(start.terms) or start.number > end.number

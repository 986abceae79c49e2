"""Where an operation text breaks a rule of docs/LANGUAGE.md first, and what would be right there."""

import typing

from ..launcher.faults import Fault
from . import word_ops
from .answer import Breach, near, not_allowed
from .op_tree import Expr, Op, OpShape, StatementShape, gate, read
from .tokens import END, NAME, NAME_MAX, STRANGER, Token, no_token, tokens

RESERVED = ("op", "word", "bit", "serial", "up", "down", "let")
OPS, SOURCES, RESULTS, STATEMENTS, STATES, ASSIGNMENTS, LETS, WEIGHT, DEPTH = 32, 4, 2, 16, 8, 8, 16, 24, 32
OPERATORS = {"+": "add", "-": "sub", "*": "mul", "/": "div", "%": "rem", "&": "and", "|": "or", "^": "xor", "~": "not",
             "!": "not", ">": "gt", "<": "gt"}
VALUE = "`0`, `1`, a name, or a gate with its arguments"
NO_NEST = ("expressions do not nest in word statements: give the inner one a name in a statement before, "
           "such as `t = {}(..);`, and write the name here")


def listed(names) -> str:
    return ", ".join(names) or "none"


class Reader:
    """Reads a text token by token, as far as no rule is broken."""

    def __init__(self, data: bytes) -> None:
        self.tokens = tokens(data)
        self.at = 0
        self.shapes: list[OpShape] = []

    @property
    def shape(self) -> OpShape:
        return self.shapes[-1]

    def next(self) -> Token:
        return self.tokens[self.at]

    def stray(self, token: Token) -> Breach:
        """The fault of a byte that starts no token."""
        operation = OPERATORS.get(token.text)
        right = [f"there are no operator symbols; the operation is `{operation}(..)`"] if operation else []
        if token.text == "<":
            right = ["there are no operator symbols; a < b is `gt(b, a)`"]
        return Breach(token, "lex", no_token(token), *right)

    def take(self, wanted: str, *texts: str, name: bool = False) -> Token:
        """The next token, where it is a name or one of these texts."""
        token = self.next()
        if token.kind == STRANGER:
            raise self.stray(token)
        if not (token.kind == NAME and name) and not (token.text in texts and token.kind != END):
            raise self.unwanted(token, wanted)
        self.at += 1
        return token

    def unwanted(self, token: Token, wanted: str) -> Breach:
        right = []
        if token.text == "[":
            right.append("widths are not in the text: an operation is for every width, and the instruction that calls it gives n")
        if token.kind == "number" and "argument" in wanted:
            right.append("arguments are names: a constant is `zero()` or `ones()`, or an object that a script fills")
        if token.text == "(" and self.at and self.tokens[self.at - 1].text in word_ops.TAKES_GIVES and "argument" in wanted:
            right.append(NO_NEST.format(self.tokens[self.at - 1].text))
        return not_allowed(token, wanted, *right)

    def good_name(self, token: Token, what: str, is_taken: typing.Callable[[str], bool] = lambda _: False) -> str:
        """A new name that is not reserved, not too long and not taken."""
        if token.text in RESERVED:
            raise Breach(token, "bad_name", f"{token.text} is a reserved word: {listed(RESERVED)}", f"give {what} another name")
        if len(token.text) > NAME_MAX:
            raise Breach(token, "bad_name", f"a name has at most {NAME_MAX} bytes; this one has {len(token.text)}")
        if is_taken(token.text):
            raise Breach(token, "twice", f"{token.text} is already defined in this op; a name is assigned once",
                         f"defined names: {listed(self.shape.stands)}")
        return token.text

    def new_name(self, token: Token, what: str) -> str:
        """A name that may not stand yet, and stands from now on."""
        name = self.good_name(token, what, self.shape.stands.__contains__)
        self.shape.stands.append(name)
        return name

    @staticmethod
    def limit(token: Token, count: int, most: int, what: str) -> None:
        """Refuses one more of what there are so many of already."""
        if count >= most:
            raise Breach(token, "too_many", what.format(most))

    def read(self) -> None:
        while self.next().kind != END:
            token = self.take("the word `op` of one more op", "op")
            self.limit(token, len(self.shapes), OPS, "a text has at most {} ops")
            self.op(token)

    def op(self, first: Token) -> None:
        token = self.take("the op's name", name=True)
        name, earlier = self.good_name(token, "the op"), [one.name for one in self.shapes]
        if name == "trsp_init":
            raise Breach(token, "bad_name", "an op cannot be named trsp_init: bbop_trsp_init makes an object")
        if name in earlier:
            raise Breach(token, "twice", f"an op {name} is already defined", f"defined ops: {listed(earlier)}")
        self.shapes.append(OpShape(name, first))
        self.take("`(`", "(")
        self.sources()
        self.shape.sources = dict(self.shape.defined)
        self.take("`->`", "->")
        self.result()
        if self.take("`,` and a second result, or `{`", ",", "{").text == ",":
            self.result()
            self.take("`{`", "{")
        self.statements()

    def kind(self) -> str:
        self.take("`:`", ":")
        return self.take("`word` or `bit`", "word", "bit").text

    def sources(self) -> None:
        more = ","
        while more == ",":
            token = self.take("a parameter's name", name=True)
            name = self.new_name(token, "the parameter")
            self.limit(token, len(self.shape.defined), SOURCES, "an op has at most {} parameters")
            self.shape.defined[name] = self.kind()
            more = self.take("`,` and one more parameter, or `)`", ",", ")").text

    def result(self) -> None:
        name = self.new_name(self.take("the result's name", name=True), "the result")
        self.shape.results[name] = self.kind()

    def statements(self) -> None:
        wanted = "a statement, `name = operation(..);` or `serial up (..) { .. }`"
        while True:
            token = self.take(wanted, *(["}"] if self.shape.statements else []), name=True)
            if token.text == "}":
                self.shape.last = token
                break
            wanted = "one more statement, or `}`"
            self.shape.statements.append(StatementShape(token))
            self.statement(token)
            self.shape.last_statement.last = self.tokens[self.at - 1]
        if still := [name for name in self.shape.results if self.shape.is_open_result(name)]:
            raise Breach(token, "no_result", f"{listed(still)} of op {self.shape.name} is a result and was not assigned",
                         f"assign it before this `}}`, as in `{still[0]} = copy(..);`")

    def statement(self, token: Token) -> None:
        name = "" if token.text == "serial" else self.good_name(token, "the target", self.shape.is_taken_name)
        self.limit(token, len(self.shape.statements) - 1, STATEMENTS, "an op has at most {} statements")
        if name:
            self.word_statement(name)
        else:
            self.block()

    def word_statement(self, first: str) -> None:
        targets = [first]
        if self.take("`=`, or `,` and a second target", ",", "=").text == ",":
            token = self.take("the second target's name", name=True)
            targets.append(self.good_name(token, "the second target", lambda name: name == first or self.shape.is_taken_name(name)))
            self.take("`=`", "=")
        operation = self.operation(targets)
        self.take("`(`", "(")
        given = self.arguments(operation)
        self.shape.last_statement.operation = operation
        self.word_end(targets, word_ops.filled(operation, given))

    def operation(self, targets: list[str]) -> str:
        token = self.take("a word operation's name", name=True)
        name = self.good_name(token, "the operation")
        if name not in word_ops.TAKES_GIVES:
            right = [f"the word operations: {listed(word_ops.TAKES_GIVES)}"]
            sign = OPERATORS.get(self.next().text)
            if sign and self.next().kind == STRANGER:
                right.insert(0, f"there are no operator symbols: the statement is `{listed(targets)} = {sign}({name}, ..);`")
            elif name in self.shape.defined:
                right.insert(0, f"{name} is a name: a copy of it is `copy({name})`")
            if name in word_ops.GATES:
                right.insert(0, f"{name} is a gate of serial blocks")
            raise Breach(token, "unknown", f"there is no word operation {name}{near(name, word_ops.TAKES_GIVES)}", *right)
        gives = len(word_ops.TAKES_GIVES[name][1])
        if len(targets) != gives:
            raise Breach(token, "kind", f"{name} gives {gives} value{'s' * (gives > 1)}; the statement has {len(targets)} "
                         f"target{'s' * (len(targets) > 1)}", word_ops.said(name))
        return name

    def arguments(self, operation: str) -> list[str]:
        """The kinds of the arguments, with the parenthesis after them."""
        given: list[str] = []
        token = self.take("an argument's name, or `)`", ")", name=True)
        while token.text != ")":
            given.append(self.argument(operation, given, token))
            token = self.take("`,` and one more argument, or `)`", ",", ")")
            if token.text == ",":
                if not word_ops.wants_more(operation, given):
                    raise Breach(token, "kind", f"{operation} takes no further argument", word_ops.said(operation))
                token = self.take("an argument's name", name=True)
        if word_ops.filled(operation, given) is None:
            raise Breach(token, "kind", f"{operation} has too few arguments: {len(given)}", word_ops.said(operation))
        return given

    def argument(self, operation: str, given: list[str], token: Token) -> str:
        """The kind of an argument that stands."""
        name = self.good_name(token, "the argument")
        if (kind := self.shape.defined.get(name)) is None:
            right = [f"defined names: {listed(self.shape.defined)}"]
            if self.next().text == "(" and name in word_ops.TAKES_GIVES:
                right.insert(0, NO_NEST.format(name))
            elif self.shape.is_open_result(name):
                right.insert(0, f"{name} is a result that is not assigned yet")
            raise Breach(token, "unknown", f"no name {name} is defined before this{near(name, self.shape.defined)}", *right)
        if not word_ops.may_take(operation, given, kind):
            other = "bit" if kind == "word" else "word"
            wanted = f"a {other}" if word_ops.may_take(operation, given, other) else "no argument"
            raise Breach(token, "kind", f"{name} is a {kind}; {operation} takes {wanted} here", word_ops.said(operation))
        self.shape.last_statement.args.append(name)
        return kind

    def word_end(self, targets: list[str], gives: list[str]) -> None:
        token = self.take("`;`", ";")
        for name, kind in zip(targets, gives):
            wanted = self.shape.results.get(name)
            if wanted is not None and wanted != kind:
                raise Breach(token, "kind", f"the result {name} is a {wanted}; the operation returns a {kind}",
                             f"declare `{name}: {kind}`, or give the value another name")
        self.shape.last_statement.targets = targets
        for name, kind in zip(targets, gives):
            self.shape.stands.append(name)
            self.shape.defined.setdefault(name, kind)

    def block(self) -> None:
        self.shape.last_statement.direction = self.take("`up` or `down`", "up", "down").text
        self.take("`(`", "(")
        token = self.take("a state, or `)`", ")", name=True)
        while token.text != ")":
            self.state(token)
            if self.take("`,` and one more state, or `)`", ",", ")").text == ")":
                break
            token = self.take("a state's name", name=True)
        self.take("`{`", "{")
        token = self.take("`let`, or the target of an assignment", name=True)
        while token.text == "let":
            self.let(token)
            token = self.take("`let`, or the target of an assignment", name=True)
        while token.text != "}":
            self.assignment(token)
            token = self.take("the target of one more assignment, or `}`", "}", name=True)
        self.shape.end_block()

    def state(self, token: Token) -> None:
        name, starts = self.good_name(token, "the state", self.shape.is_taken_state), self.shape.last_statement.starts
        self.limit(token, len(starts), STATES, "a block has at most {} states")
        self.shape.stands.append(name)
        self.take("`=`", "=")
        starts[name] = self.take("`0` or `1`", "0", "1").text

    def let(self, token: Token) -> None:
        lets = self.shape.last_statement.lets
        self.limit(token, len(lets), LETS, "a block has at most {} lets")
        name = self.new_name(self.take("the let's name", name=True), "the let")
        lets[name] = self.right_side()

    def assignment(self, token: Token) -> None:
        name, block = self.good_name(token, "the target", self.shape.is_taken_target), self.shape.last_statement
        if self.shape.results.get(name) == "bit" and name not in block.starts:
            raise Breach(token, "kind", f"{name} is a bit result; a block can return a bit only as a state",
                         f"make it a state of the block, `({name} = 0)`: after the block it is the result")
        self.limit(token, len(block.assignments), ASSIGNMENTS, "a block has at most {} assignments")
        block.assignments[name] = self.right_side()

    def right_side(self) -> Expr:
        self.take("`=`", "=")
        found = self.value(0)
        self.take("`;`", ";")
        return found

    def value(self, depth: int) -> Expr:
        """A value inside so many gates."""
        token = self.take(VALUE, "0", "1", name=True)
        if token.kind != NAME:
            return gate(token.text)
        self.good_name(token, "the value")
        if self.next().text == "(":
            return self.gate(token, depth)
        known = list(dict.fromkeys([*self.shape.defined, *self.shape.last_statement.starts, *self.shape.last_statement.lets]))
        if token.text not in known:
            right = [f"defined names: {listed(known)}"]
            if token.text in word_ops.GATES:
                right.insert(0, f"{token.text} is a gate: `{token.text}(..)`")
            raise Breach(token, "unknown", f"no name {token.text} is defined before this{near(token.text, known)}", *right)
        return read(token.text)

    def gate(self, token: Token, depth: int) -> Expr:
        """A gate inside so many others."""
        name, block = token.text, self.shape.last_statement
        if name not in word_ops.GATES:
            right = [f"the gates: {listed(word_ops.GATES)}"]
            if name in word_ops.TAKES_GIVES:
                right.insert(0, f"{name} is a word operation: it needs a statement of its own, outside of blocks")
            raise Breach(token, "unknown", f"there is no gate {name}{near(name, word_ops.GATES)}", *right)
        block.weight += word_ops.WEIGHTS[name]
        self.limit(token, block.weight - 1, WEIGHT, "the gates of a block weigh at most {}: and, or, maj 1 each, xor 3, not 0")
        self.limit(token, depth, DEPTH, "gates nest at most {} deep")
        self.take("`(`", "(")
        args, takes = [self.value(depth + 1)], word_ops.GATES[name]
        while True:
            after = self.take("`,` and one more argument, or `)`", ",", ")")
            if after.text == ")":
                break
            if len(args) == takes:
                raise Breach(after, "kind", f"{name} takes no further argument", f"{name} takes {takes}")
            args.append(self.value(depth + 1))
        if len(args) < takes:
            raise Breach(after, "kind", f"{name} has too few arguments", f"{name} takes {takes}")
        return gate(name, *args)


def read_shapes(data: bytes) -> list[OpShape]:
    """What a text that the program accepts says of each op."""
    reader = Reader(data)
    reader.read()
    return reader.shapes


def read_ops(data: bytes) -> list[Op]:
    """The ops of a text that the program accepts, as trees."""
    return [shape.tree() for shape in read_shapes(data)]


def shapes_of(path: str, data: bytes) -> list[OpShape]:
    """What an operation text says of each op."""
    try:
        return read_shapes(data)
    except Breach as breach:
        raise breach.fault(path, data) from None


def op_shape(path: str, data: bytes, name: str) -> OpShape:
    shapes = shapes_of(path, data)
    if (found := next((shape for shape in shapes if shape.name == name), None)) is None:
        raise Fault(f"{path} has no op {name}: it has {listed(shape.name for shape in shapes)}")
    return found

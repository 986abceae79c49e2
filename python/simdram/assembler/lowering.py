"""From statements to an entry: loops, choices and subscripts become instructions on registers, and labels places."""

import contextlib
import dataclasses
import typing

from ..files.program import ADD, ADDI, BNEZ, CODE, DONE, LARGEST, MOV, REGISTERS, SETI, SETN, SETT, SUBI, Entry, Instruction, Row
from ..rules.answer import Breach
from ..rules.tokens import NUMBER, Token
from .forms import N, Form
from .registers import least, needs_of, tested
from .tree import Command, For, Head, If, Jump, Label, Next, Numbered, Operand, Out, ProgramText

# the label where a program for one width is stuck at others
WRONG_WIDTH = ".wrong_width"


class Frame(typing.NamedTuple):
    """A loop that is being written: the register of its count, those of its subscripts with their steps, its end."""

    loop: For
    count: int
    steps: dict[int, int]
    end: str


def lowered(program: ProgramText) -> "Lowering":
    """The instructions of a program, and its labels. Where there are too few registers for subscripts that are no loop's to
    keep one each, they are set before each command that needs them."""
    try:
        return Lowering(program).whole()
    except Breach as fault:
        if fault.kind == "register":
            with contextlib.suppress(Breach):
                return Lowering(program, is_lean=True).whole()
        raise


class Lowering:
    """The instructions of a program as they are written, and the places of its labels."""

    def __init__(self, program: ProgramText, is_lean: bool = False) -> None:
        self.program, self.is_lean = program, is_lean
        # subscripts that are no loop's and stand in registers until these are needed, or the code can be jumped to
        self.kept: dict[Form, int] = {}
        # what registers hold; those that the program names itself are not given out
        self.holds = {register: "the program names it" for register in program.registers}
        self.code: list[Out] = []
        self.labels: dict[str, int] = {}
        self.held: dict[Form, int] = {}
        self.frames: list[Frame] = []
        self.around: list[For | If] = []
        self.token = program.head.token

    def whole(self) -> "Lowering":
        """The program. A subscript without loop variables has a register from the first statement that has it to the last;
        where there are labels, from the start to the end."""
        body, stuck = self.program.body, self.check_width()
        has_labels = any(isinstance(one, Label) for one in body)
        # from which statement to which each form has its register
        spans: dict[Form, tuple[int, int]] = {}
        for k, one in enumerate(body):
            for form in needs_of([one], []).of([]) if not self.is_lean else ():
                spans[form] = (0, len(body)) if has_labels else (spans.get(form, (k, k))[0], k)
        for k, one in enumerate(body):
            for form in (form for form, (first, _) in spans.items() if first == k):
                self.hold(form, form, one.token)
            self.statement(one)
            for form in (form for form, (_, last) in spans.items() if last == k):
                self.free(self.held.pop(form))
        if not self.code or self.code[-1].made.kind != DONE or len(self.code) in self.labels.values():
            self.emit(DONE)
        if stuck is not None:
            self.place(WRONG_WIDTH)
            self.emit(SUBI, stuck, LARGEST)
            self.emit(DONE)
        return self

    def check_width(self) -> int | None:
        """A program for one width begins with instructions at which it is stuck at all others (`one_width` knows them again); the
        register that they use."""
        if self.program.head.width is None:
            return None
        register = self.take(self.token, "the width")
        self.emit(SETN, register)
        self.emit(SUBI, register, self.program.head.width)
        self.labels[WRONG_WIDTH] = -1
        self.branch(register, WRONG_WIDTH)
        self.free(register)
        return register

    def take(self, token: Token, what: str) -> int:
        """A free register for something: where there is none, that of a subscript that is kept."""
        if self.kept and len(self.holds) == REGISTERS:
            self.free(self.kept.pop(next(iter(self.kept))))
        if (free := next((register for register in range(REGISTERS) if register not in self.holds), None)) is None:
            held = ", ".join(f"r{register} {said}" for register, said in sorted(self.holds.items()))
            raise Breach(token, "register", f"there is no register left for {what}: {held}",
                         "fewer subscripts in one loop, or fewer loops in each other, take fewer registers")
        self.holds[free] = what
        return free

    def free(self, register: int) -> None:
        del self.holds[register]

    def emit(self, kind: int, register: int = 0, number: int = 0, other: int = 0, rows: tuple[Row, ...] = ()) -> None:
        self.code.append(Out(self.token, Instruction(kind, register, number, other, rows)))

    def branch(self, register: int, label: str) -> None:
        self.code.append(Out(self.token, Instruction(BNEZ, register), label))

    def new_label(self) -> str:
        """A label that no text can name; it is placed later."""
        self.labels[f".{len(self.labels)}"] = -1
        return f".{len(self.labels) - 1}"

    def place(self, label: str) -> None:
        """A label stands before the next instruction, where nothing is known of registers that are set before a command."""
        for register in self.kept.values():
            self.free(register)
        self.kept.clear()
        self.labels[label] = len(self.code)

    def statements(self, body: typing.Iterable[typing.Any]) -> None:
        for one in body:
            self.statement(one)

    def statement(self, one: typing.Any) -> None:
        self.token = one.token
        WRITERS[type(one)](self, one)

    def numbered(self, one: Numbered) -> None:
        if one.token.text != str(len(self.code)):
            raise Breach(one.token, "number", f"this is instruction {len(self.code)}", "numbers may be left out")

    def command(self, one: Command) -> None:
        rows = tuple(map(self.row, one.rows))
        forms = {operand.index for operand in one.rows if isinstance(operand.index, Form)}
        if len({row.index for row, operand in zip(rows, one.rows) if isinstance(operand.index, Form)}) < len(forms):
            raise Breach(one.token, "register", "there is one register left for two subscripts")
        self.emit(one.kind, rows=rows)

    def row(self, operand: Operand) -> Row:
        """A row with the register of its subscript."""
        index = operand.index
        if index is None or isinstance(index, int):
            return Row(operand.space, operand.which, index or 0)
        register = REGISTERS if index == Form() else self.held[index] if index in self.held else self.keep(index, operand.token)
        return Row(operand.space, operand.which, register)

    def keep(self, form: Form, token: Token) -> int:
        """A register that holds a subscript that is no loop's, set now where none does."""
        register = self.kept.pop(form) if form in self.kept else self.loaded(form, form, token)
        self.kept[form] = register
        return register

    def jump(self, one: Jump) -> None:
        """A jump to a label of the text; one that is always done needs a register that is not zero."""
        if self.is_lean and one.target.kind == NUMBER:
            raise Breach(one.target, "register", "a jump to a number leads where no label shows what registers hold")
        if (register := one.register) is None:
            register = self.take(one.token, "a jump")
            self.emit(SETI, register, 1)
            self.free(register)
        self.token = one.target
        self.branch(register, one.target.text)

    def leave(self, register: int, end: str) -> None:
        """Leads to a place where a register is zero, which is then used no more."""
        more = self.new_label()
        self.branch(register, more)
        self.emit(SETI, register, 1)
        self.branch(register, end)
        self.place(more)

    def add(self, register: int, number: int) -> None:
        if abs(number) > LARGEST:
            raise Breach(self.token, "number", f"{number} is added here", f"registers hold 0 to {LARGEST}")
        if number:
            self.emit(ADDI if number > 0 else SUBI, register, abs(number))

    def load(self, register: int, form: Form) -> None:
        """Sets a register to a form, by one that holds it but for a number, or from n."""
        near = next((held for held in self.held if held.terms == form.terms and form.variables), None)
        if near is not None:
            self.emit(MOV, register, other=self.held[near])
            self.add(register, form.number - near.number)
        elif not form.terms and 0 <= form.number <= LARGEST:
            self.emit(SETI, register, form.number)
        elif form.terms == ((N, 1),) and form.number < 0:
            self.emit(SETT, register)
            self.add(register, form.number + 1)
        elif form.terms in (((N, 1),), ((N, 2),)):
            self.emit(SETN, register)
            if form.terms == ((N, 2),):
                self.emit(ADD, register, other=register)
            self.add(register, form.number)
        else:
            raise Breach(self.token, "number", f"no register can be set to {form}", "registers hold 0 to 1023, n, and what "
                            "loops count in them")

    def loaded(self, form: Form, value: Form, token: Token) -> int:
        """A free register for a form, which begins with a value."""
        register = self.take(token, f"holds {form}")
        self.load(register, value)
        return register

    def hold(self, form: Form, value: Form, token: Token) -> None:
        self.token = token
        self.held[form] = self.loaded(form, value, token)

    def loop(self, loop: For) -> None:
        """A loop: its count in a register, and a register for each form that its body needs. What goes up is counted at the end
        of an iteration, what goes down at the start, so that no register falls below zero."""
        count = self.take(loop.token, f"counts the loop over {loop.variable}")
        end, body = self.new_label(), self.new_label()
        self.load_count(loop, count, end)
        self.around.append(loop)
        forms = needs_of(loop.body, self.around).of(self.around)
        steps = {form: form.times(loop.variable) * (-loop.step if loop.is_down else loop.step) for form in forms}
        starts = {form: form.put(loop.variable, loop.start) + max(0, -steps[form]) for form in forms}
        for form in forms:
            self.hold(form, starts[form], loop.token)
        frame = Frame(loop, count, {self.held[form]: step for form, step in steps.items()}, end)
        self.frames.append(frame)
        self.place(body)
        self.step(frame, -1)
        self.statements(loop.body)
        self.token = loop.token
        self.step(frame, 1)
        self.count_down(frame)
        self.branch(count, body)
        self.place(end)
        self.frames.pop()
        self.around.pop()
        for form in forms:
            self.free(self.held.pop(form))
        self.free(count)

    def load_count(self, loop: For, count: int, end: str) -> None:
        """Sets a register to the number of iterations, and leads past the loop where there is none."""
        self.token = loop.token
        fewest = least(loop.count, self.around)
        below = max(0, -fewest)
        self.load(count, loop.count + below)
        for _ in range(below):
            self.leave(count, end)
            self.emit(SUBI, count, 1)
        if fewest <= 0:
            self.leave(count, end)

    def step(self, frame: Frame, sign: int) -> None:
        """The subscripts that go up, or those that go down, go on by one iteration."""
        for register, step in frame.steps.items():
            if step * sign > 0:
                self.add(register, step)

    def count_down(self, frame: Frame) -> None:
        """The positions of an iteration are taken from the count, which may end among them."""
        for _ in range(frame.loop.step - 1):
            self.emit(SUBI, frame.count, 1)
            self.leave(frame.count, frame.end)
        self.emit(SUBI, frame.count, 1)

    def next(self, _one: Next) -> None:
        """The next iteration, in the middle of the body."""
        frame = self.frames[-1]
        self.step(frame, 1)
        self.count_down(frame)
        self.leave(frame.count, frame.end)
        self.step(frame, -1)

    def compare(self, register: int, number: int, other: str) -> None:
        """Takes a number from a register, one by one, and leads to a place where that cannot be done."""
        left = self.take(self.token, "an `if`")
        again, more = self.new_label(), self.new_label()
        self.emit(SETI, left, number)
        self.place(again)
        self.branch(register, more)
        self.branch(left, other)
        self.place(more)
        self.emit(SUBI, register, 1)
        self.emit(SUBI, left, 1)
        self.branch(left, again)
        self.free(left)

    def choice(self, one: If) -> None:
        """What is done where a form is zero, and what where it is not."""
        register = self.take(one.token, "an `if`")
        other, end = self.new_label(), self.new_label()
        form, number = tested(one, self.around)
        self.load(register, form)
        if number is not None:
            self.compare(register, number, other if one.other else end)
        self.branch(register, other if one.other else end)
        self.free(register)
        self.statements(one.zero)
        if one.other:
            self.token = one.token
            past = self.take(one.token, "an `if`")
            self.emit(SETI, past, 1)
            self.branch(past, end)
            self.free(past)
            self.place(other)
            self.around.append(one)
            self.statements(one.other)
            self.around.pop()
        self.place(end)


# of each kind of statement what writes its instructions
WRITERS: dict[type, typing.Callable[[Lowering, typing.Any], None]] = {
    Command: Lowering.command, Jump: Lowering.jump, For: Lowering.loop, If: Lowering.choice, Next: Lowering.next, Numbered: Lowering.numbered,
    Out: lambda made, one: made.code.append(one), Label: lambda made, one: made.place(one.token.text),
}


def target(one: Out, labels: dict[str, int], size: int) -> int:
    """The instruction that a jump leads to."""
    if one.token.kind == NUMBER and one.label == one.token.text:
        if int(one.token.text) >= size:
            raise Breach(one.token, "target", f"there is no instruction {one.token.text}", f"the program has {size} instructions, 0 "
                            f"to {size - 1}")
        return int(one.token.text)
    if one.label not in labels:
        known = ", ".join(name for name in labels if not name.startswith("."))
        right = f"the labels are {known}" if known else f"a label is written as `{one.label}:` before an instruction"
        raise Breach(one.token, "target", f"there is no label {one.label} in this program", right)
    return labels[one.label]


def entry_of(head: Head, made: Lowering) -> Entry:
    size, said = len(made.code), made.program.code
    if size > CODE[1]:
        raise Breach(head.token, "head", f"the program has {size} instructions", f"a program has at most {CODE[1]}")
    if said is not None and int(said.text) != size:
        raise Breach(said, "head", f"the program has {size} instructions", f"`code={size}`")
    code = tuple(dataclasses.replace(one.made, number=target(one, made.labels, size)) if one.label else one.made for one in made.code)
    return Entry(head.name, tuple(head.sources.values()), tuple(head.results.values()), len(head.bits), len(head.words), code)

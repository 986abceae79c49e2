"""Scripts and texts of flips: what they say, and the first line that breaks a rule of docs/FORMATS.md."""

import dataclasses
import typing

from ..files.image import Table
from ..files.store import load
from ..launcher.words import nearest
from .answer import Breach
from .operands import WIDTH_MAX, Operand, operand_at
from .tokens import END, NAME, NAME_MAX, NUMBER, STRANGER, Token, no_token, tokens, value_of

FORMS = {
    "bbop_trsp_init": "bbop_trsp_init NAME, COUNT, N",
    "bbop": "bbop_OP OPERAND, OPERAND, .., COUNT, N",
    "load": "load OPERAND, V, ..",
    "fill": "fill OPERAND, V",
    "print": "print OPERAND",
    "free": "free NAME",
    "order": "order in, order turns or order seed K",
}
# of each verb how many operands and how many numbers it takes, from the least to the greatest
SHAPES = {"bbop_trsp_init": (1, 1, 2, 2), "bbop": (2, 6, 2, 2), "load": (1, 1, 1, None), "fill": (1, 1, 1, 1),
          "print": (1, 1, 0, 0), "free": (1, 1, 0, 0)}
# those that take objects by their names alone
WHOLE = ("bbop_trsp_init", "free")
COUNT_MAX, VALUE_MAX, SEED_MAX = 2**32 - 1, 2**128 - 1, 2**64 - 1
ALL_FORMS = "forms: " + "; ".join(FORMS.values())


@dataclasses.dataclass(frozen=True)
class Instruction:
    """An instruction: its verb, its first token, its operands and its numbers."""

    verb: str
    head: Token
    operands: tuple[Operand, ...] = ()
    numbers: tuple[Token, ...] = ()

    @property
    def op(self) -> str:
        return self.head.text[len("bbop_"):]

    def number(self, k: int) -> int:
        return value_of(self.numbers[k].text)


def verb_of(head: Token) -> str:
    """What the first name of a line says that it is."""
    text = head.text
    if text in FORMS and text != "bbop":
        return text
    if text.startswith("bbop_"):
        return "bbop"
    near = nearest(text, [*FORMS, f"bbop_{text}"])
    raise Breach(head, "syntax", f"no instruction begins with {text}", f"did you mean {' or '.join(near)}?" if near else ALL_FORMS,
                 f"an operation is run by bbop_ and its name, such as bbop_{text} Y, A, B, COUNT, N")


def form_of(verb: str) -> str:
    """The form of an instruction, as what would be right."""
    form = FORMS[verb]
    return f"form: {form}{'; OPERAND is NAME, NAME[K] or NAME[LO:HI]' if 'OPERAND' in form else ''}"


def operands_of(verb: str, words: list[Token]) -> tuple[list[Operand], list[Token]]:
    """The operands and then the numbers, with commas between them."""
    operands: list[Operand] = []
    numbers: list[Token] = []
    at, form = 0, form_of(verb)
    while words[at].kind != END:
        token = words[at]
        if token.kind == NAME and not numbers:
            operand, at = operand_at(words, at)
            operands.append(operand)
        elif token.kind == NUMBER:
            numbers.append(token)
            at += 1
        else:
            what = "a name after a number" if token.kind == NAME else f"`{token.text}` where a name or a number is expected"
            raise Breach(token, "syntax", what, form)
        at = after_comma(words, at, form)
    return operands, numbers


def after_comma(words: list[Token], at: int, form: str) -> int:
    """The place after the comma that stands here, or that of the line's end."""
    token, before = words[at], words[at - 1]
    if token.kind == END:
        return at
    if token.text != ",":
        is_digits = before.kind == NUMBER and token.kind == NAME and token.at == before.at + len(before.text)
        decimal = [f"numbers are written in decimal digits, and `{before.text}{token.text}` is none"] if is_digits else []
        raise Breach(token, "syntax", f"`{token.text}` where a comma or the end of the line is expected", *decimal, form)
    if words[at + 1].kind == END:
        raise Breach(words[at + 1], "syntax", "the line ends after a comma", form)
    return at + 1


def check_shape(verb: str, operands: list[Operand], numbers: list[Token], end: Token) -> None:
    """Whether there are as many operands and numbers as the form has, and bits only where they may stand."""
    least, most, fewest, greatest = SHAPES[verb]
    form, names = form_of(verb), [one.name for one in operands]
    if verb in WHOLE and operands and operands[0].ends:
        raise Breach(operands[0].ends[0], "syntax", f"{verb} takes an object by its name alone, and not bits of it", form)
    for what, given, few, many, after in (("name", names, least, most, (numbers or [end])[0]), ("number", numbers, fewest, greatest, end)):
        if many is not None and len(given) > many:
            raise Breach(given[many], "syntax", f"one {what} too many: {verb} takes {many}", form)
        if len(given) < few:
            raise Breach(after, "syntax", f"{len(given) or 'no'} {what}{'s' * (len(given) != 1)} where {few} "
                         f"{'is' if few == 1 else 'are'} expected", form)


def check_range(token: Token, least: int, most: int, what: str) -> None:
    if not least <= value_of(token.text) <= most:
        raise Breach(token, "bad_number", f"{what} is {least} to {most}")


def check_words(one: Instruction) -> None:
    """Whether the names are short enough and the operation's name is one, and then whether each number may stand where it does."""
    if one.verb == "bbop" and (not one.op or one.op[0].isdigit() or len(one.op) > NAME_MAX):
        raise Breach(one.head, "bad_name", f"bbop_ is followed by the name of an operation, of 1 to {NAME_MAX} bytes")
    for check in (Operand.check_name, Operand.check_bits):
        for operand in one.operands:
            check(operand)
    if one.verb in ("bbop", "bbop_trsp_init"):
        check_range(one.numbers[0], 1, COUNT_MAX, "COUNT, the number of elements,")
        check_range(one.numbers[1], 1, WIDTH_MAX, "N, the width,")
    elif one.verb in ("load", "fill"):
        for token in one.numbers:
            check_range(token, 0, VALUE_MAX, "a value")


def order_of(head: Token, words: list[Token]) -> Instruction:
    texts = [token.text for token in words[:-1]]
    if texts in (["in"], ["turns"]):
        return Instruction("order", head)
    if len(texts) == 2 and texts[0] == "seed" and words[1].kind == NUMBER:
        check_range(words[1], 0, SEED_MAX, "a seed")
        return Instruction("order", head, (), (words[1],))
    known = texts[:1] in (["in"], ["turns"], ["seed"])
    raise Breach(words[1] if known else words[0], "syntax", "there is no such order", f"form: {FORMS['order']}")


def instruction_of(line: list[Token]) -> Instruction | None:
    """What a line says: an instruction, or nothing where it has no token."""
    if line[-1].kind == STRANGER:
        raise Breach(line[-1], "lex", no_token(line[-1]), *(["numbers are at least 0"] if line[-1].text == "-" else []))
    head, words = line[0], line[1:]
    if head.kind == END:
        return None
    if head.kind != NAME:
        raise Breach(head, "syntax", "a line begins with an instruction's name", ALL_FORMS)
    if head.text == "order":
        return order_of(head, words)
    verb = verb_of(head)
    operands, numbers = operands_of(verb, words)
    check_shape(verb, operands, numbers, line[-1])
    one = Instruction(verb, head, tuple(operands), tuple(numbers))
    check_words(one)
    return one


def lines_of(data: bytes) -> typing.Iterator[list[Token]]:
    """The tokens of each line, with their places in the whole text."""
    start = 0
    for text in data.split(b"\n"):
        yield [token._replace(at=token.at + start) for token in tokens(text)]
        start += len(text) + 1


def read_script(data: bytes) -> list[Instruction]:
    return list(filter(None, map(instruction_of, lines_of(data))))


def loaded_script(path: str) -> tuple[list[Instruction], bytes]:
    """The instructions of a script's file, and its bytes."""
    data = load(path, "script")
    try:
        return read_script(data), data
    except Breach as breach:
        raise breach.fault(path, data) from None


FLIPS_FORM = "form: K BANK ROW COLUMN, four numbers without commas"


def check_line(line, least: int, instructions: int, table: Table) -> int:
    """The K of a line, or the K before it where the line has no token."""
    if line[-1].kind == STRANGER:
        raise Breach(line[-1], "lex", no_token(line[-1]), FLIPS_FORM)
    if not (words := line[:-1]):
        return least
    other = next((token for token in words if token.kind != NUMBER), None)
    if other or len(words) != 4:
        raise Breach(other or (words[4] if len(words) > 4 else line[-1]), "syntax", "a line has four numbers or is empty", FLIPS_FORM)
    limits = ((least, instructions + 1, "K, before which instruction,"), (0, table.banks - 1, "BANK"), (0, table.rows - 1, "ROW"),
              (0, 64 * table.words - 1, "COLUMN"))
    for token, (low, high, what) in zip(words, limits):
        if not low <= value_of(token.text) <= high:
            after = f", and at least {least}, the K of the line before" if what.startswith("K") and least > 1 else ""
            raise Breach(token, "number", f"{what} is {min(low, high)} to {high} here{after}")
    return value_of(words[0].text)


def check_flips(data: bytes, instructions: int, table: Table) -> None:
    """Refuses the first line that breaks a rule, for a script of so many instructions and an image."""
    least = 1
    for line in lines_of(data):
        least = check_line(line, least, instructions, table)

"""Program files: entries, each with its operands, its scratch and its microprogram."""

import dataclasses
import re
import typing

from ..launcher.faults import FileFault
from . import decode
from .fields import Fields, name_field
from .store import load

MAGIC = b"SDMP"
REGISTERS, SPILLS, CONSTANTS = 8, 32, 2
B_ADDRESS, C_ADDRESS, RESULT, SOURCE, BIT, WORD, SPILL = range(7)
INDEXED = (RESULT, SOURCE, WORD)
SPACES = ("B address", "C address", "result", "source", "bit of scratch", "word of scratch", "spill row")
# the first word of a text, after comments
FIRST_WORD = re.compile(rb"(?:[ \t\r\n]+|#[^\n]*)*([A-Za-z_]\w*)")
ENTRIES, SOURCES, CODE, LARGEST = 32, (1, 4), (1, 65535), 1023
NAMES = ("DONE", "SETI", "SETN", "SETT", "MOV", "ADD", "ADDI", "SUBI", "BNEZ", "AAP", "AP")
DONE, SETI, SETN, SETT, MOV, ADD, ADDI, SUBI, BNEZ, AAP, AP = range(len(NAMES))
# of each instruction, its operands: r a register in byte 1, s one in byte 2, k a number and t a target in bytes 2 and 3
OPERANDS = ("", "rk", "r", "r", "rs", "rs", "rk", "rk", "rt", "xy", "x")
# of each instruction, the bytes that are named
NAMED = (1, 4, 2, 2, 3, 3, 4, 4, 4, 7, 4)


class Row(typing.NamedTuple):
    """A row of a command: its space, which one of it, and the register of its index, or 8 for index 0."""

    space: int
    which: int
    index: int

    @property
    def is_data(self) -> bool:
        """Whether it is a row of an operand or of scratch, and no address of the designated or the constant rows."""
        return self.space not in (B_ADDRESS, C_ADDRESS)

    def __str__(self) -> str:
        """Its name in a listing."""
        name = ("B{}", "C{}", "yz", "s{}", "t{}", "w{}", "p{}")[self.space]
        name = name[self.which] if self.space == RESULT else name.format(self.which)
        index = "0" if self.index == REGISTERS else f"r{self.index}"
        return f"{name}[{index}]" if self.space in INDEXED else name


@dataclasses.dataclass(frozen=True)
class Instruction:
    """An instruction: its kind, its register, the number or the target of bytes 2 and 3, the other register of byte 2, and its one or
    two rows where it is a command."""

    kind: int
    register: int = 0
    number: int = 0
    other: int = 0
    rows: tuple[Row, ...] = ()

    @classmethod
    def read(cls, raw: bytes) -> "Instruction":
        """The instruction of eight bytes."""
        operands = OPERANDS[raw[0]]
        if "x" in operands:
            return cls(raw[0], rows=tuple(Row(*raw[at:at + 3]) for at in (1, 4)[:len(operands)]))
        return cls(raw[0], raw[1], *((0, raw[2]) if "s" in operands else (raw[2] | raw[3] << 8, 0)))

    def file(self) -> bytes:
        second = bytes([self.other]) if "s" in OPERANDS[self.kind] else self.number.to_bytes(2, "little")
        operands = b"".join(map(bytes, self.rows)) or bytes([self.register]) + second
        return (bytes([self.kind]) + operands).ljust(8, b"\0")

    @property
    def name(self) -> str:
        return NAMES[self.kind]

    def text(self, row_text: typing.Callable[[Row], str], target_text: typing.Callable[[int], str]) -> str:
        """Its text, with names for its rows and for where it jumps."""
        texts = {"r": f"r{self.register}", "s": f"r{self.other}", "k": str(self.number), **dict(zip("xy", map(row_text, self.rows)))}
        return " ".join([self.name, *(target_text(self.number) if one == "t" else texts[one] for one in OPERANDS[self.kind])])

    def __str__(self) -> str:
        """Its text in a listing."""
        return self.text(str, str)


@dataclasses.dataclass(frozen=True)
class Entry:
    """An entry: its operands by kind (`word` or `bit`), its scratch rows and words, and its code."""

    name: str
    sources: tuple[str, ...]
    results: tuple[str, ...]
    bits: int
    words: int
    code: tuple[Instruction, ...] = ()

    @property
    def kinds(self) -> int:
        byte = sum(1 << bit for bit, kind in enumerate(self.sources) if kind == "word")
        byte |= (self.results[0] == "word") << 4
        if len(self.results) == 2:
            byte |= 1 << 5 | (self.results[1] == "word") << 6
        return byte


@dataclasses.dataclass
class Program:
    """A program: the version of its file, and its entries in order."""

    entries: list[Entry]
    version: int = 2

    @classmethod
    def read(cls, data: bytes, path: str = "program") -> "Program":
        """The program of a file's bytes; what is no program file is refused at the first field that breaks its rule."""
        fields = Fields(data, path)
        try:
            fields.magic(MAGIC, "program")
        except FileFault as fault:
            raise FileFault(path, fault.place, fault.word, fault.what + text_hint(data)) from None
        version = fields.within(2, 1, 2, "version", "the version")
        heads = read_directory(fields, version)
        entries = [dataclasses.replace(head, code=tuple(read_instruction(fields, head, count, at) for at in range(count)))
                   for head, count in heads]
        fields.end()
        return cls(entries, version)

    @classmethod
    def load(cls, path: str) -> "Program":
        return cls.read(load(path, "program"), path)

    def file(self) -> bytes:
        head, start = MAGIC + self.version.to_bytes(2, "little") + len(self.entries).to_bytes(2, "little"), 0
        for entry in self.entries:
            shape = bytes([len(entry.sources), entry.kinds, entry.bits, entry.words])
            head += name_field(entry.name) + shape + start.to_bytes(4, "little") + len(entry.code).to_bytes(2, "little")
            start += len(entry.code)
        return head + b"".join(one.file() for entry in self.entries for one in entry.code)

    def find(self, name: str) -> Entry:
        for entry in self.entries:
            if entry.name == name:
                return entry
        names = ", ".join(entry.name for entry in self.entries)
        raise KeyError(f"no entry {name}: there are {names}" if names else f"no entry {name}: the program has none")


def text_hint(data: bytes) -> str:
    """What to do with a text that stands where a program file is read, or nothing where it is none."""
    first = FIRST_WORD.match(data)
    word = first[1] if first else b""
    if word == b"op":
        return "; it is an operation text: compile it first, by `simdram compile`"
    return "; it is a text of microprograms: assemble it first, by `simdram assemble`" if word in (b"program", b"version") else ""


def read_directory(fields: Fields, version: int) -> list[tuple[Entry, int]]:
    """The entries without their code, and the counts of their instructions."""
    heads: list[tuple[Entry, int]] = []
    start = 0
    for _ in range(fields.within(2, 0, ENTRIES, "directory", "the number of entries")):
        name = fields.name("directory", {head.name for head, _ in heads})
        count = fields.within(1, *SOURCES, "directory", f"the number of sources of {name}")
        sources, results = read_kinds(fields, version, name, count)
        bits, words = fields.number(1), fields.number(1)
        fields.within(4, start, start, "directory", f"the start of {name}")
        size = fields.within(2, *CODE, "directory", f"the number of instructions of {name}")
        heads.append((Entry(name, sources, results, bits, words), size))
        start += size
    return heads


def read_kinds(fields: Fields, version: int, name: str, count: int) -> tuple[tuple[str, ...], ...]:
    byte = fields.number(1)
    second = byte >> 5 & 1
    spare = byte >> 7 or (byte & 15) >> count or (second and version == 1) or (not second and byte >> 6 & 1)
    if spare:
        raise fields.fault("directory", f"the kinds of {name} are {byte}, with a bit that is never set there")
    kinds = ["word" if byte >> bit & 1 else "bit" for bit in range(7)]
    return tuple(kinds[:count]), tuple([kinds[4], kinds[6]][:1 + second])


def read_instruction(fields: Fields, head: Entry, count: int, at: int) -> Instruction:
    """The next instruction, number `at` of an entry's `count`."""
    raw = fields.taken(8)
    where = f"instruction {at} of {head.name}"
    if raw[0] >= len(NAMES):
        raise fields.fault("instruction", f"{where} is of kind {raw[0]}")
    one = Instruction.read(raw)
    for word, wrong in faults_of(one, raw, head, count, at):
        raise fields.fault(word, f"{where}{wrong}")
    return one


def faults_of(one: Instruction, raw: bytes, head: Entry, count: int, at: int) -> typing.Iterator[tuple[str, str]]:
    """What is wrong with an instruction: registers, number and unnamed bytes, target, rows, and that it is the last."""
    operands = OPERANDS[one.kind]
    for letter, register in (("r", one.register), ("s", one.other)):
        if letter in operands and register >= REGISTERS:
            yield "instruction", f", {one.name}, names register {register}; registers are 0 to {REGISTERS - 1}"
    if "k" in operands and one.number > LARGEST:
        yield "instruction", f", {one.name}, has the number {one.number}; numbers are 0 to {LARGEST}"
    for spare in range(NAMED[one.kind], len(raw)):
        if raw[spare]:
            yield "instruction", f", {one.name}, has {raw[spare]} in byte {spare}, which is not named there and has to be 0"
    if one.kind == BNEZ and one.number >= count:
        yield "target", f" jumps to {one.number}, and the entry has {count} instructions"
    for wrong in faults_of_rows(one.rows, head):
        yield "row", f", {one.name}: {wrong}"
    if at == count - 1 and one.kind != DONE:
        yield "no_done", " is the last and not DONE"


def faults_of_rows(rows: typing.Sequence[Row], head: Entry) -> typing.Iterator[str]:
    """What is wrong with the rows of a command, first with each by itself, then with where it stands."""
    for number, row in enumerate(rows, 1):
        if wrong := wrong_row(row, head):
            yield f"row {number} {wrong}"
    for first in rows[:1]:
        if first.space == B_ADDRESS and not decode.legal_first("B", first.which):
            yield f"row 1 is {first}: B8 to B11 raise two wordlines, and only the second row may be one of them"
    for second in rows[1:]:
        if second.space in (C_ADDRESS, SOURCE):
            yield f"row 2 is {second}, {'a constant' if second.space == C_ADDRESS else 'a source'}; no command may write it"


def counted(count: int, what: str) -> str:
    """A number of things, in words: `no bit of scratch`, `1 source`, `2 sources`, `2 bits of scratch`."""
    head, of, rest = what.partition(" of ")
    return f"{count or 'no'} {head}{'es' if head.endswith('s') and count > 1 else 's' if count > 1 else ''}{of}{rest}"


def wrong_row(row: Row, head: Entry) -> str | None:
    """What is wrong with a row of an entry, wherever it stands, or nothing."""
    if row.space >= len(SPACES):
        return f"is of space {row.space}; spaces are 0 to {len(SPACES) - 1}"
    what = SPACES[row.space]
    count = (decode.B_ADDRESSES, CONSTANTS, len(head.results), len(head.sources), head.bits, head.words, SPILLS)[row.space]
    if row.which >= count:
        owner = "the chip" if row.space in (B_ADDRESS, C_ADDRESS, SPILL) else head.name
        return f"is {what} {row.which}, counted from 0; {owner} has {counted(count, what)}"
    if row.space in INDEXED and row.index > REGISTERS:
        return f"has index {row.index}; an index is 0 to 7 for a register, or 8 for the number 0"
    if row.space not in INDEXED and row.index:
        return f"is a {what} with index byte {row.index}; it takes no index, so the byte is 0"
    return None

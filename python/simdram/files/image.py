"""Image files: a chip's data rows, and the table of the objects that lie in them, with which a trace begins too.

Element e of an object stands in bank e / (64 * words), column e modulo (64 * words), its bit k in row base + k.
"""

import dataclasses
import itertools
import struct
import typing

from . import columns
from .fields import Fields, name_field
from .store import load, store

MAGIC = b"SDMI"
HEAD = struct.Struct("<4sHHHHH")
RECORD = struct.Struct("<BHI")
GEOMETRY, ALL_WORDS = {"banks": (1, 16), "rows": (64, 1006), "words": (1, 1024)}, 2**23
OBJECTS, WIDTHS = 256, (1, 128)
SPILL_ROWS = 32
# the head of an image file and the greatest table
HEAD_MAX = 14 + 24 * OBJECTS
ROWS_MAX = GEOMETRY["rows"][1]


@dataclasses.dataclass
class Object:
    """An object of the table: its first row, its rows (the width of an element) and how many elements it has."""

    name: str
    width: int
    base: int
    count: int

    @property
    def past(self) -> int:
        """The first row after it."""
        return self.base + self.width

    def meets(self, other: "Object") -> bool:
        """Whether two objects have a row in common."""
        return self.base < other.past and other.base < self.past


def geometry_fault(banks: int, rows: int, words: int) -> str | None:
    """Why no chip has this geometry, or None where one can have it."""
    for number, (name, (least, most)) in zip((banks, rows, words), GEOMETRY.items()):
        if not least <= number <= most:
            return f"a chip has {least} to {most} {name}, not {number}"
    if banks * rows * words > ALL_WORDS:
        return f"a chip has at most {ALL_WORDS:,} words, and {banks}x{rows}x{words} are {banks * rows * words:,}"
    return None


@dataclasses.dataclass(eq=False)
class Table:
    """A geometry and the objects that lie in its rows."""

    banks: int
    rows: int
    words: int
    objects: list[Object] = dataclasses.field(default_factory=list)

    @classmethod
    def read(cls, head: bytes, path: str) -> "Table":
        """The table that an image file begins with."""
        return Table.taken(Fields(head, path), MAGIC, "image")

    @staticmethod
    def taken(fields: Fields, magic: bytes, kind: str) -> "Table":
        """The table that a file of this kind begins with, taken from its fields."""
        fields.magic(magic, kind)
        fields.within(2, 1, 1, "version", "the version")
        banks, rows, words = (fields.within(2, *limits, "geometry", f"the number of {name}") for name, limits in GEOMETRY.items())
        if wrong := geometry_fault(banks, rows, words):
            raise fields.fault("geometry", wrong)
        return Table(banks, rows, words, read_table(fields, banks, rows, words))

    def head(self, magic: bytes) -> bytes:
        head = HEAD.pack(magic, 1, self.banks, self.rows, self.words, len(self.objects))
        return head + b"".join(name_field(one.name) + RECORD.pack(one.width, one.base, one.count) for one in self.objects)

    def find(self, name: str) -> Object | None:
        return next((one for one in self.objects if one.name == name), None)

    def copy(self) -> "Table":
        return Table(self.banks, self.rows, self.words, list(self.objects))

    @property
    def columns(self) -> int:
        """How many elements a bank has of an object."""
        return 64 * self.words

    @property
    def room(self) -> int:
        """How many elements an object may have."""
        return self.columns * self.banks

    def banks_of(self, count: int) -> int:
        """In how many banks so many elements stand."""
        return -(-count // self.columns)

    def pieces(self) -> list[tuple[int, int]]:
        """The free pieces of the rows for objects: first row and number of rows, upwards."""
        taken = sorted((one.base, one.past) for one in self.objects)
        starts = itertools.accumulate((past for _, past in taken), max, initial=0)
        ends = [*(base for base, _ in taken), self.rows - SPILL_ROWS]
        return [(start, end - start) for start, end in zip(starts, ends) if start < end]

    def least_free(self, size: int) -> int | None:
        """The first row of the least free piece of so many rows."""
        return next((first for first, free in self.pieces() if free >= size), 0 if size == 0 else None)

    def longest(self) -> int:
        return max((free for _, free in self.pieces()), default=0)

    def rows_for(self, size: int) -> int:
        """The rows of an image with which so many would be free in one piece, where nothing is freed."""
        return max((one.past for one in self.objects), default=0) + size + SPILL_ROWS


def read_table(fields: Fields, banks: int, rows: int, words: int) -> list[Object]:
    objects: list[Object] = []
    for _ in range(fields.within(2, 0, OBJECTS, "object", "the number of objects")):
        name = fields.name("object", {one.name for one in objects})
        width = fields.within(1, *WIDTHS, "object", f"the width of {name}")
        base = fields.within(2, 0, rows - SPILL_ROWS - width, "object", f"the base of {name}, of {width} rows,")
        made = Object(name, width, base, 0)
        if (met := next((one.name for one in objects if one.meets(made)), None)) is not None:
            raise fields.fault("overlap", f"{name} has rows {base} to {made.past - 1}, and {met} has one of them")
        made.count = fields.within(4, 1, 64 * words * banks, "object", f"the count of {name}")
        objects.append(made)
    return objects


class NoObject(LookupError):
    """No object of the table has this name."""


class NoRoom(ValueError):
    """An object that the table or the rows have no room for: the program's word, and why."""

    def __init__(self, word: str, what: str) -> None:
        super().__init__(f"{word}: {what}")
        self.word = word


class OutOfRange(ValueError):
    """A number that does not fit an object: its place among the values, and why."""


class Image(Table):
    """An image: its geometry, its objects in order, and the contents of all rows."""

    def __init__(self, banks: int, rows: int, words: int, objects: typing.Iterable[Object] = (),
                 contents: bytes | None = None) -> None:
        if wrong := geometry_fault(banks, rows, words):
            raise ValueError(wrong)
        super().__init__(banks, rows, words, list(objects))
        self.contents = bytearray(contents if contents is not None else 8 * banks * rows * words)

    @classmethod
    def read(cls, data: bytes, path: str = "image") -> "Image":
        """The image of a file's bytes; what is no image file is refused at the first field that breaks its rule."""
        fields = Fields(data, path)
        table = Table.taken(fields, MAGIC, "image")
        contents = fields.taken(8 * table.banks * table.rows * table.words)
        fields.end()
        return cls(table.banks, table.rows, table.words, table.objects, contents)

    @classmethod
    def load(cls, path: str) -> "Image":
        return cls.read(load(path, "image"), path)

    def file(self) -> bytes:
        return self.head(MAGIC) + bytes(self.contents)

    def save(self, path: str) -> None:
        store(path, self.file())

    def find(self, name: str) -> Object:
        if found := super().find(name):
            return found
        names = ", ".join(found.name for found in self.objects)
        raise NoObject(f"no object {name}: there are {names}" if names else f"no object {name}: the image has none")

    def add(self, name: str, width: int, count: int) -> Object:
        """A new object at the least free rows, as `bbop_trsp_init` makes one; its rows stay as they are."""
        if super().find(name):
            raise NoRoom("exists", f"a second object {name}")
        if len(self.objects) == OBJECTS:
            raise NoRoom("table_full", f"{name} would be object {OBJECTS + 1}")
        if not 1 <= count <= self.room:
            raise NoRoom("too_large", f"{name} has {count} elements, and there is room for 1 to {self.room}")
        if not WIDTHS[0] <= width <= WIDTHS[1]:
            raise NoRoom("bad_number", f"{name} has {width} bits, and an object has {WIDTHS[0]} to {WIDTHS[1]}")
        if (base := self.least_free(width)) is None:
            raise NoRoom("no_rows", f"{name} needs {width} adjacent rows, and the longest free piece has {self.longest()}")
        self.objects.append(Object(name, width, base, count))
        return self.objects[-1]

    def free(self, name: str) -> None:
        """Removes an object from the table, and leaves its rows."""
        self.objects.remove(self.find(name))

    def place(self, bank: int, row: int) -> int:
        """Where a row begins in the contents."""
        return 8 * self.words * (self.rows * bank + row)

    def cells(self, name: str, low: int = 0, width: int | None = None) -> tuple[bytes, int]:
        """The object's elements, or so many bits of them from `low` on, as cells, low byte first, and the size of a cell."""
        found, cells = self.find(name), []
        width = width or found.width
        size = columns.size_of(width)
        for bank in range(self.banks):
            if kept := max(0, min(self.columns, found.count - bank * self.columns)):
                places = [self.place(bank, found.base + low + k) for k in range(width)]
                rows = [int.from_bytes(self.contents[at:at + 8 * self.words], "little") for at in places]
                cells.append(columns.cells_of(rows, kept, size))
        return b"".join(cells), size

    def get(self, name: str) -> list[int]:
        return columns.numbers_of(*self.cells(name))

    def set_cells(self, name: str, cells: bytes) -> None:
        """Sets the object's elements, given as cells, and the columns past them to 0."""
        found = self.find(name)
        size = columns.size_of(found.width)
        for bank in range(self.banks_of(found.count)):
            part = cells[size * bank * self.columns:size * (bank + 1) * self.columns]
            for k, row in enumerate(columns.rows_of(part, size, found.width)):
                at = self.place(bank, found.base + k)
                self.contents[at:at + 8 * self.words] = row.to_bytes(8 * self.words, "little")

    def put(self, name: str, values: typing.Sequence[int]) -> None:
        """Sets the object's elements, and the columns past them to 0."""
        found = self.find(name)
        if len(values) != found.count:
            raise ValueError(f"{name} has {found.count} elements, and {len(values)} values are given")
        check_range(found, values)
        self.set_cells(name, columns.cells_with(values, columns.size_of(found.width)))


def check_range(found: Object, values: typing.Sequence[int]) -> None:
    """Refuses the first value that the object's width does not hold; values are told from 1, as a script's refusals do."""
    limit = 1 << found.width
    if 0 <= min(values) and max(values) < limit:
        return
    place, value = next((k, value) for k, value in enumerate(values) if not 0 <= value < limit)
    if value < 0:
        raise OutOfRange(f"value {place + 1} of {found.name} is {value}, and numbers below 0 are not kept; "
                         f"a number modulo 2^{found.width} is {value % limit}")
    raise OutOfRange(f"value {place + 1} of {found.name} is {value}, and {found.width} bits hold 0 to {limit - 1}")

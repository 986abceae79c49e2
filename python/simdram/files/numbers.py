"""Files of numbers: text, `.csv` and `.npy`.

Text has numbers with blanks or commas between them. A `.csv` has the same, or a first line of names: `element,NAME`
over lines of two numbers, or one name over lines of one. An `.npy` is an array of whole numbers or of truth values, of
any shape, read with its last axis first; one of 64-bit numbers whose last axis is 2 can have the halves of wider
numbers, the lower half first.
"""

import ast
import math
import re
import struct

from ..launcher.faults import FileFault
from . import columns
from .store import load

# a number that Python reads, which has at most 4,300 digits
NUMBER = re.compile(r"[-+]?\d(_?\d){0,4299}")
ARRAY_MAGIC = b"\x93NUMPY"
KIND = re.compile(r"([<>|=])([buif?OcSUV])(\d*)")
CODES = {"u1": "B", "u2": "H", "u4": "I", "u8": "Q", "i1": "b", "i2": "h", "i4": "i", "i8": "q", "b1": "B"}


def read(path: str, width: int, count: int) -> list[int]:
    """The numbers of a file, for an object of this width and count."""
    data = load(path)
    if path.endswith(".npy"):
        return of_array(data, path, width, count)
    try:
        text = data.decode("ascii")
    except UnicodeDecodeError as fault:
        line = data.count(b"\n", 0, fault.start) + 1
        raise FileFault(path, f"line {line}", "number", "a byte that is no ASCII: an array file ends in .npy") from None
    return of_table(text, path) if path.endswith(".csv") else of_text(text, path)


def of_text(text: str, path: str, first: int = 1) -> list[int]:
    """The numbers of a text, whose first line has this number in its file."""
    try:
        return list(map(int, text.replace(",", " ").split()))
    except ValueError:
        raise _no_number(text, path, first) from None


def _no_number(text: str, path: str, first: int) -> FileFault:
    words = ((line, word) for line, part in enumerate(text.splitlines(), first) for word in part.replace(",", " ").split())
    line, word = next((line, word) for line, word in words if not NUMBER.fullmatch(word))
    names = ", with names in a first line of a .csv alone" if line == 1 else ""
    return FileFault(path, f"line {line}", "number", f"{ascii(word[:24])} is no number; numbers are whole and decimal{names}")


def of_table(text: str, path: str) -> list[int]:
    """The numbers of a table, with a first line of names or without."""
    head, _, rest = text.partition("\n")
    names = [name.strip() for name in head.split(",")]
    if not any(re.search("[A-Za-z]", name) for name in names):
        return of_text(text, path)
    if len(names) == 1:
        return of_text(rest, path, 2)
    if len(names) != 2 or names[0] != "element":
        said = f"{ascii(head.strip()[:40])}: a table has `element,NAME`, one name, or numbers alone"
        raise FileFault(path, "line 1", "names", said)
    words = rest.replace(",", " ").split()
    if rest.count(",") != len(words) // 2 or words[::2] != [str(k) for k in range((len(words) + 1) // 2)]:
        lines = [(at, line.strip()) for at, line in enumerate(rest.splitlines(), 2) if line.strip()]
        wrong = ((k, *one) for k, one in enumerate(lines) if not re.fullmatch(rf"{k}\s*,\s*[^\s,]+", one[1]))
        for k, at, line in wrong:
            raise FileFault(path, f"line {at}", "element", f"{ascii(line[:40])} where `{k},VALUE` is wanted")
    return of_text(rest, path, 2)[1::2]


def of_array(data: bytes, path: str, width: int, count: int) -> list[int]:
    kind, in_columns, shape, start = _head(data, path)
    match = KIND.fullmatch(kind)
    if not match or match[2] + match[3] not in CODES:
        raise FileFault(path, "", "array", f"its elements are {kind}; astype(np.uint64) makes whole numbers, and for widths "
                        "over 64 an array of two columns has the lower half and the upper half of each")
    form = f"{match[1].replace('|', '=')}{math.prod(shape)}{CODES[match[2] + match[3]]}"
    if len(data) - start != (size := struct.calcsize(form)):
        raise FileFault(path, "", "array", f"{len(data) - start} bytes follow its head, and shape {shape} of {kind} has {size}")
    values = list(struct.unpack(form, data[start:]))
    values = _by_rows(values, shape) if in_columns else values
    if width > 64 and shape[-1:] == (2,) and len(values) == 2 * count and match[2] == "u":
        return [low | high << 64 for low, high in zip(values[::2], values[1::2])]
    return values


def _head(data: bytes, path: str) -> tuple[str, bool, tuple[int, ...], int]:
    """Of an array file its kind of elements, whether its first axis goes first, its shape, and where elements begin."""
    try:
        if data[:6] != ARRAY_MAGIC:
            raise ValueError
        wide = data[6] > 1
        start = 12 if wide else 10
        size = struct.unpack_from("<I" if wide else "<H", data, 8)[0]
        head = ast.literal_eval(data[start:start + size].decode("latin-1").strip())
        return str(head["descr"]), bool(head["fortran_order"]), tuple(map(int, head["shape"])), start + size
    except (ValueError, KeyError, TypeError, SyntaxError, IndexError, struct.error):
        raise FileFault(path, "", "array", "no array file, as np.save writes one") from None


def _by_rows(values: list[int], shape: tuple[int, ...]) -> list[int]:
    """Values whose first axis goes first, with the last axis first."""
    if len(shape) < 2:
        return values
    return [value for k in range(shape[0]) for value in _by_rows(values[k::shape[0]], shape[1:])]


def file_of(name: str, cells: bytes, size: int, path: str) -> bytes:
    """The bytes of a file of the numbers in cells, in the form that its ending asks for; text where it has none."""
    if path.endswith(".npy"):
        return array_file(cells, size)
    values = columns.numbers_of(cells, size)
    if path.endswith(".csv"):
        return (f"element,{name}\n" + "".join(map("%d,%d\n".__mod__, enumerate(values)))).encode()
    return "\n".join([*map(str, values), ""]).encode()


def array_file(cells: bytes, size: int) -> bytes:
    """An array of 64-bit numbers; of two columns, the lower half first, for numbers wider than that."""
    count = len(cells) // size
    shape = f"({count}, 2)" if size > 8 else f"({count},)"
    wide = bytearray(count * max(8, size))
    for at in range(size):
        wide[at::max(8, size)] = cells[at::size]
    head = "{'descr': '<u8', 'fortran_order': False, 'shape': " + shape + ", }"
    head = head.ljust((len(head) + 11 + 63) // 64 * 64 - 11) + "\n"
    return ARRAY_MAGIC + b"\x01\x00" + struct.pack("<H", len(head)) + head.encode() + bytes(wide)

"""Numbers and their bits in rows: element e of an object is column e, and bit k of all elements is one row.

A row is an integer here, whose bit e is column e. Numbers are kept as cells: bytes of a fixed size for each, low byte
first. All loops over elements are those of Python's integers and bytes, so that a million elements take a part of a
second.
"""

import struct
import typing

SIZES = (1, 2, 4, 8, 16)
# of each bit of a byte, the table that tells it as the digit 0 or 1
DIGITS = [bytes(48 + (byte >> bit & 1) for byte in range(256)) for bit in range(8)]
CODES = {1: "B", 2: "H", 4: "I", 8: "Q"}


def size_of(width: int) -> int:
    """The least size of a cell that holds numbers of this many bits."""
    return next(size for size in SIZES if width <= 8 * size)


def rows_of(cells: bytes, size: int, width: int) -> list[int]:
    """The rows of numbers of `width` bits, the lowest first."""
    rows = []
    for bit in range(width):
        digits = cells[bit // 8::size].translate(DIGITS[bit % 8])
        rows.append(int(digits[::-1] or b"0", 2))
    return rows


def cells_of(rows: typing.Sequence[int], count: int, size: int) -> bytes:
    """The numbers of the first `count` columns, as cells of this size."""
    cells = bytearray(count * size)
    ones = int.from_bytes(b"\1" * count, "little")
    for first in range(0, len(rows), 8):
        column = 0
        for bit, row in enumerate(rows[first:first + 8]):
            digits = format(row, f"0{count}b").encode()[::-1]
            column |= (int.from_bytes(digits, "little") & ones) << bit
        cells[first // 8::size] = column.to_bytes(count, "little")
    return bytes(cells)


def numbers_of(cells: bytes, size: int) -> list[int]:
    part = min(size, 8)
    numbers = struct.unpack(f"<{len(cells) // part}{CODES[part]}", cells)
    return list(numbers) if size == part else [low | high << 64 for low, high in zip(numbers[::2], numbers[1::2])]


def cells_with(numbers: typing.Sequence[int], size: int) -> bytes:
    """Cells that hold these numbers, which fit in them."""
    if size == 16:
        numbers = [half for number in numbers for half in (number % 2**64, number >> 64)]
    return struct.pack(f"<{len(numbers)}{CODES[min(size, 8)]}", *numbers)

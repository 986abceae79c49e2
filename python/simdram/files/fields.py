"""A file's bytes, taken field by field from the front."""

import re
import typing

from ..launcher.faults import FileFault

NAME = re.compile(rb"[A-Za-z_][A-Za-z0-9_]{0,15}")
NAME_BYTES = 16


class Fields:
    """What is left of a file, and where. A field that is not whole is `short`, at the file's length."""

    def __init__(self, data: bytes, path: str) -> None:
        self.data, self.path, self.at = data, path, 0
        self.last = 0

    def taken(self, size: int) -> bytes:
        """The next field of this many bytes."""
        if self.at + size > len(self.data):
            raise self.fault("short", f"a field of {size} bytes begins at {self.at} and is not whole", len(self.data))
        self.last, self.at = self.at, self.at + size
        return self.data[self.last:self.at]

    def number(self, size: int) -> int:
        """The next field, a number of this many bytes."""
        return int.from_bytes(self.taken(size), "little")

    def within(self, size: int, least: int, most: int, word: str, what: str) -> int:
        """The next field, a number from `least` to `most`."""
        number = self.number(size)
        if not least <= number <= most:
            range_ = f"may be {least} to {most}" if least < most else f"has to be {least}"
            raise self.fault(word, f"{what} is {number}, and {range_}")
        return number

    def magic(self, letters: bytes, kind: str) -> None:
        """The four bytes that a file of this kind begins with."""
        if self.taken(4) != letters:
            raise self.fault("magic", f"no {kind} file: it does not begin with {letters.decode()}")

    def name(self, word: str, earlier: typing.Container[str]) -> str:
        """A name's length and its sixteen bytes; no earlier one may be spelled so."""
        length = self.within(1, 1, NAME_BYTES, word, "the length of a name")
        field = self.taken(NAME_BYTES)
        spelled = field[:length]
        if not NAME.fullmatch(spelled) or any(field[length:]):
            raise self.fault(word, f"{field!r} is no name of {length} bytes with zeros after it")
        if spelled.decode() in earlier:
            raise self.fault(word, f"a second {spelled.decode()}")
        return spelled.decode()

    def end(self) -> None:
        """Nothing may follow."""
        if self.at < len(self.data):
            spare = len(self.data) - self.at
            raise self.fault("rest", f"{spare} byte{'s follow' if spare > 1 else ' follows'} the last field", self.at)

    def fault(self, word: str, what: str, at: int | None = None) -> FileFault:
        """A fault at the last field that was taken, or at a place."""
        return FileFault(self.path, f"byte {self.last if at is None else at}", word, what)


def name_field(name: str) -> bytes:
    """A name's length and its sixteen bytes."""
    return bytes([len(name)]) + name.encode().ljust(NAME_BYTES, b"\0")

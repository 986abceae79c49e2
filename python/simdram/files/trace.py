"""Trace files: a geometry, a table of objects, and row commands and writes in order."""

import dataclasses
import typing

from . import decode
from .fields import Fields
from .image import Table
from .store import load

MAGIC = b"SDMT"
KINDS = ("AAP", "AP", "WRITE")
AAP, AP, WRITE = KINDS
C_ROWS = 2


class Address(typing.NamedTuple):
    """A row's address: its group, `B`, `C` or `D`, and its number."""

    group: str
    number: int

    def __str__(self) -> str:
        return f"{self.group}{self.number}"

    def file(self) -> bytes:
        return bytes([decode.GROUPS.index(self.group)]) + self.number.to_bytes(2, "little")


@dataclasses.dataclass(frozen=True)
class Event:
    """A row command or a write: its kind, its bank, its one or two addresses, and the row that a write gives."""

    kind: str
    bank: int
    addresses: tuple[Address, ...]
    row: bytes = b""

    def __str__(self) -> str:
        return " ".join(["bank", str(self.bank), self.kind, *map(str, self.addresses)])

    def file(self) -> bytes:
        places = b"".join(one.file() for one in self.addresses)
        return bytes([KINDS.index(self.kind), self.bank]) + places.ljust(6, b"\0") + self.row


@dataclasses.dataclass
class Trace(Table):
    """A trace: its geometry, its objects, and its events."""

    events: list[Event] = dataclasses.field(default_factory=list)

    @classmethod
    def read(cls, data: bytes, path: str = "trace") -> "Trace":
        """The trace of a file's bytes; what is no trace file is refused at the first field that breaks its rule."""
        made, events = cls.opened(data, path)
        made.events = list(events)
        return made

    @classmethod
    def opened(cls, data: bytes, path: str = "trace") -> "tuple[Trace, typing.Iterator[Event]]":
        """The trace of a file's bytes without its events, and the events, each read when it is asked for."""
        fields = Fields(data, path)
        table = Table.taken(fields, MAGIC, "trace")
        made = cls(table.banks, table.rows, table.words, table.objects)
        return made, made._events(fields, fields.number(4))

    @classmethod
    def load(cls, path: str) -> "Trace":
        return cls.read(load(path, "trace"), path)

    def file(self) -> bytes:
        count = len(self.events).to_bytes(4, "little")
        return self.head(MAGIC) + count + b"".join(event.file() for event in self.events)

    def _events(self, fields: Fields, count: int) -> typing.Iterator[Event]:
        """The events, one after another; equal commands are one event."""
        known: dict[bytes, Event] = {}
        for _ in range(count):
            raw = fields.taken(8)
            event = known.get(raw) or self._event(fields, raw)
            if event.kind != WRITE:
                known[raw] = event
            yield event
        fields.end()

    def _event(self, fields: Fields, raw: bytes) -> Event:
        """The event whose first eight bytes were taken."""
        if raw[0] >= len(KINDS) or raw[1] >= self.banks:
            said = f"kind {raw[0]} on bank {raw[1]}: kinds are 0 to 2, and banks 0 to {self.banks - 1}"
            raise fields.fault("event", said)
        kind, bank = KINDS[raw[0]], raw[1]
        if kind != AAP and any(raw[5:]):
            raise fields.fault("event", f"three zeros follow the row of an {kind}")
        addresses = tuple(self._address(fields, raw[at:at + 3]) for at in ((2, 5) if kind == AAP else (2,)))
        self._check_places(fields, kind, addresses)
        return Event(kind, bank, addresses, fields.taken(8 * self.words) if kind == WRITE else b"")

    def _address(self, fields: Fields, raw: bytes) -> Address:
        limits = (decode.B_ADDRESSES, C_ROWS, self.rows)
        number = raw[1] | raw[2] << 8
        if raw[0] >= len(limits) or number >= limits[raw[0]]:
            raise fields.fault("event", f"group {raw[0]} has no row {number}")
        return Address(decode.GROUPS[raw[0]], number)

    @staticmethod
    def _check_places(fields: Fields, kind: str, addresses: tuple[Address, ...]) -> None:
        """A write goes to a data row; two lines are not activated first, and C rows are not written."""
        if kind == WRITE and addresses[0].group != "D":
            raise fields.fault("event", f"a WRITE goes to a D row, not to {addresses[0]}")
        if not decode.legal_first(*addresses[0]):
            raise fields.fault("legal", f"{addresses[0]} raises two wordlines and is never activated first")
        if kind == AAP and not decode.legal_second(addresses[1].group):
            raise fields.fault("legal", f"{addresses[1]} is a row of constants and is never written")

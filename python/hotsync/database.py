"""The file of one database (PDB or PRC): read, changed and written."""

from __future__ import annotations

import ctypes
import datetime
from dataclasses import dataclass, field

from ._library import FORM, NO_BLOCK, Entry, Head, call, checked, filled, room, text_of
from .errors import BadFile

#: Where the seconds of a Palm begin.
FIRST = datetime.datetime(1904, 1, 1)
RESOURCES, READ_ONLY, STREAM = 0x0001, 0x0002, 0x0080


@dataclass
class Record:
    """A record: its id, its content, its category from 0 to 15, and its marks."""

    id: int
    content: bytes
    category: int = 0
    secret: bool = False
    dirty: bool = False
    deleted: bool = False
    busy: bool = False

    @property
    def attributes(self) -> int:
        marks = (self.deleted, self.dirty, self.busy, self.secret)
        return self.category | sum(bit for bit, is_set in zip((0x80, 0x40, 0x20, 0x10), marks) if is_set)

    @classmethod
    def of(cls, entry: Entry, content: bytes) -> Record:
        bits = entry.attributes
        deleted, dirty, busy, secret = (bool(bits & bit) for bit in (0x80, 0x40, 0x20, 0x10))
        return cls(entry.id, content, bits & 0x0F, secret, dirty, deleted, busy)

    def entry(self) -> Entry:
        return Entry(0, self.id, self.attributes, len(self.content))


@dataclass
class Resource:
    """A resource: its type of four bytes, its number, its content."""

    type: bytes
    id: int
    content: bytes

    @classmethod
    def of(cls, entry: Entry, content: bytes) -> Resource:
        return cls(entry.type.to_bytes(4, "big"), entry.id, content)

    def entry(self) -> Entry:
        return Entry(int.from_bytes(self.type, "big"), self.id, 0, len(self.content))


@dataclass
class Database:
    """A database. Dates are seconds since 1904; `date` and `seconds` turn one into the other."""

    name: bytes
    type: bytes = b"DATA"
    creator: bytes = b"memo"
    attributes: int = 0
    version: int = 0
    created: int = 0
    modified: int = 0
    backup: int = 0
    modnum: int = 0
    seed: int = 0
    app: bytes | None = None
    sort: bytes | None = None
    records: list[Record] = field(default_factory=list)
    resources: list[Resource] = field(default_factory=list)

    @property
    def holds_resources(self) -> bool:
        return bool(self.attributes & RESOURCES)

    @classmethod
    def from_bytes(cls, data: bytes) -> Database:
        """The database of a file. BadFile says the first rule that the bytes break."""
        check(data)
        head = Head()
        front = filled(lambda text: call("hs_head", data, ctypes.byref(head), text))
        parts: list[bytes | None] = []
        for size in (head.name, head.app, head.sort):
            parts.append(None if size == NO_BLOCK else front[:size])
            front = front if size == NO_BLOCK else front[size:]
        made = cls(parts[0] or b"", *(getattr(head, name).to_bytes(4, "big") for name in ("type", "creator")),
                   *(getattr(head, name) for name in Head.NAMES[:7]), app=parts[1], sort=parts[2])
        kind = Resource if made.holds_resources else Record
        found = [kind.of(entry, content) for entry, content in entries(data)]
        if made.holds_resources:
            made.resources = found  # type: ignore[assignment]
        else:
            made.records = found  # type: ignore[assignment]
        return made

    def to_bytes(self) -> bytes:
        """The file of this database, as the program writes it. BadForm where a number or the name has no place in one."""
        held = self.resources if self.holds_resources else self.records
        head = Head(*(getattr(self, name) for name in Head.NAMES[:7]),
                    *(int.from_bytes(code, "big") for code in (self.type, self.creator)), len(held), len(self.name),
                    *(NO_BLOCK if block is None else len(block) for block in (self.app, self.sort)))
        packed = b"".join((self.name, self.app or b"", self.sort or b"", *(one.content for one in held)))
        fronts = (Entry * len(held))(*(one.entry() for one in held))
        return filled(lambda text: call("hs_build", ctypes.byref(head), fronts, packed, text))


def check(data: bytes) -> int:
    """How many entries a database's file has. BadFile where it is none."""
    kind, place = ctypes.c_uint32(0), ctypes.c_uint64(0)
    answer = call("hs_check", data, ctypes.byref(kind), ctypes.byref(place))
    if answer == FORM:
        raise BadFile(answer, kind.value, place.value)
    return checked(answer)


def entries(data: bytes) -> list[tuple[Entry, bytes]]:
    """What stands in front of each entry of a file, and its bytes."""
    size = ctypes.c_uint64(0)
    count = checked(call("hs_entries", data, (Entry * 0)(), room(0), ctypes.byref(size)))
    fronts, text = (Entry * count)(), room(size.value)
    checked(call("hs_entries", data, fronts, text, ctypes.byref(size)))
    packed, found, place = bytes(text), [], 0
    for front in fronts:
        found.append((front, packed[place : place + front.size]))
        place += front.size
    return found


def show(data: bytes) -> str:
    """The lines of `hotsync show`."""
    return text_of("hs_show", data)


def date(seconds: int) -> datetime.datetime:
    return FIRST + datetime.timedelta(seconds=seconds)


def seconds(moment: datetime.datetime) -> int:
    return int((moment - FIRST).total_seconds())



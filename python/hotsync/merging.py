"""The merge of one database, as a session leaves both sides."""

from __future__ import annotations

import ctypes
from dataclasses import astuple, dataclass
from enum import IntEnum

from ._library import Ends, How, call, checked, room


class Action(IntEnum):
    """By which side a session goes: both, the handheld, the desktop, or both without a base."""

    SYNC, HANDHELD, DESKTOP, BOTH = range(4)


@dataclass
class Sides:
    """The files of one database: the handheld's, and the desktop's rows, base rows and archive; b"" where there is none."""

    handheld: bytes = b""
    rows: bytes = b""
    base: bytes = b""
    archive: bytes = b""


def merge(sides: Sides, date: int, agree: bool = False, action: Action = Action.SYNC) -> Sides:
    """The four files behind a session that reads all records. `agree` says that the last session of both sides was with each
    other; `date` is in seconds since 1904, which new rows bear. NotMerged where a session leaves the database as it is."""
    how, ends, files = How(int(action), int(agree), date), Ends(), astuple(sides)
    size = checked(call("hs_merge", *files, ctypes.byref(how), room(0), ctypes.byref(ends)))
    text = room(size)
    checked(call("hs_merge", *files, ctypes.byref(how), text, ctypes.byref(ends)))
    places = [0, ends.handheld, ends.rows, ends.base, ends.archive]
    return Sides(*(bytes(text)[begin:end] for begin, end in zip(places, places[1:])))

"""What records mean, as texts: memos, addresses, tasks and dates."""

from __future__ import annotations

import ctypes
from enum import IntEnum
from typing import Any

from ._library import RECORD, BadPlace, call, filled, why
from .errors import BadRecord

WITHOUT_PRIVATE, KEEP_BROKEN = 1, 2


class Form(IntEnum):
    """The form of a text: memos as plain text, addresses as vCards, addresses or tasks as a table, tasks or dates as a
    calendar."""

    TXT, VCF, CSV, ICS = range(4)


def export(data: bytes, form: Form, made: int = 0, without_private: bool = False, keep_broken: bool = False) -> str:
    """The text of a database's file, as `hotsync export` prints it. A calendar is made at `made`, in seconds since 1904. With
    `keep_broken` a record that is out of its form stands in the text with its bytes; else BadRecord says which it is.
    NothingOfForm where the database holds nothing of the form, BadForm for bytes that are no database's file."""
    told = BadPlace()
    flags = WITHOUT_PRIVATE * bool(without_private) | KEEP_BROKEN * bool(keep_broken)
    asked = [ctypes.c_uint32(number) for number in (form, made, flags)]

    def put(text: Any) -> int:
        answer = call("hs_export", data, *asked, text, ctypes.byref(told))
        if answer == RECORD:
            raise BadRecord(answer, why(answer), told.index, told.place)
        return answer

    return filled(put).decode("utf-8")


def import_memos(text: str) -> bytes:
    """The file of the database of memos that a text makes, as `hotsync import --as=txt` writes it. BadLine says its first line
    that is out of its form. Overfull for more than 15 labels, or more than 65,535 memos."""
    given = text.encode("utf-8")
    return filled(lambda room: call("hs_import", given, room))


def file_name(name: bytes) -> str:
    """What the file of a database of this name is called, without its ending. BadForm for bytes that are no name."""
    return filled(lambda room: call("hs_name", name, room)).decode("ascii")

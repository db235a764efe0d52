"""Readers of Palm databases, serial packets and traces, the texts of records, the merge of a HotSync, and a handheld in memory.

Each function calls one of the library for C, whose contract is proved (docs/PROVED.md); what stands here is tried and not
proved. Nothing reaches a file, a terminal or a clock."""

from ._library import call
from .database import Database, Record, Resource, check, date, seconds, show
from .errors import (BadFile, BadFiles, BadForm, BadLine, BadRecord, HotSyncError, MemoryRefused, NoSuchEntry,
                     NothingOfForm, NotMerged, Overfull)
from .handheld import Handheld, Phase
from .line import Verdict, packets, picture, verify
from .merging import Action, Sides, merge
from .texts import Form, export, file_name, import_memos

_number = call("hs_version")
__version__ = ".".join(str(_number >> shift & 0xFF) for shift in (16, 8, 0))

__all__ = [
    "Action", "BadFile", "BadFiles", "BadForm", "BadLine", "BadRecord", "Database", "Form", "Handheld", "HotSyncError",
    "MemoryRefused", "NoSuchEntry", "NothingOfForm", "NotMerged", "Overfull", "Phase", "Record", "Resource", "Sides",
    "Verdict", "check", "date", "export", "file_name", "import_memos", "merge", "packets", "picture", "seconds", "show",
    "verify",
]

"""Why a call gives nothing: an exception for each kind, with the sentence and the place that the library gives."""

from __future__ import annotations


class HotSyncError(Exception):
    """Any refusal of the library; `answer` is the number that a function of C gives."""

    def __init__(self, answer: int, why: str) -> None:
        super().__init__(why)
        self.answer, self.why = answer, why


class BadForm(HotSyncError, ValueError):
    """Bytes that are not of the form that is read."""


class BadFile(BadForm):
    """Bytes that are no database's file: the first rule that they break, and where."""

    #: What each rule is about, as `docs/FORMATS.md` has them.
    RULES = ("", "short", "name", "chained", "offset", "large")

    def __init__(self, answer: int, kind: int, place: int) -> None:
        super().__init__(answer, f"no database's file: {self.RULES[kind]} {place}")
        self.kind, self.place = self.RULES[kind], place


class BadLine(BadForm):
    """A text whose line `line`, from 1 on, is out of its form: that of a trace, or of memos."""

    def __init__(self, answer: int, why: str, line: int) -> None:
        super().__init__(answer, f"{why}: line {line}")
        self.line = line


class NoSuchEntry(HotSyncError, IndexError):
    """A database has no such entry."""


class NothingOfForm(HotSyncError, ValueError):
    """A database holds nothing of the form that is asked."""


class BadRecord(HotSyncError, ValueError):
    """The record of this index, from 0 on, is out of its form, at this place in it."""

    def __init__(self, answer: int, why: str, index: int, place: int) -> None:
        super().__init__(answer, f"{why}: record {index} place {place}")
        self.index, self.place = index, place


class Overfull(HotSyncError, ValueError):
    """A text has more than 15 labels, or more than 65,535 memos."""


class NotMerged(HotSyncError):
    """A session would leave the database as it is, or a side would pass a limit."""


class BadFiles(HotSyncError, ValueError):
    """No handheld has such files."""


class MemoryRefused(HotSyncError, MemoryError):
    """Memory was refused."""

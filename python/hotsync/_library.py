"""The shared object, and how its functions are called."""

from __future__ import annotations

import ctypes
import os
from typing import Any, Callable

from ._layouts import NO_BLOCK, Head, Entry, How, Ends, BadPlace, Told
from .errors import (BadFiles, BadForm, BadLine, HotSyncError, MemoryRefused, NoSuchEntry, NothingOfForm, NotMerged,
                     Overfull)

FORM, FILES, NOTHING, RECORD, LINE = -2, -10, -11, -12, -100


def load() -> ctypes.CDLL:
    """The library: the file that HOTSYNC_LIBRARY names, the one in this package, or the system's."""
    beside = os.path.join(os.path.dirname(os.path.abspath(__file__)), "libhotsync.so.0")
    named = os.environ.get("HOTSYNC_LIBRARY")
    return ctypes.CDLL(named or (beside if os.path.exists(beside) else "libhotsync.so.0"))


LIBRARY = load()


def given(word: Any) -> list[Any]:
    """What C gets for a word: bytes and arrays go as a pointer, which is never null, and their length."""
    if isinstance(word, (bytes, bytearray)):
        return [ctypes.create_string_buffer(bytes(word), max(len(word), 1)), ctypes.c_size_t(len(word))]
    if isinstance(word, ctypes.Array):
        return [word, ctypes.c_size_t(len(word))]
    return [word]


def call(name: str, *words: Any) -> int:
    """Calls a function, and gives its answer as it is."""
    function = getattr(LIBRARY, name)
    function.restype = ctypes.c_int64
    return int(function(*[part for word in words for part in given(word)]))


def room(size: int) -> Any:
    """So many bytes that a call may write."""
    return (ctypes.c_ubyte * size)()


def why(answer: int) -> str:
    """The sentence of an answer below 0."""
    text = room(call("hs_why", ctypes.c_int64(answer), room(0)))
    call("hs_why", ctypes.c_int64(answer), text)
    return bytes(text).decode("ascii")


KINDS: dict[int, type[HotSyncError]] = {-1: MemoryRefused, FORM: BadForm, -3: NoSuchEntry, FILES: BadFiles,
                                        NOTHING: NothingOfForm, -13: Overfull, -14: Overfull}


def refusal(answer: int) -> HotSyncError:
    """The exception of an answer below 0."""
    if answer < LINE:
        return BadLine(answer, why(LINE - 1), LINE - answer)
    return KINDS.get(answer, NotMerged)(answer, why(answer))


def checked(answer: int) -> int:
    """The answer, where it is no refusal."""
    if answer < 0:
        raise refusal(answer)
    return answer


def filled(made: Callable[[Any], int]) -> bytes:
    """What a call puts into a room that is as large as it wants."""
    text = room(checked(made(room(0))))
    checked(made(text))
    return bytes(text)


def text_of(name: str, data: bytes) -> str:
    """The text that a function makes of bytes."""
    return filled(lambda text: call(name, data, text)).decode("utf-8")

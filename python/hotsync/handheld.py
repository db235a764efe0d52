"""A handheld in memory, for the tests of a desktop or an emulator."""

from __future__ import annotations

import ctypes
from enum import IntEnum
from typing import Any, Callable, Mapping

from ._library import Told, call, checked, filled, room


class Phase(IntEnum):
    """How far a talk is."""

    GOES_ON, ENDED, ABORTED, BAD_HELLO, SPENT = range(5)


class Handheld:
    """A handheld with these files. `said` is all that it said so far, its wake first, and `phase` how far its talk is. `state`
    is all that it is: to be kept, compared and put back."""

    def __init__(self, files: Mapping[str, bytes]) -> None:
        strings = [part for name, data in files.items() for part in (name.encode(), data)]
        listed = b"".join(len(string).to_bytes(8, "big") + string for string in strings)
        self.state, self.said, self.phase = b"", b"", Phase.GOES_ON
        self._step(lambda state, *rooms: call("hs_device_new", listed, state, *rooms))

    def take(self, sent: bytes = b"") -> bytes:
        """Hears bytes of the line, in any pieces, or for none a tick of silence, and gives what it says."""
        return self._step(lambda state, *rooms: call("hs_device_take", state, ctypes.c_size_t(len(self.state)), sent, *rooms))

    def files(self) -> dict[str, bytes]:
        """Its files as they are now, by name."""
        listed, strings = filled(lambda text: call("hs_device_files", self.state, text)), []
        while listed:
            end = 8 + int.from_bytes(listed[:8], "big")
            strings.append(listed[8:end])
            listed = listed[end:]
        return {name.decode(): data for name, data in zip(strings[::2], strings[1::2])}

    def _step(self, made: Callable[..., int]) -> bytes:
        """Makes a call until both rooms are large enough."""
        size, count, told = len(self.state) + 1000, 2000, Told()
        while True:
            state: Any = (ctypes.c_ubyte * size)(*self.state)
            text = room(count)
            length = checked(made(state, text, ctypes.byref(told)))
            if length <= size and told.said <= count:
                break
            size, count = max(size, length), max(count, told.said)
        said = bytes(text[: told.said])
        self.state, self.phase = bytes(state[:length]), Phase(told.phase)
        self.said += said
        return said

"""A serial line: packets in captured bytes, and traces."""

from __future__ import annotations

import ctypes
from dataclasses import dataclass

from ._library import call, checked, text_of


@dataclass
class Verdict:
    """What `hotsync verify` says: whole requests and replies of a proper trace, or the first rule, A to G, that it breaks."""

    requests: int
    replies: int
    rule: str | None

    @property
    def is_proper(self) -> bool:
        return self.rule is None


def packets(data: bytes) -> str:
    """The lines of `hotsync packet`: one for each packet in the bytes, and their number."""
    return text_of("hs_packets", data)


def verify(trace: bytes) -> Verdict:
    """Judges the text of a trace. BadLine says the first line that is none of one."""
    requests, replies = ctypes.c_uint32(0), ctypes.c_uint32(0)
    answer = checked(call("hs_verify", trace, ctypes.byref(requests), ctypes.byref(replies)))
    return Verdict(requests.value, replies.value, chr(answer) if answer else None)


def picture(trace: bytes) -> str:
    """The page of `hotsync picture`."""
    return text_of("hs_picture", trace)

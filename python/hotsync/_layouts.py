"""How what the library tells lies in memory, as `hotsync.h` declares it."""

import ctypes

#: The length of a block that is not there.
NO_BLOCK = 0xFFFFFFFF


class Head(ctypes.Structure):
    """What the header of a database's file says."""

    NAMES = ("attributes", "version", "created", "modified", "backup", "modnum", "seed", "type", "creator", "entries",
             "name", "app", "sort")
    _fields_ = [(name, ctypes.c_uint32) for name in NAMES]


class Entry(ctypes.Structure):
    """What stands in front of a record or a resource."""

    _fields_ = [(name, ctypes.c_uint32) for name in ("type", "id", "attributes", "size")]


class How(ctypes.Structure):
    """What is asked of a merge."""

    _fields_ = [(name, ctypes.c_uint32) for name in ("action", "agree", "date")]


class Ends(ctypes.Structure):
    """Where each file of a merge ends."""

    _fields_ = [(name, ctypes.c_uint64) for name in ("handheld", "rows", "base", "archive")]


class BadPlace(ctypes.Structure):
    """Which record is out of its form, and where in it."""

    _fields_ = [(name, ctypes.c_uint64) for name in ("index", "place")]


class Told(ctypes.Structure):
    """What a call of a handheld tells."""

    _fields_ = [("said", ctypes.c_uint64), ("phase", ctypes.c_uint32)]

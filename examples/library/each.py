"""Calls each function of the library from Python: in room that fits, in none, in one byte too few, and over no bytes at all.

each.py FILE.pdb TRACE, of a database of memos; it ends with 1 and says why where something is otherwise than wanted."""

import ctypes
import os
import sys

from hotsync import BadFile, check
from hotsync._library import FORM, LINE, NOTHING, BadPlace, Ends, Entry, Head, How, Told, call


def expect(what, found, wanted):
    if found != wanted:
        sys.exit(f"each.py: {what}: {found!r}, and not {wanted!r}")


def in_rooms(what, made, whole=False):
    """What a call puts into room that fits. In less room it answers the same, and puts in what fits, or with `whole` nothing."""
    wanted = made((ctypes.c_ubyte * 0)())
    text = None
    for size in (wanted, wanted + 7, wanted - 1):
        if size < 0:
            continue
        room = (ctypes.c_ubyte * size)(*[0xAA] * size)
        expect(f"{what} in a room of {size}", made(room), wanted)
        text = bytes(room)[:wanted] if text is None else text
        left = text[:size] if size >= wanted or not whole else b""
        expect(f"{what} in a room of {size}", bytes(room), left + b"\xAA" * (size - len(left)))
    return text


def refused(what, made, answer):
    room = (ctypes.c_ubyte * 3)(*[0xAA] * 3)
    expect(what, made(room), answer)
    expect(what, bytes(room), b"\xAA" * 3)


def texts(name, data):
    in_rooms(name, lambda room: call(name, data, room))


def files(data):
    """A file, what it holds, and the file that is built of that again."""
    count = check(data)
    try:
        check(b"")
    except BadFile as fault:
        expect("hs_check of nothing", (fault.kind, fault.place), ("short", 0))
    texts("hs_show", data)
    refused("hs_show of nothing", lambda room: call("hs_show", b"", room), FORM)
    head, entries = Head(), (Entry * count)()
    parts = in_rooms("hs_head", lambda room: call("hs_head", data, ctypes.byref(head), room))
    refused("hs_head of nothing", lambda room: call("hs_head", b"", ctypes.byref(head), room), FORM)
    all_entries, size = (Entry * count)(), ctypes.c_uint64(0)
    made = lambda room: call("hs_entries", data, all_entries, room, ctypes.byref(size))
    expect("hs_entries, how many", made((ctypes.c_ubyte * 0)()), count)
    room = (ctypes.c_ubyte * size.value)()
    expect("hs_entries", made(room), count)
    packed = bytes(room)
    expect("hs_entries of nothing", call("hs_entries", b"", all_entries, room, ctypes.byref(size)), FORM)
    one_by_one = b""
    for place, entry in enumerate(entries):
        at = ctypes.c_uint32(place)
        one_by_one += in_rooms("hs_entry", lambda room: call("hs_entry", data, at, ctypes.byref(entry), room))
        expect("hs_entries and hs_entry", bytes(all_entries[place]), bytes(entry))
        refused("hs_entry of nothing", lambda room: call("hs_entry", b"", at, ctypes.byref(entry), room), FORM)
    expect("hs_entries, their bytes", packed, one_by_one)
    parts += packed
    many = ctypes.c_size_t(count)
    made = lambda parts: lambda room: call("hs_build", ctypes.byref(head), ctypes.byref(entries), many, parts, room)
    built = in_rooms("hs_build", made(parts))
    expect("hs_build", built, data)
    refused("hs_build of no bytes", made(b""), FORM)


def meanings(data):
    """The text of a database of memos, and the file that is made of that; what a file is called."""
    told, numbers = BadPlace(77, 77), [ctypes.c_uint32(number) for number in (0, 1, 2, 4)]
    zero = numbers[0]
    made = lambda file, form, flags: lambda room: call("hs_export", file, form, zero, flags, room, ctypes.byref(told))
    text = in_rooms("hs_export", made(data, zero, zero))
    expect("hs_export, kept", in_rooms("hs_export, kept", made(data, zero, numbers[2])), text)
    refused("hs_export of nothing", made(b"", zero, zero), FORM)
    refused("hs_export in no form", made(data, numbers[3], zero), FORM)
    refused("hs_export with no flag", made(data, zero, numbers[3]), FORM)
    refused("hs_export of no addresses", made(data, numbers[1], zero), NOTHING)
    expect("hs_export, as it was", (told.index, told.place), (77, 77))
    file = in_rooms("hs_import", lambda room: call("hs_import", text, room))
    expect("hs_import", in_rooms("hs_export of hs_import", made(file, zero, zero)), text)
    expect("hs_import of nothing", len(in_rooms("hs_import", lambda room: call("hs_import", b"", room))), 362)
    refused("hs_import of no text", lambda room: call("hs_import", b"Hi", room), LINE - 1)
    expect("hs_name", in_rooms("hs_name", lambda room: call("hs_name", b"Memo DB", room)), b"Memo%20DB")
    refused("hs_name of nothing", lambda room: call("hs_name", b"", room), FORM)


def merges(data):
    how, ends = How(0, 0, 1), Ends()
    made = lambda file: lambda room: call("hs_merge", file, b"", b"", b"", ctypes.byref(how), room, ctypes.byref(ends))
    text = in_rooms("hs_merge", made(data), whole=True)
    expect("hs_merge, its ends", ends.archive, len(text))
    expect("hs_merge of nothing", in_rooms("hs_merge of nothing", made(b""), whole=True), b"")


def handhelds(name, data):
    """A handheld with this file: its state and its wake, then a tick of silence; both rooms or none are written."""
    listed = b"".join(len(string).to_bytes(8, "big") + string for string in (name, data))
    told = Told()

    def both(what, made, before=b""):
        size, count = made((ctypes.c_ubyte * len(before))(*before), (ctypes.c_ubyte * 0)()), told.said
        states = []
        for state_size, said_size in ((size, count), (size - 1, count), (size, count - 1), (size + 7, count + 7)):
            blank = before + b"\xAA" * (state_size - len(before))
            state, said = (ctypes.c_ubyte * state_size)(*blank[:state_size]), (ctypes.c_ubyte * said_size)(*[0xAA] * said_size)
            if state_size < len(before):
                continue
            expect(what, (made(state, said), told.said), (size, count))
            if state_size < size or said_size < count:
                expect(what, (bytes(state), bytes(said)), (blank, b"\xAA" * said_size))
            else:
                states.append((bytes(state)[:size], bytes(said)[:count]))
        expect(what, states[0], states[1])
        return states[0]

    new = lambda files: lambda state, said: call("hs_device_new", files, state, said, ctypes.byref(told))
    begun, wake = both("hs_device_new", new(listed))
    both("hs_device_new of no files", new(b""))
    length = ctypes.c_size_t(len(begun))
    silent = lambda state, said: call("hs_device_take", state, length, b"", said, ctypes.byref(told))
    expect("a tick says the wake again", both("hs_device_take", silent, begun)[1], wake)
    none = ctypes.c_size_t(0)
    nothing = lambda room: call("hs_device_take", room, none, b"", (ctypes.c_ubyte * 0)(), ctypes.byref(told))
    refused("hs_device_take of nothing", nothing, FORM)
    held = in_rooms("hs_device_files", lambda room: call("hs_device_files", begun, room))
    expect("hs_device_files", held, listed)
    refused("hs_device_files of nothing", lambda room: call("hs_device_files", b"", room), FORM)


def lines(trace):
    """Captured bytes and a trace."""
    texts("hs_packets", trace)
    texts("hs_packets", b"")
    texts("hs_picture", trace)
    texts("hs_picture", b"")
    requests, replies = ctypes.c_uint32(0), ctypes.c_uint32(0)
    numbers = (ctypes.byref(requests), ctypes.byref(replies))
    expect("hs_verify", call("hs_verify", trace, *numbers), 0)
    expect("hs_verify", requests.value > 0 and replies.value > 0, True)
    expect("hs_verify of nothing", (call("hs_verify", b"", *numbers), requests.value, replies.value), (0, 0, 0))


if __name__ == "__main__":
    with open(sys.argv[1], "rb") as opened:
        given = opened.read()
    with open(sys.argv[2], "rb") as opened:
        lines(opened.read())
    files(given)
    meanings(given)
    merges(given)
    handhelds(os.path.basename(sys.argv[1]).encode(), given)
    print("each.py: as wanted")

"""Files of databases, and of what a handheld knows of its user."""
import struct


# When databases were made: 2001-09-09T01:46:40.
MADE = 3082844800


def database(entries=(), name="M", kind=b"DATA", creator=b"memo", attributes=8, version=3,
             app=b"", sort=b""):
    """The file of a database; an entry is its attributes and id, or its type and id, and its
    bytes."""
    is_code = attributes & 1
    place = 80 + len(entries) * (10 if is_code else 8)
    blocks = place if app else 0, place + len(app) if sort else 0
    place += len(app) + len(sort)
    heads = b""
    for first, number, data in entries:
        if is_code:
            heads += struct.pack(">4sHI", first, number, place)
        else:
            heads += struct.pack(">II", place, first << 24 | number)
        place += len(data)
    numbers = struct.pack(">HH6I", attributes, version, MADE, 0, 0, 5, *blocks)
    head = name.encode(), numbers, kind, creator, 0, 0, len(entries)
    blocks = app + sort + b"".join(data for _, _, data in entries)
    return struct.pack(">32s28s4s4sIIH", *head) + heads + b"\0\0" + blocks


def information(good="07d10909012e2800", name="41", password="7077"):
    """The information file of a handheld whose user is 1 and its viewer 2, and whose desktop was
    3."""
    lines = ["hotsync-device 1", "user 00000001", "viewer 00000002", "pc 00000003", f"good {good}"]
    lines += ["last 0000000000000000", f"name {name}", f"password {password}"]
    return "".join(f"{line}\n" for line in lines).encode()

"""Categories that are brought together."""
import shutil
import struct

from situations.rig import call, folder_of, performed_at, put, situation, want, want_line


# ---- categories that are brought together


def categorised(labels, ids, last, records, name=b"MemoDB", rest=b""):
    """The bytes of a database with a table of these categories and what follows it in its block, and of these records:
    category, id, bytes."""
    place = 78 + 8 * len(records) + 2
    table = b"\0\0" + b"".join(label.encode().ljust(16, b"\0") for label in labels).ljust(256, b"\0") + bytes(ids).ljust(16, b"\0") + bytes([last, 0]) + rest
    head = struct.pack(">32sHHIIIIII4s4sIIH", name, 0, 0, 0, 0, 0, 0, place, 0, b"DATA", b"memo", 0, 0, len(records))
    entries, data, place = b"", b"", place + len(table)
    for category, number, text in records:
        entries += struct.pack(">IB", place + len(data), category) + number.to_bytes(3, "big")
        data += text
    return head + entries + b"\0\0" + table + data


def agreed(name, category=1):
    """The bytes of the base of such a database with one record, in this category."""
    head = struct.pack(">32sHHIIIIII4s4sIIH", name, 0, 0, 0, 0, 0, 0, 0, 0, b"DATA", b"memo", 0, 0, 1)
    return head + struct.pack(">II", 88, category << 24 | 1) + b"\0\0one"


@situation
def categories_are_unplugged_at_each_frame():
    base, base_after = agreed(b"MemoDB"), agreed(b"MemoDB", 2)
    info = "hotsync-desktop 2\npc 00000001\nslots 1\nslot 0 user 00000000 last 0000000000000000 name -\n"
    palm = {"MemoDB.pdb": categorised(["Unfiled", "Work"], [0, 1], 0, [])}
    desk = {"MemoDB.pdb": categorised(["Unfiled", "Home"], [0, 17], 0, [(1, 1, b"one")]), "MemoDB.base": base}
    both = ["Unfiled", "Work", "Home"], [0, 1, 17], 17
    palm_after = {"MemoDB.pdb": categorised(*both, [])}
    desk_after = {"MemoDB.pdb": categorised(*both, [(2, 1, b"one")]), "MemoDB.base": base_after, "desktop.inf": info.encode()}
    # The user, the beginning, one entry of the list; open, read the block, write it, close; the end.
    requests, written = 8, 6
    frames = 4 + 4 * requests
    for frame in range(1, frames + 2):
        for folder, files in (("h", palm), ("d", desk)):
            shutil.rmtree(folder, ignore_errors=True)
            for path, content in files.items():
                put(f"{folder}/{path}", content)
        put("script", f"{frame} unplug\n")
        answer = call("categories", "h", "d", "--script=script")
        if frame > frames:
            want_line(answer, 0, "ended")
        else:
            want_line(answer, 6, f"unplugged {frame}")
        want(folder_of("h"), palm_after if performed_at(frame) >= written else palm, f"a handheld unplugged at frame {frame}")
        # The desktop commits once the acknowledgement of the last reply before the end has gone.
        want(folder_of("d"), desk_after if frame > 4 + 4 * (requests - 1) else desk, f"a desktop unplugged at frame {frame}")
        moved = 0 if frame > 4 + 4 * (requests - 1) else 1
        want(call("categories", "h", "d")[:2], (0, [f"MemoDB categories 3 moved {moved}", "ended"]), f"the session behind frame {frame}")
        want(folder_of("h"), palm_after, "the handheld then")
        want(folder_of("d"), desk_after, "the desktop then")


@situation
def what_follows_a_table_of_categories_stays():
    """The block of an address book has 638 bytes: its table, and the names of fields, which each side keeps."""
    name, own, other = b"AddressDB", b"\xaa" * 362, b"\xbb" * 362
    put("h/AddressDB.pdb", categorised(["Unfiled", "Work"], [0, 1], 0, [], name, own))
    put("d/AddressDB.pdb", categorised(["Unfiled", "Home"], [0, 17], 0, [(1, 1, b"one")], name, other))
    put("d/AddressDB.base", agreed(name))
    want(call("categories", "h", "d")[:2], (0, ["AddressDB categories 3 moved 1", "ended"]), "a session of categories")
    both = ["Unfiled", "Work", "Home"], [0, 1, 17], 17
    want(folder_of("h"), {"AddressDB.pdb": categorised(*both, [], name, own)}, "the handheld")
    want(folder_of("d")["AddressDB.pdb"], categorised(*both, [(2, 1, b"one")], name, other), "the desktop")

"""What folders hold that a session left, and files that are made for one."""
import collections
import filecmp
import os
import struct


def same(one, other):
    names = sorted(os.listdir(one))
    return names == sorted(os.listdir(other)) and not filecmp.cmpfiles(one, other, names, False)[1]


def records(folder):
    """How often each content stands in each database of a folder: its category and whether it is secret, and its bytes."""
    found = collections.Counter()
    for name in os.listdir(folder):
        if not name.endswith(".pdb"):
            continue
        with open(f"{folder}/{name}", "rb") as file:
            data = file.read()
        count = int.from_bytes(data[76:78], "big")
        heads = [data[78 + 8 * n : 86 + 8 * n] for n in range(count)]
        places = [int.from_bytes(head[:4], "big") for head in heads] + [len(data)]
        for n, head in enumerate(heads):
            found[name, head[4] & 0x1F, data[places[n] : places[n + 1]]] += 1
    return found


def memo_file(count):
    """A database of so many memos of 200 letters."""
    place = 78 + 8 * count + 2
    head = struct.pack(">32sHH6I4s4sIIH", b"MemoDB", 0, 0, *(0,) * 6, b"DATA", b"memo", 0, 0, count)
    entries = b"".join(struct.pack(">II", place + 200 * n, n + 1) for n in range(count))
    return head + entries + b"\0\0" + b"".join(b"%-199d\0" % n for n in range(count))

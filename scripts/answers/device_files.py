"""Files of a handheld's folder that lines name by a word."""

import contextlib
import os


def file_of(name, attributes, count):
    """The header of a database's file, with this many entries."""
    head = name.encode().ljust(33, b"\0") + bytes([attributes])
    return head.ljust(60, b"\0") + b"DATAmemo" + bytes(8) + count.to_bytes(2, "big")


def full_file(name, kind):
    """A file of 65,535 empty entries."""
    codes = kind == "codes"
    end = (78 + (10 if codes else 8) * 65535).to_bytes(4, "big")
    entries = []
    for number in range(1, 65536):
        if codes:
            entries.append(b"CODE" + number.to_bytes(2, "big") + end)
        else:
            identity = {"zeros": 0, "sevens": 7}.get(kind, number)
            entries.append(end + identity.to_bytes(4, "big"))
    return file_of(name, 1 if codes else 0, 65535) + b"".join(entries)


def large_file(name):
    """A file of one record of 65,501 bytes."""
    return file_of(name, 0, 1) + b"\0\0\0\x56\0\0\0\1" + bytes(65501)


def no_files(folder, other):
    """Another folder of the same names, none of which is a file's."""
    for name in os.listdir(folder):
        os.makedirs(f"{other}/{name}")


@contextlib.contextmanager
def without(folder):
    """A file stands in a folder's place, so that no call on it is done."""
    away = f"{folder}.away"
    os.rename(folder, away)
    with open(folder, "wb"):
        pass
    yield
    os.remove(folder)
    os.rename(away, folder)

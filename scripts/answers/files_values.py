"""Lines on values of Palm databases, by the calls that take and show them.

`stem H`: the bytes of a database's name, and the name of its file, by `show`. `id N`: a record's
id that a file is built with. `kind there|deleted H`: what a merge makes of a record. `user H`,
`password H`: a name and a password in `device.inf`, and what stands there once a session has
written it. `date TEXT`: the seconds of a date behind `--date=`. `seconds N`: the date of a
database as a backup's trace shows it on the line, and the seconds that its file then has.
"""
import calendar
import os
import re
import shutil
import time

from files_call import (DAYS_TO_1970, MADE, MADE_SECONDS, Call, Head, built, bytes_of, entry_of,
                        get, head_of, memos, merged, pdb, put)

INFO = ("hotsync-device 1\nuser 00000000\nviewer 00000000\npc 00000001\ngood {0}\nlast {0}\n"
        "name {1}\npassword {2}\n")


def answer(tools, line):
    """What a line on values comes to."""
    word, _, given = line.partition(" ")
    return globals()[f"say_{word}"](tools, given)


def say_stem(tools, given):
    """A name's bytes, and the name of its file."""
    put(os.path.join(tools.scratch, "file.pdb"), memos(bytes_of(given), []))
    name = head_of(tools.library, get(os.path.join(tools.scratch, "file.pdb")))[1]
    shown = Call(tools, "show", "file.pdb").lines[0]
    return f"{name.hex()} {shown.removeprefix('name ')}"


def say_id(tools, given):
    """A record's id, where there is a file with such a record."""
    file = built(tools.library, Head(), [(0, int(given), 0, b"")], b"A", None, None)
    return "none" if file is None else f"number {entry_of(tools.library, file, 0)[0].id}"


def say_kind(tools, given):
    """Whether a record goes to the desktop's rows, to its archive, or to neither."""
    word, content = given.split(" ")
    file = memos(b"MemoDB", [(0x80 * (word == "deleted"), 1, bytes_of(content))])
    _, rows, _, archive = merged(tools.library, [file, b"", b"", b""], 0, 0, MADE_SECONDS)
    if archive and file_count(archive):
        return "archived"
    return "live" if file_count(rows) else "deleted"


def file_count(file):
    """How many entries a file has."""
    return int.from_bytes(file[76:78], "big")


def say_user(tools, given):
    """The name of a user, as a session leaves it on the handheld."""
    return said_in_info(tools, "name", given, "-")


def say_password(tools, given):
    """A password, likewise."""
    return said_in_info(tools, "password", "-", given)


def said_in_info(tools, field, name, password):
    """A field of device.inf behind a session, or none where the file was refused."""
    folder = os.path.join(tools.scratch, "values")
    shutil.rmtree(folder, ignore_errors=True)
    os.makedirs(f"{folder}/d")
    put(f"{folder}/h/device.inf", INFO.format("0" * 16, name, password).encode())
    call = Call(tools, "run", "h", "d", f"--date={MADE}", folder=folder)
    if call.status == 3 and call.text.startswith("bad file handheld device.inf info "):
        return "none"
    lines = get(f"{folder}/h/device.inf").decode().splitlines()
    found = next(line.split(" ")[1] for line in lines if line.startswith(f"{field} "))
    return f"bytes {bytes_of(found).hex()}"


def say_date(tools, given):
    """The seconds of a date, by the stamp of a calendar that is made then."""
    task = (0, 1, b"\xff\xff\1\0\0")
    put(os.path.join(tools.scratch, "todo.pdb"), pdb(b"ToDoDB", b"DATA", b"todo", 0, [task]))
    call = Call(tools, "export", "todo.pdb", "--as=ics", f"--date={given}")
    stamp = re.search(r"^DTSTAMP:(\d{8}T\d{6})Z\r?$", call.text, re.MULTILINE)
    if call.status != 0 or stamp is None:
        return "no date" if call.status == 2 else f"status {call.status}"
    since = calendar.timegm(time.strptime(stamp.group(1), "%Y%m%dT%H%M%S"))
    return f"seconds {since + DAYS_TO_1970 * 86400}"


def say_seconds(tools, given):
    """A date of a database on the line, and in the file that a backup makes of it."""
    folder = os.path.join(tools.scratch, "values")
    shutil.rmtree(folder, ignore_errors=True)
    os.makedirs(f"{folder}/f")
    file = bytearray(memos(b"MemoDB", []))
    file[36:40] = int(given).to_bytes(4, "big")
    put(f"{folder}/h/MemoDB.pdb", bytes(file))
    Call(tools, "backup", "h", "f", "--trace=trace", folder=folder)
    front = (b"DATAmemo" + bytes(6)).hex()
    wire = re.search(front + "([0-9a-f]{16})", get(f"{folder}/trace").decode()).group(1)
    back = head_of(tools.library, get(f"{folder}/f/MemoDB.pdb"))[0].created
    return f"wire {wire} seconds {back}"

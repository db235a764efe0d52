"""Lines on a desktop's folder, by sessions over real folders.

A folder: `file NAME H` and `many N` put files into it and print nothing, `files` shows it, and
`finish` finishes its journal. `open` opens it by a session of categories over a handheld without
databases, which changes none of its files; `pick PLACE` has a user of an old slot or a new one
come to it, and `list` shows the databases of that slot.

Files: `names H ATTRIBUTES SLOT`, those of the database of this name and what stands in front of
them in a slot; `reads NAME`, whether a handheld reads this file and whether a desktop keeps it;
`device H` and `desktop H`, an information file, and how it is written again; `holds SLOTS NAME
H`, what a file of a desktop with so many slots holds; `journal H`, where one is bad.
"""
import calendar
import os
import re
import shutil
import struct
import urllib.parse

from files_call import (DAYS_TO_1970, MADE, Call, bytes_of, get, held_in, memos, pdb, put,
                        records_of)

DEVICE = ("hotsync-device 1\nuser {:08x}\nviewer 00000000\npc 00000001\ngood {zero}\nlast {zero}\n"
          "name -\npassword -\n")
ZERO = "0" * 16
NEWCOMER = 0x63
DATE = f"--date={MADE}"
# What a file of a desktop holds, by the ids that a session of the two records below leaves in it.
ROLES = {(1,): "rows", (1, 2): "base rows", (2,): "archive"}
LIVE, AWAY = (0, 1, b"live"), (0x80, 2, b"away")


def device_file(user):
    """The information file of a handheld of this user that was in no session."""
    return DEVICE.format(user, zero=ZERO).encode()


def desktop_file(users):
    """The information file of a desktop with these users."""
    slots = "".join(f"slot {place} user {user:08x} last {ZERO} name -\n"
                    for place, user in enumerate(users))
    return f"hotsync-desktop 2\npc 00000001\nslots {len(users)}\n{slots}".encode()


def users_in(file):
    """The users of an information file of a desktop, of either version; 0 alone where there is
    none.
    """
    found = re.findall(r"user ([0-9a-f]{8})", (file or b"").decode("latin-1"))
    return [int(user, 16) for user in found] or [0]


def table(*labels):
    """An app block with a table of these categories."""
    names = b"".join(label.ljust(16, b"\0") for label in labels).ljust(256, b"\0")
    ids = bytes(range(len(labels))).ljust(16, b"\0")
    return b"\0\0" + names + ids + bytes([len(labels) - 1, 0])


class Sides:
    """Two folders, and calls over them."""

    def __init__(self, tools):
        self.tools = tools
        self.top = os.path.join(tools.scratch, "desk")
        self.begin()

    def begin(self):
        """Both folders are empty."""
        shutil.rmtree(self.top, ignore_errors=True)
        for side in "hdf":
            os.makedirs(f"{self.top}/{side}")

    def put(self, side, name, content):
        """Puts a file into a folder."""
        put(f"{self.top}/{side}/{name}", content)

    def get(self, side, name):
        """A file of a folder."""
        return get(f"{self.top}/{side}/{name}")

    def held(self, side):
        """The files of a folder."""
        return held_in(f"{self.top}/{side}")

    def call(self, *words):
        """A call of the program beside the folders."""
        return Call(self.tools, *words, folder=self.top)

    def bad_file(self, call):
        """The name, the kind and the place of the desktop's file that a call refuses, or None."""
        last = call.lines[-1].split(" ")
        return last[3:] if call.status == 3 and last[:3] == ["bad", "file", "desktop"] else None


class Desk:
    """A desktop's folder, and the user who comes to it."""

    def __init__(self, tools):
        self.sides = Sides(tools)
        self.user = None

    def answer(self, words):
        """What a line on the folder comes to. None: nothing is printed."""
        return getattr(self, f"say_{words[0]}")(*words[1:])

    def say_file(self, name, content):
        """Puts a file into the folder."""
        self.sides.put("d", name, bytes_of(content))

    def say_many(self, count):
        """Puts so many files of rows into the folder."""
        for number in range(int(count)):
            name = f"D{number}"
            self.sides.put("d", f"{name}.pdb", memos(name.encode(), []))

    def say_files(self):
        """Each file with its bytes."""
        held = self.sides.held("d")
        return "files" + "".join(f"\n{name} {held[name].hex()}" for name in held)

    def session(self):
        """A session of categories of the user who comes: of slot 0, where nobody was picked."""
        user = users_in(self.sides.get("d", "desktop.inf"))[0] if self.user is None else self.user
        self.sides.put("h", "device.inf", device_file(user))
        return self.sides.call("categories", "h", "d")

    def say_open(self):
        """Opens the folder, or says why not."""
        call = self.session()
        bad = self.sides.bad_file(call)
        if bad:
            return f"bad file {' '.join(bad)}"
        if call.lines[-1] == "too many databases desktop":
            return "too many"
        return "opened" if call.status == 0 else call.lines[-1]

    def say_finish(self):
        """Finishes the journal, or says where it is bad. What else is bad in the folder is no
        matter of the journal.
        """
        bad = self.sides.bad_file(self.session())
        return f"bad {bad[2]}" if bad and bad[1] == "journal" else "finished"

    def say_list(self):
        """How many databases the slot of the user has, and their names."""
        lines = self.session().lines[:-1]
        names = [urllib.parse.unquote_to_bytes(line.split(" ")[0]).hex() for line in lines]
        return " ".join([str(len(names)), *names, "end"])

    def say_pick(self, place):
        """The user of an old slot comes, or one without a slot, who is added."""
        users = users_in(self.sides.get("d", "desktop.inf"))
        self.user = users[int(place)] if int(place) < len(users) else NEWCOMER
        self.sides.put("h", "device.inf", device_file(self.user))
        call = self.sides.call("run", "h", "d", DATE, "--add-user", "--dry-run")
        return "no slot" if call.lines[-1] == "too many users" else "picked"


# ---- files


def file_answer(tools, words):
    """What a line on files of a desktop comes to."""
    return globals()[f"say_{words[0]}"](Sides(tools), *words[1:])


def say_names(sides, name, attributes, slot):
    """The file that an install makes of a database, and those that a session of a slot's user
    makes of its records.
    """
    name, slot = bytes_of(name), int(slot)
    sides.put("f", "x", pdb(name, b"DATA", b"memo", int(attributes), []))
    sides.call("install", "h", "f/x")
    (installed,) = sides.held("h")
    sides.begin()
    sides.put("f", "x", memos(name, [LIVE]))
    sides.call("install", "h", "f/x")
    (rows,) = sides.held("h")
    sides.put("h", rows, memos(name, [LIVE, AWAY]))
    sides.put("h", "device.inf", device_file(slot))
    sides.put("d", "desktop.inf", desktop_file(range(slot + 1)))
    sides.call("run", "h", "d", DATE)
    made = [file for file in sides.held("d") if file != "desktop.inf"]
    prefix = made[0][: made[0].index(rows.removesuffix(".pdb"))]
    made = [next(file for file in made if file.endswith(end)) for end in (".pdb", ".base", ".arc")]
    return " ".join([installed, *(file.removeprefix(prefix) for file in made), f"-{prefix}"])


def say_reads(sides, name):
    """Whether a bad file of this name is one of the handheld's folder, and one that a desktop
    keeps.
    """
    sides.put("h", name, b"!")
    last = sides.call("categories", "h", "d").lines[-1]
    handheld = last.startswith(f"bad file handheld {name} ")
    sides.begin()
    sides.put("d", name, b"!")
    bad = sides.bad_file(sides.call("categories", "h", "d"))
    desktop = bool(bad) and bad[0] == name and bad[1] != "journal"
    return f"handheld {str(handheld).lower()} desktop {str(desktop).lower()}"


def say_device(sides, content):
    """The file of a handheld behind a session, and what it says."""
    sides.put("h", "device.inf", bytes_of(content))
    sides.call("run", "h", "d", DATE)
    text = sides.get("h", "device.inf").decode()
    said = dict(line.split(" ") for line in text.splitlines())
    numbers = " ".join(f"{field} {int(said[field], 16)}" for field in ("user", "viewer", "pc"))
    dates = " ".join(f"{field} {seconds_of(said[field])}" for field in ("good", "last"))
    lengths = " ".join(f"{field} {len(bytes_of(said[field]))}" for field in ("name", "password"))
    return f"{numbers} {dates} {lengths}\n{text}"


def seconds_of(wire):
    """The seconds of a date as it stands in an information file."""
    year, *others = struct.unpack(">H6B", bytes.fromhex(wire))
    return 0 if wire == ZERO else calendar.timegm((year, *others)) + DAYS_TO_1970 * 86400


def say_desktop(sides, content):
    """The file of a desktop once a session of categories has moved a record, which leaves its
    slots as they were.
    """
    file = bytes_of(content)
    sides.put("d", "desktop.inf", file)
    sides.put("h", "device.inf", device_file(users_in(file)[0]))
    sides.put("h", "A.pdb", memos(b"A", [], table(b"Unfiled", b"Work")))
    sides.put("d", "A.pdb", memos(b"A", [(1, 1, b"a")], table(b"Unfiled", b"Home")))
    sides.put("d", "A.base", memos(b"A", [(1, 1, b"a")]))
    call = sides.call("categories", "h", "d")
    bad = sides.bad_file(call)
    if bad:
        return f"bad {bad[2]}" if bad[:2] == ["desktop.inf", "info"] else " ".join(bad)
    if call.status != 0:
        return call.lines[-1]
    text = sides.get("d", "desktop.inf").decode()
    (number,) = re.findall("pc ([0-9a-f]+)", text)
    slots = re.findall("user ([0-9a-f]+) last ([0-9a-f]+) name ([0-9a-f]*)", text)
    said = [f"pc {int(number, 16)} user {int(user, 16)} last {seconds_of(last)} name -{name}"
            for user, last, name in slots]
    return "\n".join([*said, text])


def say_holds(sides, slots, name, content):
    """What a file of a desktop holds, by what a session of a slot's user writes there."""
    file, role = bytes_of(content), None
    for slot in range(int(slots)):
        sides.begin()
        sides.put("d", "desktop.inf", desktop_file(range(int(slots))))
        sides.put("d", name, file)
        bad = sides.bad_file(sides.call("categories", "h", "d"))
        if bad:
            return f"bad {' '.join(bad[1:])}" if bad[0] == name else " ".join(bad)
        if not name.endswith((".pdb", ".base", ".arc")):
            return "other"
        role = written_by(sides, slot, name, file)
        if role:
            break
    return f"{role} of {file[:32].split(bytes(1))[0].hex()} in slot {slot}" if role else "other"


def written_by(sides, slot, name, file):
    """What a session of a slot's user writes into a file: the live record of the handheld's
    database of the name in the file, that and the archived one, or this alone. None: it leaves
    the file as it was.
    """
    database = memos(file[:32], [LIVE, AWAY])
    sides.put("f", "x", memos(file[:32], []))
    sides.call("install", "h", "f/x")
    (installed,) = sides.held("h")
    sides.put("h", installed, database)
    sides.put("h", "device.inf", device_file(slot))
    sides.call("run", "h", "d", DATE)
    now = sides.get("d", name)
    found = [number for _, number, _ in records_of(now)]
    return None if now == file else ROLES.get(tuple(found))


def say_journal(sides, content):
    """Where a journal is bad."""
    sides.put("d", "hotsync.journal", bytes_of(content))
    bad = sides.bad_file(sides.call("categories", "h", "d"))
    return f"bad {bad[2]}" if bad and bad[1] == "journal" else "no bad journal"

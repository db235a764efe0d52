"""What the answers to lines on files share: the words of a line, files of databases, calls of the
program and of the library for C.
"""
import ctypes
import os
import struct
import subprocess
import sys

# Where the package has the layouts of the library; the package itself wants the library at once.
sys.path.append(os.path.join(os.path.dirname(os.path.abspath(__file__)), "..", "..", "python", "hotsync"))
from _layouts import NO_BLOCK, Ends, Entry, Head, How  # noqa: E402

MADE = "2001-09-09T01:46:40"
MADE_SECONDS = 3082844800
# From 1904-01-01, where the seconds of a Palm begin.
DAYS_TO_1970 = 24107


def bytes_of(word):
    """The bytes of hexadecimal digits; `-` stands for none."""
    return b"" if word in ("-", "") else bytes.fromhex(word)


def pdb(name, kind, creator, attributes, records, app=None):
    """The file of a database of records (attributes, id, bytes), with an app block or none, and
    all dates 0.
    """
    place = 80 + 8 * len(records)
    block = b"" if app is None else app
    head = struct.pack(">32sHHIIIII", name, attributes, 0, 0, 0, 0, 0, 0 if app is None else place)
    head += struct.pack(">I4s4sIIH", 0, kind, creator, 0, 0, len(records))
    place += len(block)
    entries, data = b"", b""
    for bits, number, content in records:
        entries += struct.pack(">IB", place + len(data), bits) + number.to_bytes(3, "big")
        data += content
    return head + entries + b"\0\0" + block + data


def memos(name, records, app=None):
    """The file of a database of memos."""
    return pdb(name, b"DATA", b"memo", 0, records, app)


def records_of(file):
    """The records of a database's file: attributes, id, bytes."""
    (count,) = struct.unpack_from(">H", file, 76)
    places, found = [], []
    for index in range(count):
        place, bits = struct.unpack_from(">IB", file, 78 + 8 * index)
        places.append(place)
        found.append((bits, int.from_bytes(file[83 + 8 * index : 86 + 8 * index], "big")))
    ends = places[1:] + [len(file)]
    return [(*entry, file[place:end]) for entry, place, end in zip(found, places, ends)]


def put(path, content):
    """Makes bytes a file, and the folders that it is in."""
    os.makedirs(os.path.dirname(path) or ".", exist_ok=True)
    with open(path, "wb") as file:
        file.write(content)


def get(path):
    """The bytes of a file, or None."""
    try:
        with open(path, "rb") as file:
            return file.read()
    except OSError:
        return None


def held_in(folder):
    """The files of a folder, by their names, in byte order."""
    return {name: get(os.path.join(folder, name)) for name in sorted(os.listdir(folder))}


class Call:
    """A call of the program: its status, and what it printed, which is a refusal where it printed nothing else."""

    def __init__(self, tools, *words, folder=None):
        done = subprocess.run(
            [tools.program, *words], cwd=folder or tools.scratch, stdout=subprocess.PIPE,
            stderr=subprocess.PIPE, stdin=subprocess.DEVNULL, timeout=600, check=False,
        )
        self.status, self.printed = done.returncode, done.stdout or (done.stderr if done.returncode else b"")
        self.text = self.printed.decode("utf-8", "replace")
        self.lines = self.text.splitlines()


# ---- the library for C


def lent(content):
    """Bytes as the library takes them: a pointer that is never null, and a length."""
    length = len(content)
    return ctypes.create_string_buffer(content, max(length, 1)), ctypes.c_size_t(length)


def roomy(function, *given, last=()):
    """Calls twice: for the length, and with as much room. The answer, and what stands in the
    room.
    """
    function.restype = ctypes.c_int64
    none = ctypes.create_string_buffer(1)
    wanted = function(*given, none, ctypes.c_size_t(0), *last)
    if wanted < 0:
        return wanted, b""
    room = ctypes.create_string_buffer(max(wanted, 1))
    answer = function(*given, room, ctypes.c_size_t(wanted), *last)
    return answer, room.raw[:wanted]


def checked(library, file):
    """The answer of hs_check, and the rule that the file breaks."""
    library.hs_check.restype = ctypes.c_int64
    kind, place = ctypes.c_uint32(0), ctypes.c_uint64(0)
    answer = library.hs_check(*lent(file), ctypes.byref(kind), ctypes.byref(place))
    return answer, kind.value, place.value


def shown(library, file):
    """The lines of hs_show."""
    answer, text = roomy(library.hs_show, *lent(file))
    return text.decode() if answer >= 0 else None


def head_of(library, file):
    """The head of a file, and its name, app block and sort block, None where there is no block."""
    head = Head()
    answer, packed = roomy(library.hs_head, *lent(file), ctypes.byref(head))
    if answer < 0:
        return None
    parts = []
    for length in (head.name, head.app, head.sort):
        parts.append(None if length == NO_BLOCK else packed[:length])
        packed = packed if length == NO_BLOCK else packed[length:]
    return head, *parts


def entry_of(library, file, index):
    """An entry of a file, and its bytes."""
    entry = Entry()
    given = (*lent(file), ctypes.c_uint32(index), ctypes.byref(entry))
    answer, content = roomy(library.hs_entry, *given)
    return (entry, content) if answer >= 0 else None


def built(library, head, entries, name, app, sort):
    """The file of these parts, or None: entries are (type, id, attributes, bytes)."""
    head.name = len(name)
    head.app = NO_BLOCK if app is None else len(app)
    head.sort = NO_BLOCK if sort is None else len(sort)
    packed = name + (app or b"") + (sort or b"") + b"".join(entry[3] for entry in entries)
    fronts = (Entry * max(len(entries), 1))()
    for front, (kind, number, bits, content) in zip(fronts, entries):
        front.type, front.id, front.attributes, front.size = kind, number, bits, len(content)
    answer, file = roomy(library.hs_build, ctypes.byref(head), fronts,
                         ctypes.c_size_t(len(entries)), *lent(packed))
    return file if answer >= 0 else None


def merged(library, files, action, agree, date):
    """The four files that a merge leaves, or the answer below 0. A file that isn't there has no
    bytes.
    """
    how, ends = How(action, agree, date), Ends()
    given = [part for file in files for part in lent(file)]
    answer, room = roomy(library.hs_merge, *given, ctypes.byref(how), last=(ctypes.byref(ends),))
    if answer < 0:
        return answer
    places = [0, ends.handheld, ends.rows, ends.base, ends.archive]
    return [room[begin:end] for begin, end in zip(places, places[1:])]

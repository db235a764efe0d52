"""What the situations share: the files of both sides, written and read without any of the program's code, and calls of the program."""
import os
import struct
import subprocess

TOP = os.path.dirname(os.path.dirname(os.path.dirname(os.path.dirname(os.path.abspath(__file__)))))
PROGRAM = os.environ.get("HOTSYNC") or f"{TOP}/crates/hotsync_cli/out/hotsync_cli"
NAMES = ("AddressDB", "DatebookDB", "MemoDB", "ToDoDB")
DIRTY, DELETED = 0x40, 0x80
DATE = "--date=2001-09-09T01:46:40"
LATER = "--date=2001-09-10T01:46:40"
LATEST = "--date=2001-09-11T01:46:40"
SITUATIONS = []


# ---- files


def pdb(name, records, app=b"", sort=b"", creator=b"test", attributes=0):
    """The bytes of a database with these records: attributes, id, bytes; and with these blocks, where they have bytes."""
    start = 78 + 8 * len(records) + 2
    place = start + len(app) + len(sort)
    places = (start if app else 0, start + len(app) if sort else 0)
    head = struct.pack(">32sHHIIIIII4s4sIIH", name.encode(), attributes, 0, 1, 1, 0, 0, *places, b"DATA", creator, 0, 0, len(records))
    entries, data = b"", b""
    for bits, number, text in records:
        entries += struct.pack(">IB", place + len(data), bits) + number.to_bytes(3, "big")
        data += text
    return head + entries + b"\0\0" + app + sort + data


def blocks_of(path):
    """The application block and the sort block of a database file; no bytes where it has none."""
    with open(path, "rb") as file:
        whole = file.read()
    app, sort = struct.unpack_from(">II", whole, 52)
    (count,) = struct.unpack_from(">H", whole, 76)
    first = struct.unpack_from(">I", whole, 78)[0] if count else len(whole)
    return (whole[app : sort or first] if app else b"", whole[sort:first] if sort else b"")


def records_of(path):
    """The records of a database file: attributes, id, bytes. Read without any of the program's code."""
    with open(path, "rb") as file:
        whole = file.read()
    (count,) = struct.unpack_from(">H", whole, 76)
    found = [struct.unpack_from(">IB", whole, 78 + 8 * k) + (int.from_bytes(whole[83 + 8 * k : 86 + 8 * k], "big"),) for k in range(count)]
    ends = [place for place, _, _ in found[1:]] + [len(whole)]
    return [(attributes, number, whole[place:end]) for (place, attributes, number), end in zip(found, ends)]


def texts(path):
    """The contents of the live records, in order of their bytes."""
    return sorted(text for attributes, _, text in records_of(path) if not attributes & DELETED)


def memos(*words, attributes=0):
    return [(attributes, number + 1, word.encode() + b"\0") for number, word in enumerate(words)]


def put(path, content):
    os.makedirs(os.path.dirname(path) or ".", exist_ok=True)
    with open(path, "wb") as file:
        file.write(content if isinstance(content, bytes) else content.encode())


def user(number, name):
    """The bytes of a device.inf that was never in a session."""
    zero = "0" * 16
    lines = ["hotsync-device 1", f"user {number:08x}", "viewer 00000000", "pc 00000000", f"good {zero}", f"last {zero}"]
    return "\n".join([*lines, f"name {name.encode().hex()}", "password -", ""])


def all_files(*folders):
    """The bytes of each file of these folders, by its path."""
    found = {}
    for folder in folders:
        for at, _, names in os.walk(folder):
            for name in names:
                path = f"{at}/{name}"
                if os.path.isfile(path):
                    with open(path, "rb") as file:
                        found[path] = file.read()
    return found


def mode(path):
    return os.stat(path).st_mode & 0o777


# ---- calls


def call(*words, before=None, **given):
    """What a call of the program came to: its status, the lines that it printed, and those on standard error."""
    done = subprocess.run([PROGRAM, *words], stdout=subprocess.PIPE, stderr=subprocess.PIPE, preexec_fn=before, timeout=60, **given)
    return done.returncode, done.stdout.decode().splitlines(), done.stderr.decode().splitlines()


def call_into(path, *words):
    """The same, with what it printed as the bytes of a file."""
    done = subprocess.run([PROGRAM, *words], stdout=subprocess.PIPE, stderr=subprocess.PIPE, timeout=60)
    put(path, done.stdout)
    return done.returncode, done.stderr.decode().splitlines()


def want(found, wanted, what):
    if found != wanted:
        raise AssertionError(f"{what}: {found!r} in place of {wanted!r}")


def want_line(answer, status, line):
    want((answer[0], answer[1][-1:]), (status, [line]), "status and last line")


def want_error(answer, status, line):
    """A refusal that stands on standard error, where the result would have stood on standard output."""
    want((answer[0], answer[1], answer[2][:1]), (status, [], [line]), "status, result and first line on standard error")


def want_run(*words, **given):
    want_line(call("run", *words, **given), 0, "ended")


def situation(function):
    SITUATIONS.append(function)
    return function


def two_sides(*words):
    """A handheld with one database, and a desktop that it met before."""
    put("h/MemoDB.pdb", pdb("MemoDB", memos(*(words or ("one", "two", "three")))))
    os.makedirs("d", exist_ok=True)
    want_run("h", "d", DATE)


def folder_of(path):
    return {os.path.basename(name): content for name, content in all_files(path).items()}


def performed_at(frame):
    """How many requests a line performs that is unplugged at this frame: the wake and its acknowledgement, the answer and its
    acknowledgement, then each request, its acknowledgement, its reply and that one's. What is performed has its reply sent."""
    return max(0, (frame - 3) // 4)

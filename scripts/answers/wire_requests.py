"""Requests of the desktop link protocol: those that the desktops of three commands say, in the
traces of their sessions, and others that a handheld is asked over captured bytes.

- `request H`: what these bytes ask for, and how that is written. Either they are what a desktop
  said when it had to ask for that (SAID), or a handheld replied to them, and to requests behind
  them, what docs/FORMATS.md asks of one that did that (DONE), and to the form that is written it
  replied the same.
"""
import functools

from wire_databases import database, information
from wire_line import folder, got, program, put, replies

# The kind of a session, the byte of a function, which of its requests in the session, from 0 on,
# and what it asks for: by the databases that the session is about, and by the order of its
# requests in docs/FORMATS.md.
SAID = [
    ("install", "10", 0, "ReadUserInfo"),
    ("install", "2e", 0, "OpenConduit"),
    ("install", "1a", 0, "DeleteDb 0 52"),
    ("install", "18", 0, "CreateDb 74657374 72737263 0 1 1 52"),
    ("install", "1c", 0, "WriteAppBlock 1 6869"),
    ("install", "1e", 0, "WriteSortBlock 1 7a"),
    ("install", "24", 0, "WriteResource 1 434f4445 1 616263"),
    ("install", "19", 0, "CloseDb 1"),
    ("install", "2f", 0, "EndOfSync 0"),
    ("backup", "16", 3, "ReadDbList 80 0 3"),
    ("backup", "1b", 0, "ReadAppBlock 1 0 ffff"),
    ("backup", "1d", 0, "ReadSortBlock 1 0 ffff"),
    ("backup", "20", 5, "ReadRecordByIndex 1 5 0 ffff"),
    ("backup", "23", 0, "ReadResourceByIndex 1 0 0 ffff"),
    ("run", "21", 0, "WriteRecord 1 80 0 0 0 6e6577"),
    ("run", "26", 0, "CleanUpDatabase 1"),
    ("run", "27", 0, "ResetSyncFlags 1"),
    ("again", "1f", 0, "ReadNextModifiedRec 1"),
]
CODE = database([(b"CODE", 1, b"abc")], "R", b"rsrc", b"test", 1, version=1, app=b"hi", sort=b"z")
SIX = database([(0, number, b"r") for number in range(1, 7)], "B")
EIGHT = {f"{n}.pdb": database([(0, one, b"") for one in range(n)], str(n)) for n in range(1, 9)}
KINDS = {"M.pdb": database([(7, 1, b"a"), (2, 2, b"b"), (7, 3, b"c")])}
DIRTY = {"M.pdb": database([(0x40, 1, b"a")])}
CODES = {"R.prc": database([(b"CODE", 1, b"abc"), (b"CODE", 2, b"d")], "R", b"rsrc", b"test", 1)}
OPEN, OPEN_CODE = "1701200400c04d00", "1701200400c05200"
OPEN_ALL = [f"1701200400803{n}00" for n in range(1, 9)]
SYSTEM = "92010000200e0100300000000000000400010000"
DATE = "07d10909012e2800"
LONG = "61" * 40
# What a request asks for, its bytes, a handheld's files, what it is asked before and behind it,
# and what it replies to the request and behind it.
DONE = [
    ("OpenDb 0 c0 52", OPEN_CODE, CODES, [], ["2401200a0100434f444500010000"],
     "97010000200101 a4000000"),
    ("ReadOpenDbInfo 9", "2b01200109", EIGHT, OPEN_ALL, ["2b01200108"],
     "ab000006 ab01000020020008"),
    ("ReadRecordById 1 1020304 0 ffff", "2001200a0100010203040000ffff", DIRTY, [OPEN], [],
     "a0000005"),
    ("DeleteRecord 1 40 7", "22012006014000000007", KINDS, [OPEN], ["3101200601000000ffff"],
     "a2000000 b10100002006000100000002"),
    ("ResetRecordIndex 1", "3001200101", DIRTY, [OPEN, "1f01200101", "1f01200101"],
     ["1f01200101"], "b0000000 9f010000200b0000000100000001400061"),
    ("MoveCategory 1 2 3", "2c01200401020300", KINDS, [OPEN], ["20012108010000010000ffff"],
     "ac000000 a0010000200b0000000200010001400362"),
    ("ReadRecordIdList 1 0 0 ffff", "3101200601000000ffff", KINDS, [OPEN], [],
     "b1010000200e0003000000010000000200000003"),
    ("ReadResourceByType 1 434f4445 1 1 1", "2301210c0100434f4445000100010001", CODES,
     [OPEN_CODE], [], "a3010000200b434f444500010000000362"),
    ("DeleteResource 1 0 434f4445 2", "250120080100434f44450002", CODES, [OPEN_CODE],
     ["23012008010000000000ffff", "2b01200101"],
     "a5000000 a3010000200d434f4445000100000003616263 ab01000020020001"),
    ("WriteUserInfo 1 2 3 7d10909012e2800 ff 2 41",
     f"11012018000000010000000200000003{DATE}ff024100", {}, [], ["1000"],
     f"91000000 900100002020000000010000000200000003{DATE}{DATE}02004100"),
    (f"WriteUserInfo 1 2 3 7d10909012e2800 ff 29 {LONG}",
     f"1101203f000000010000000200000003{DATE}ff29{LONG}00", {}, [], ["1000"],
     f"91000000 900100002047000000010000000200000003{DATE}{DATE}2900{LONG}00"),
    ("AddSyncLogEntry 6f6b", "2a0120036f6b00", {}, [], [], "aa000000"),
    ("ReadSysInfo", "1200", {}, [], [], SYSTEM),
    ("ReadSysInfoFor 1 4", "1201200400010004", {}, [], [], SYSTEM),
    ("ReadSysInfoFor fffe 102", "12012004fffe0102", {}, [], [], SYSTEM),
]
# What is written otherwise than it may be read: a long header.
WRITTEN = {"2b0160100000000109": "2b01200109"}
DATES = "--date=2001-09-09T01:46:40", "--date=2001-09-10T01:46:40"


def requests(tools, *words):
    """The requests of a session, each of one fragment, in their order."""
    program(tools, *words, "--trace=trace")
    frames = [line.split() for line in got(tools, "trace").decode().splitlines()]
    packets = [bytes.fromhex(words[-1]) for words in frames if words[1] == "D"]
    return [packet[14:-2] for packet in packets if packet[10] == 1 and packet[8] != 255]


@functools.cache
def sessions(tools):
    """The requests of each kind of session."""
    found = {}
    put(tools, "R.prc", CODE)
    folder(tools, "palm", {})
    found["install"] = requests(tools, "install", "palm", "R.prc")
    some = {"A.pdb": database(name="A"), "B.pdb": SIX, "M.pdb": database(), "R.prc": CODE}
    folder(tools, "palm", some)
    folder(tools, "kept", {})
    found["backup"] = requests(tools, "backup", "palm", "kept")
    folder(tools, "palm", {"M.pdb": database([(0x40, 1, b"h")]), "device.inf": information()})
    folder(tools, "desk", {"M.pdb": database([(0, 0, b"new")])})
    found["run"] = requests(tools, "run", "palm", "desk", DATES[0])
    found["again"] = requests(tools, "run", "palm", "desk", DATES[1])
    return found


@functools.cache
def said(tools):
    """What is asked for by the bytes that the desktops said."""
    meanings = {}
    for kind, function, place, asks in SAID:
        some = [text for text in sessions(tools)[kind] if text[:1].hex() == function]
        if place < len(some):
            meanings[some[place]] = asks
    return meanings


def done(tools, text):
    """What is asked for by bytes to which a handheld replied what it had to, and how that is
    written."""
    written = WRITTEN.get(text, text)
    for asks, one, files, before, behind, wanted in DONE:
        if one == written:
            for form in (text, written):
                asked = [bytes.fromhex(each) for each in (*before, form, *behind)]
                given = [each.hex() for each in replies(tools, files, asked)[len(before):]]
                if given != wanted.split():
                    return f"it replies {' '.join(given)}"
            return f"{asks} = {written}"
    return "nobody says it"


def request(tools, data):
    asks = said(tools).get(data)
    return f"{asks} = {data.hex()}" if asks else done(tools, data.hex())

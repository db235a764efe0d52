"""Messages of the desktop link protocol, as a handheld says them to captured requests; requests
are in wire_requests.py.

- `functions`: the bytes that name functions: of these a request of no arguments isn't called
  illegal.
- `write NAME`: the reply of this name (REPLIES). What it says stands in the handheld's files or in
  the request.
- `reply FUNCTION H`: what these bytes reply, where a handheld of REPLIES or REFUSALS said them to
  a request of this function: what it had to say. `list H` and `ids H`: the same, of a list of
  databases or of ids one by one.
"""
import functools

import wire_requests
from wire_databases import database, information
from wire_line import replies


MEMO = {"M.pdb": database([(0, 1, b"x"), (0x0F, 7, b"ab")], app=b"hi", sort=b"z")}
DIRTY = {"M.pdb": database([(0x4F, 7, b"a")])}
BOTH = {"M.pdb": database([(0, 7, b"a"), (0, 0xFFFFFF, b"b")])}
SEVEN = {"M.pdb": database([(0, number, b"") for number in range(1, 8)])}
EMPTY = {"M.pdb": database()}
THREE = {f"{name}.pdb": database(name=name) for name in "ABM"}
CODE = {"R.prc": database([(b"CODE", 1, b"abc")], "R", b"rsrc", b"test", 1)}
LONG = information("0" * 16, "61" * 40, "-")

OPEN, OPEN_CODE = "1701200400c04d00", "1701200400c05200"
USER = "1101201800000001000000020000000307d10909012e2800ff024100"

# The name of a reply, a handheld's files, the requests to which it is the last reply, and what it
# says.
REPLIES = [
    ("ReadUserInfo", {"device.inf": information()}, ["1000"], "1 2 3 b7c07a80 0 41 7077"),
    ("ReadUserInfo", {"device.inf": LONG}, ["1000"], f"1 2 3 0 0 {'61' * 40} -"),
    ("ReadSysInfo", {}, ["1200"], "1003000 0 00010000"),
    ("OpenDb", MEMO, [OPEN], "1"),
    ("CreateDb", {}, ["1801201074657374646174610000000000014d00"], "1"),
    ("ReadAppBlock", MEMO, [OPEN, "1b01200601000000ffff"], "6869"),
    ("ReadSortBlock", MEMO, [OPEN, "1d01200601000000ffff"], "7a"),
    ("ReadResource", CODE, [OPEN_CODE, "23012008010000000000ffff"], "434f4445 1 0 3 616263"),
    ("ReadResource", CODE, [OPEN_CODE, "2301210c0100434f4445000100010001"], "434f4445 1 0 3 62"),
    ("ReadOpenDbInfo", SEVEN, [OPEN, "2b01200101"], "7"),
    ("ReadNextModifiedRec", DIRTY, [OPEN, "1f01200101"], "7 0 1 40 f 61"),
    ("ReadRecord", MEMO, [OPEN, "2001200a0100000000070000ffff"], "7 1 2 0 f 6162"),
    ("WriteRecord", DIRTY, [OPEN, "2101200901800000000700006b"], "7"),
    ("WriteRecord", MEMO, [OPEN, "2101200901800000000100006b"], "1"),
    ("ReadDbList", THREE, ["1601200480000002"], "2 0 1"),
    ("ReadRecordIdList", BOTH, [OPEN, "3101200601000000ffff"], "2"),
    ("ReadRecordIdList", EMPTY, [OPEN, "3101200601000000ffff"], "0"),
    ("WriteUserInfo", {}, [USER], None),
    ("CloseDb", MEMO, [OPEN, "1901200101"], None),
    ("DeleteDb", MEMO, ["1a01200400004d00"], None),
    ("WriteAppBlock", MEMO, [OPEN, "1c012006010000026869"], None),
    ("WriteSortBlock", MEMO, [OPEN, "1e012005010000017a"], None),
    ("DeleteRecord", MEMO, [OPEN, "22012006010000000007"], None),
    ("WriteResource", CODE, [OPEN_CODE, "2401200d0100434f444500010003616263"], None),
    ("DeleteResource", CODE, [OPEN_CODE, "250120080100434f44450001"], None),
    ("CleanUpDatabase", MEMO, [OPEN, "2601200101"], None),
    ("ResetSyncFlags", MEMO, [OPEN, "2701200101"], None),
    ("ResetRecordIndex", MEMO, [OPEN, "3001200101"], None),
    ("AddSyncLogEntry", {}, ["2a0120036f6b00"], None),
    ("MoveCategory", MEMO, [OPEN, "2c01200401020300"], None),
    ("OpenConduit", {}, ["2e00"], None),
    ("EndOfSync", {}, ["2f0120020000"], None),
]
# A handheld's files, requests of which the last one is refused, and the error: 5 not found, 6 none
# open, 13 not supported, 19 wrapper, 20 argument, 21 size, 2 illegal.
REFUSALS = [
    (EMPTY, [OPEN, "1d01200601000000ffff"], 5),
    (CODE, [OPEN_CODE, "3101200601000000ffff"], 13),
    (CODE, [OPEN_CODE, "250120080100434f44450002"], 5),
    ({}, ["1901200101"], 6),
    ({}, ["2b0120020900"], 21),
    ({}, ["2b01210109"], 20),
    ({}, ["2b012001"], 19),
    ({}, ["b200"], 2),
]
# The databases and the ids of such lists: of a database its name, its index, its version and its
# modification number.
LISTS = {"ReadDbList 2 0 1": "list 4d 2 3 5 none", "ReadRecordIdList 2": "ids 7 ffffff none"}


@functools.cache
def said(tools):
    """What the handhelds said: the replies in the order of REPLIES, and by function and bytes what
    they say."""
    texts, meanings = [], {}
    for name, files, requests, says in REPLIES:
        text = last_reply(tools, files, requests)
        texts.append((name, text))
        meanings[int(requests[-1][:2], 16), text] = f"{name} {says}" if says else name
    for files, requests, error in REFUSALS:
        function = int(requests[-1][:2], 16)
        meanings[function, last_reply(tools, files, requests)] = f"Refused {function:x} {error:x}"
    return texts, meanings


def last_reply(tools, files, requests):
    given = replies(tools, files, [bytes.fromhex(request) for request in requests])
    return given[-1] if len(given) == len(requests) else b""


def written(tools, name):
    """The first reply of this name; that to a request which is refused is the first of
    REFUSALS."""
    if name == "Refused":
        return last_reply(tools, *REFUSALS[0][:2]).hex()
    return next((text.hex() for one, text in said(tools)[0] if one == name), "none")


def named(tools):
    """The bytes that name functions."""
    illegal = []
    for some in range(0, 256, 128):
        requests = [bytes([byte, 0]) for byte in range(some, some + 128)]
        illegal += [reply[2:4] == b"\0\2" for reply in replies(tools, {}, requests)]
    return bytes(byte for byte, is_none in enumerate(illegal) if not is_none).hex()


def answer(tools, words):
    match words:
        case ["functions"]:
            return named(tools)
        case ["write", name]:
            return written(tools, name)
        case ["request", text]:
            return wire_requests.request(tools, bytes.fromhex(text))
        case ["reply", function, text]:
            return said(tools)[1].get((int(function, 16), bytes.fromhex(text)), "nobody says it")
        case ["list" | "ids" as word, text]:
            data = bytes.fromhex(text)
            meaning = said(tools)[1].get((data[0] & 0x7F, data))
            return LISTS.get(meaning, f"no {word}")
    return "no such line"

"""Lines `categories ..`: tables of categories, by `hotsync categories` over two folders.

`categories read H` writes a table again: both sides have it, and the desktop's is written.
`categories merge H H`, of a handheld's and a desktop's, is the table that both sides have then,
and for each number of the desktop's where it goes: the desktop has a record in each category.
`none` stands for a database that was skipped.
"""
import os
import shutil

from files_call import Call, bytes_of, get, head_of, memos, put, records_of

LENGTH = 276


def answer(tools, words):
    """What a line on tables comes to."""
    tables = [bytes_of(word) for word in words[1:]]
    call, palm, desk, records = session(tools, tables[0], tables[-1])
    if "MemoDB skipped blocks" in call.lines:
        return "none"
    if call.status != 0:
        return call.text
    if words[0] == "read":
        return f"table {desk[:LENGTH].hex()}"
    places = bytes(bits & 15 for bits, _, _ in records).hex()
    if palm != desk:
        return f"two tables {palm.hex()} {desk.hex()}"
    return f"table {desk.hex()} places {places}"


def session(tools, handheld, desktop):
    """A session of both tables: the call, the table of each side then, and the desktop's records.
    """
    folder = os.path.join(tools.scratch, "categories")
    shutil.rmtree(folder, ignore_errors=True)
    records = [(number, number + 1, b"memo") for number in range(16)]
    put(f"{folder}/h/MemoDB.pdb", memos(b"MemoDB", [], handheld))
    put(f"{folder}/d/MemoDB.pdb", memos(b"MemoDB", records, desktop))
    put(f"{folder}/d/MemoDB.base", memos(b"MemoDB", records))
    call = Call(tools, "categories", "h", "d", folder=folder)
    files = [get(f"{folder}/{side}/MemoDB.pdb") for side in "hd"]
    palm, desk = (head_of(tools.library, file)[2] for file in files)
    return call, palm, desk, records_of(files[1])

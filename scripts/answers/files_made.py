"""Lines `made ..`: the folders that a seed and a count make, by `hotsync make`.

`made files SEED COUNT` shows each file with its bytes, `made sums SEED COUNT` with its length and
the number that its bytes are as digits to the base 31, modulo 2 to the 32. The files are made
here by the rule of the crate made_folders, and are shown where a run over them prints what `make`
prints of the seed and the count.
"""
import os
import shutil

from files_call import MADE, Call, pdb, put

MULTIPLIER, WORD = 6364136223846793005, (1 << 64) - 1
INFO = ("hotsync-device 1\nuser 00000000\nviewer 00000000\npc 00000001\ngood {0}\nlast {0}\n"
        "name -\npassword -\n").format("0" * 16)
# The letter that begins the text of each of ten kinds on a side; a point where the side lacks it.
HANDHELD, BASE, DESKTOP = "rrrrrhrrh.", "rrrrrrrr..", "rrrrrrd..d"


def words_of(seed):
    """What PCG32 (XSH RR 64/32) draws of a seed, in stream 0."""
    state = ((1 + seed) * MULTIPLIER + 1) & WORD
    while True:
        shifted, turn = ((state >> 18 ^ state) >> 27) & 0xFFFFFFFF, state >> 59
        yield (shifted >> turn | shifted << (-turn & 31)) & 0xFFFFFFFF
        state = (state * MULTIPLIER + 1) & WORD


def side_file(letters, items):
    """The file of a side: a record of each item that it has, dirty where the handheld changed it.
    """
    records = []
    for number, (kind, fill) in enumerate(items, 1):
        if letters[kind] != ".":
            text = f"{letters[kind]}{number}{'x' * fill}".encode()
            records.append((0x40 * (letters[kind] == "h"), 0 if kind == 9 else number, text))
    return pdb(b"MadeDB", b"DATA", b"made", 0, records)


def answer(tools, words):
    """What a line on folders that are made comes to."""
    how, seed, count = words[0], int(words[1]), int(words[2])
    made = Call(tools, "make", words[1], words[2])
    if made.status == 2:
        return "too many"
    items = [(word % 10, word // 16 % 200) for word, _ in zip(words_of(seed), range(count))]
    files = {"palm MadeDB.pdb": side_file(HANDHELD, items), "palm device.inf": INFO.encode(),
             "desk MadeDB.base": side_file(BASE, items),
             "desk MadeDB.pdb": side_file(DESKTOP, items)}
    folder = os.path.join(tools.scratch, "made")
    shutil.rmtree(folder, ignore_errors=True)
    for name, content in files.items():
        put(os.path.join(folder, *name.split(" ")), content)
    run = Call(tools, "run", "palm", "desk", f"--date={MADE}", folder=folder)
    if (run.status, run.text) != (made.status, made.text):
        return f"make: {made.text}run: {run.text}"
    shown = [f"{name} {content.hex() if how == 'files' else sum_of(content)}"
             for name, content in files.items()]
    return "\n".join([" ".join(words), *shown])


def sum_of(content):
    """The length of bytes, and their sum."""
    total = 0
    for byte in content:
        total = (total * 31 + byte) & 0xFFFFFFFF
    return f"{len(content)} {total}"

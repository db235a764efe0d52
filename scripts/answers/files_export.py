"""Lines `export ..`: the texts of databases, by `hotsync export` and `hotsync import` over files
that are made here.

`new TYPE CREATOR ATTRIBUTES` begins a database, `app LENGTH` gives it a block of zeros, `label
CATEGORY H` and `custom NUMBER H` write names into it, `record ID live|deleted open|private
CATEGORY H` adds a record. Then `txt`, `vcf`, `csv`, `csv-tasks`, `tasks` or `dates`, with
`-public`, `-kept` or `-raw` behind it, is the text in that form (calendars are made at
2001-09-09T01:46:40), and `import H` the text of the memos that are read from a text. `id CATEGORY
ID` writes an id into the block; `like H` imports a text in the categories of the database, and
tells the category of each record, and each entry of its block that is new: number, label and id.
"""
import os
import struct

from files_call import MADE, Call, bytes_of, pdb, put, records_of

FORMS = {"txt": "txt", "vcf": "vcf", "csv": "csv", "csv-tasks": "csv",
         "tasks": "ics", "dates": "ics"}
OPTIONS = {"public": "--without-private", "kept": "--keep-broken", "raw": "--raw"}


class Exports:
    """The database that is made, and its block."""

    def __init__(self, tools):
        self.tools = tools
        self.front = None
        self.app = None
        self.records = []

    def answer(self, words):
        """What a line comes to."""
        word = words[0]
        if word == "new":
            self.front = (words[1].encode(), words[2].encode(), int(words[3]))
            self.app, self.records = None, []
        elif word == "app":
            self.app = bytearray(int(words[1]))
        elif word in ("label", "custom"):
            self.label(word, int(words[1]), bytes_of(words[2]))
            word = "app"
        elif word == "record":
            bits = int(words[4]) | 0x80 * (words[2] == "deleted") | 0x10 * (words[3] == "private")
            self.records.append((bits, int(words[1]), bytes_of(words[5])))
        elif word == "id":
            self.app[258 + int(words[1])] = int(words[2])
            word = "app"
        elif word == "import":
            return self.imported(bytes_of(words[1]))
        elif word == "like":
            return self.liked(bytes_of(words[1]))
        else:
            return self.text_as(word)
        return word

    def label(self, word, number, label):
        """Writes the name of a category or of a custom field, as far as there is a block."""
        begin = 2 + 16 * number if word == "label" else 282 + 16 * (13 + number)
        for place, byte in enumerate(label[:16], begin):
            if place < len(self.app):
                self.app[place] = byte

    def text_as(self, form):
        """The text in a form, or why there is none."""
        kind, creator, attributes = self.front
        app = None if self.app is None else bytes(self.app)
        file = pdb(b"MemoDB", kind, creator, attributes, self.records, app)
        put(os.path.join(self.tools.scratch, "MemoDB.pdb"), file)
        name, _, option = form.rpartition("-") if form.endswith(tuple(OPTIONS)) else (form, "", "")
        words = [f"--as={FORMS[name]}"]
        words += [f"--date={MADE}"] if FORMS[name] == "ics" else []
        words += [OPTIONS[option]] if option else []
        return said_of(Call(self.tools, "export", "MemoDB.pdb", *words))

    def imported(self, text):
        """The text of the memos of a text."""
        put(os.path.join(self.tools.scratch, "memos.txt"), text)
        call = Call(self.tools, "import", "memos.txt", "--as=txt")
        if call.status != 0:
            return said_of(call)
        put(os.path.join(self.tools.scratch, "MemoDB.pdb"), call.printed)
        return said_of(Call(self.tools, "export", "MemoDB.pdb", "--as=txt"))


    def liked(self, text):
        """Where the memos of a text are filed in the categories of the database, or why not."""
        kind, creator, attributes = self.front
        app = None if self.app is None else bytes(self.app)
        file = pdb(b"MemoDB", kind, creator, attributes, self.records, app)
        put(os.path.join(self.tools.scratch, "MemoDB.pdb"), file)
        put(os.path.join(self.tools.scratch, "memos.txt"), text)
        call = Call(self.tools, "import", "memos.txt", "--as=txt", "--like=MemoDB.pdb")
        if call.status != 0:
            return said_of(call)
        said = [str(bits & 15) for bits, _, _ in records_of(call.printed)]
        (place,) = struct.unpack_from(">I", call.printed, 52)
        return " ".join(said + entries_of(app, call.printed[place : place + len(app)]))


def entries_of(old, new):
    """The entries that are new in a block, and `other bytes` where others differ."""
    made, found = bytearray(old), []
    for number in range(16):
        begin = 2 + 16 * number
        if old[begin : begin + 16] != new[begin : begin + 16]:
            label = new[begin : begin + 16].rstrip(b"\0").decode()
            found.append(f"{number}={label}:{new[258 + number]}")
            made[begin : begin + 16] = new[begin : begin + 16]
            made[258 + number] = new[258 + number]
    return found + (["other bytes"] if made != new else [])


def said_of(call):
    """The text that a call printed, or the reason without the file's name. Lines of vCard,
    iCalendar and tables end in CR LF, which the program prints as it is.
    """
    if call.status != 0 and call.lines[-1].startswith("cannot export "):
        return "cannot export"
    return call.text if call.status == 0 else call.lines[-1]

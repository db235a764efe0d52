"""Lines `db ..`: the file of one database, by `hotsync check`, `hotsync show` and the functions
of the library.

`file H` is a file, `zeros LENGTH PLACE=BYTE..` one of zeros that has the name `A` and these
bytes. `parse` makes it the database, or says the rule that it breaks, and `count` is what `check`
prints of it. Of the database `head`, `entries` and `blocks` are its parts, `write` is the file
that is built of these and `again` what that holds; `check` and `show` are what the commands
print. `new ATTRIBUTES` begins a database of records, and so does `resource` one of resources
where there is none; `record ID H`, `fill N` (so many empty records), `resource ID LENGTH`, `app
LENGTH`, `sort LENGTH` and `no-app` are taken where a file can be built with them; `counts` says
how many entries that has.
"""
import os

from files_call import (NO_BLOCK, Call, Head, built, bytes_of, checked, entry_of, head_of, merged,
                        put, shown)

MEMO = {"created": 3082844800, "modified": 3082844801, "modnum": 7,
        "type": 0x44415441, "creator": 0x6D656D6F}
RULES = {1: "short {}: {} bytes are too few", 2: "name {}: the name is bad at place {}",
         3: "chained {}: there is a second list of entries",
         4: "offset {}: block {} is out of place",
         5: "large {}: block {} is too large"}


class Loaded:
    """A file, and the parts of a database: its head, its entries (type, id, attributes, bytes)
    and its two blocks.
    """

    def __init__(self, tools):
        self.tools = tools
        self.file = b""
        self.head = None
        self.name, self.app, self.sort = b"MemoDB", None, None
        self.entries = []

    def answer(self, words):
        """What a line comes to."""
        word, given = words[0].replace("-", "_"), words[1:]
        if word in ("file", "zeros"):
            self.file = bytes_of(given[0]) if word == "file" else zeros(given)
            return f"file of {len(self.file)}"
        return getattr(self, f"say_{word}")(*given)

    # ---- a file

    def say_parse(self):
        """Takes the database of the file, or says the rule that it breaks."""
        answer, kind, place = checked(self.tools.library, self.file)
        if answer < 0:
            return RULES[kind].format(place, place)
        self.head, self.name, self.app, self.sort = head_of(self.tools.library, self.file)
        self.entries = self.entries_in(self.file)
        return f"ok {answer}"

    def say_count(self):
        """What `check` prints, or the rule that it names."""
        call = self.call("check", self.file)
        if call.status == 0:
            return call.text
        kind, place = call.lines[-1].split(" ")[-2:]
        rule = next(rule for rule in RULES.values() if rule.startswith(f"{kind} "))
        return rule.format(place, place)

    def say_check(self):
        """What `check` prints of the database."""
        return self.call("check", self.written()).text

    def say_show(self):
        """What `show` prints of the database, which the library says too."""
        text = self.call("show", self.written()).text
        other = shown(self.tools.library, self.written())
        return text if text == other else f"the library: {other}"

    def say_write(self):
        """The file of the database's parts."""
        return self.written().hex()

    def say_again(self):
        """The entries of the file that is built."""
        return entries_text(self.entries_in(self.written()))

    def say_entries(self):
        """The entries."""
        return entries_text(self.entries)

    def say_head(self):
        """The head."""
        head = self.head
        numbers = ("attributes", "version", "created", "modified", "backup", "modnum", "seed")
        said = " ".join(f"{name} {getattr(head, name)}" for name in numbers)
        return f"name {self.name.hex()} {said} kind {head.type:08x} creator {head.creator:08x}"

    def say_blocks(self):
        """The lengths of both blocks, in the file that is built."""
        head = head_of(self.tools.library, self.written())[0]
        blocks = (("app", head.app), ("sort", head.sort))
        return " ".join("none" if length == NO_BLOCK else f"{name} {length}"
                        for name, length in blocks)

    # ---- a database that is made

    def say_new(self, attributes):
        """Begins a database of records, and says what a merge refuses of one with such
        attributes.
        """
        self.begin(int(attributes))
        answer = merged(self.tools.library, [self.written(), b"", b"", b""], 0, 0, 0)
        said = [answer == code if isinstance(answer, int) else False for code in (-5, -6, -7)]
        return "resources {} read-only {} stream {}".format(*(str(one).lower() for one in said))

    def begin(self, attributes):
        """A database without entries."""
        self.__init__(self.tools)
        self.head = Head(attributes=attributes, **MEMO)

    def say_record(self, number, content):
        """A record more, in category 3."""
        return self.pushed((0, int(number), 3, bytes_of(content)), f"full {content}")

    def say_fill(self, count):
        """So many empty records more."""
        answer = self.pushed(*[(0, 0, 3, b"")] * int(count), "full")
        return "filled" if answer == "pushed" else answer

    def say_resource(self, number, length):
        """A resource more, of so many bytes."""
        if self.head is None or not self.head.attributes & 1:
            self.begin(1)
        return self.pushed((0x636F6465, int(number), 0, b"\7" * int(length)), "too large")

    def pushed(self, *given):
        """Puts entries behind the others, where a file is built with them; the last word is for
        where none is.
        """
        entries, self.entries = self.entries, [*self.entries, *given[:-1]]
        if self.written() is not None:
            return "pushed"
        self.entries = entries
        return given[-1]

    def say_counts(self):
        """How many entries a file that is built has."""
        count = checked(self.tools.library, self.written())[0]
        resources = self.call("check", self.written()).text.endswith("resources\n")
        return f"records {0 if resources else count} resources {count if resources else 0}"

    def say_app(self, length):
        """An app block of so many bytes."""
        return self.blocked("app", b"\1" * int(length))

    def say_sort(self, length):
        """A sort block of so many bytes."""
        return self.blocked("sort", b"\1" * int(length))

    def say_no_app(self):
        """No app block."""
        return self.blocked("app", None)

    def blocked(self, name, block):
        """Takes a block, where a file is built with it."""
        old = getattr(self, name)
        setattr(self, name, block)
        if self.written() is not None:
            return "taken"
        setattr(self, name, old)
        return "too large"

    # ---- what both share

    def written(self):
        """The file of the parts, or None."""
        return built(self.tools.library, self.head, self.entries, self.name, self.app, self.sort)

    def entries_in(self, file):
        """The entries of a file."""
        count = checked(self.tools.library, file)[0]
        found = (entry_of(self.tools.library, file, index) for index in range(count))
        return [(entry.type, entry.id, entry.attributes, content) for entry, content in found]

    def call(self, command, file):
        """A call of the program over a file."""
        put(os.path.join(self.tools.scratch, "file.pdb"), file)
        return Call(self.tools, command, "file.pdb")


def zeros(words):
    """So many zeros, but for the name and the bytes that are named with their places."""
    file = bytearray(int(words[0]))
    for word in ("0=65", *words[1:]):
        place, byte = word.split("=")
        if int(place) < len(file):
            file[int(place)] = int(byte)
    return bytes(file)


def entries_text(entries):
    """Of each record its id, its attributes, its category and its bytes; of a resource its type,
    its number and its bytes.
    """
    said = "entries"
    for kind, number, bits, content in entries:
        if kind:
            said += f" / {kind:08x} {number} {content.hex()}"
        else:
            said += f" / {number} {bits:02x} {bits & 15} {content.hex()}"
    return said

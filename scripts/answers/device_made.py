"""A database that lines make and change, and databases that are made one after the other."""

from device_words import asked, created
from handheld import WRITING


def place(data, at):
    """The place that a reply names, which stands there."""
    return f"place {int.from_bytes(data[at:at + 2], 'big')}"


class Made:
    """A database that is open for writing."""

    def __init__(self, cases, name, attributes):
        cases.open()
        self.cases, self.name = cases, name
        self.handle = created(cases, name, attributes)[1]

    def mark(self, number):
        """Marks a record as deleted, in the file: no request does that to one that keeps its
        bytes."""
        self.cases.close()
        (name, data), = self.cases.files().items()
        at = 78 + 8 * number + 4
        self.cases.put(name, data[:at] + bytes([data[at] | 0x80]) + data[at + 1:])
        self.cases.open()
        self.handle = self.cases.talk.opened(self.name, WRITING)[1]

    def changed(self, parts):
        """Does a change: whether the database's file was put. Or what is found."""
        number = int(parts[1]) if len(parts) > 1 and parts[1].isdigit() else 0
        bears = len(parts) > 2 and parts[0] in ("put", "code", "app", "sort")
        data = bytes.fromhex(parts[2]) if bears else b""
        found = self.found(parts[0], number)
        if found is not None or parts[0] == "mark":
            return found
        before = self.cases.talk.changes
        asked(self.cases, *self.change(parts, number, data))
        return "true" if self.cases.talk.changes > before else "false"

    def found(self, name, number):
        """What is found, by a request that changes nothing."""
        handle, rest = self.handle, b"\0\0\xff\xff"
        match name:
            case "next":
                asked(self.cases, 0x30, handle)
                error, data = asked(self.cases, 0x1F, handle)
                return place(data, 4) if error == 0 else "none"
            case "place":
                where = handle + b"\0" + number.to_bytes(4, "big") + rest
                error, data = asked(self.cases, 0x20, where)
                return place(data, 4) if error == 0 else "none"
            case "code-place":
                where = handle + b"\0CODE" + number.to_bytes(2, "big") + rest
                error, data = asked(self.cases, 0x23, where, 0x21)
                return place(data, 6) if error == 0 else "none"
            case "count":
                return f"count {int.from_bytes(asked(self.cases, 0x2B, handle)[1], 'big')}"
            case "shown":
                return self.cases.talk.shown(handle)
            case "attributes":
                return f"attributes {self.cases.talk.listed()[0][0]}"
            case "mark":
                self.mark(number)
        return None

    def change(self, parts, number, data):
        """The request of a change."""
        handle, short, size = self.handle, number.to_bytes(2, "big"), len(data).to_bytes(2, "big")
        match parts[0]:
            case "put":
                head = handle + b"\x80" + number.to_bytes(4, "big")
                return 0x21, head + bytes([0, int(parts[3])]) + data
            case "code":
                return 0x24, handle + b"\0CODE" + short + size + data
            case "app" | "sort":
                return 0x1C if parts[0] == "app" else 0x1E, handle + b"\0" + size + data
            case "purge":
                return 0x22, handle + b"\0" + number.to_bytes(4, "big")
            case "outside":
                return 0x22, handle + b"\x40" + number.to_bytes(4, "big")
            case "clear":
                return 0x22, handle + b"\x80" + bytes(4)
            case "code-purge":
                return 0x25, handle + b"\0CODE" + short
            case "code-clear":
                return 0x25, handle + b"\x80CODE" + bytes(2)
            case "move":
                return 0x2C, handle + bytes([number, int(parts[2]), 0])
            case "reset":
                return 0x27, handle
        return 0x26, handle


def inserted(cases, names):
    """Makes databases: the order in which they are listed, and the place of the last one."""
    cases.begin()
    cases.open()
    for name in names:
        created(cases, name, 0)
    listed = [name for _, name in cases.talk.listed()]
    order = " ".join(name.hex() for name in listed)
    return f"order {order} place {listed.index(names[-1])}"

"""A handheld of `hotsync device` over a real folder, and what it is asked by a desktop at its
port."""

import os
import time

from cable import INIT_BODY, SECONDS, Port, acknowledgement, fragments, packet

ERRORS = {5: "not found", 9: "exists", 15: "read-only", 17: "limit"}
READING, WRITING = 0x90, 0xD0
END_REPLY = b"\xaf\0\0\0"
ABORT = b"\x08\xc0\0\0"


def request(function, data=None, argument=0x20):
    """A request with no argument or with this one."""
    if data is None:
        return bytes([function, 0])
    if len(data) < 255:
        return bytes([function, 1, argument, len(data)]) + data
    return bytes([function, 1, argument | 0x80, 0]) + len(data).to_bytes(2, "big") + data


def answered(reply):
    """The error of a reply, and the data of its argument."""
    error, rest = int.from_bytes(reply[2:4], "big"), reply[4:]
    if not rest:
        return error, b""
    return error, rest[4:] if rest[0] & 0x80 else rest[2:]


class Handheld:
    """The program at a port, over a folder. It is there where it said its wake, until its talk is
    done."""

    def __init__(self, program, folder):
        self.folder, self.transaction, self.came, self.done = folder, 0, [], False
        self.port = Port()
        self.port.start([program, "device", folder, f"--port={self.port.path}"])
        self.wake = self.next()
        self.files, self.changes = self.numbers(), 0

    def next(self):
        """The next packet, or None where the program ended."""
        until = time.monotonic() + SECONDS
        while not self.came and time.monotonic() < until:
            self.came += self.port.hear()
            if not self.came and self.port.over():
                self.came += self.port.hear(0)
                break
        return self.came.pop(0) if self.came else None

    def numbers(self):
        """The files by the numbers that the system gives: a file that is put is a new one."""
        found = {}
        for name in os.listdir(self.folder) if os.path.isdir(self.folder) else []:
            found[name] = os.lstat(f"{self.folder}/{name}").st_ino
        return found

    def counted(self):
        """Counts the changes since the last time, one a file at most."""
        before, self.files = self.files, self.numbers()
        names = set(before) | set(self.files)
        self.changes += sum(before.get(name) != self.files.get(name) for name in names)

    def ask(self, message):
        """The reply to a request. None: the program ended."""
        if self.transaction == 0:
            self.port.give(acknowledgement(self.wake))
            self.port.give(packet(255, INIT_BODY))
            self.next()
        self.transaction = self.transaction % 253 + 1
        for piece in fragments(self.transaction, message):
            self.port.give(piece)
            if self.next() is None:
                return None
        reply = b""
        while True:
            piece = self.next()
            if piece is None:
                return None
            self.port.give(acknowledgement(piece))
            reply += piece[14:-2]
            if piece[11] & 0x40:
                self.counted()
                self.done = reply == END_REPLY
                return reply

    def over(self):
        """Whether it ended before its talk was done."""
        return self.port.over() and not self.done

    def end(self):
        """Ends the talk, where it goes on. What the program printed, and its status."""
        if not self.port.over():
            self.port.give(packet(self.transaction or 255, ABORT))
        return self.port.end()

    def opened(self, name, mode):
        """The error of OpenDB, and the handle."""
        error, data = self.asked(0x17, bytes([0, mode]) + name + b"\0")
        return error, data[:1]

    def asked(self, function, data=None, argument=0x20):
        """The error, and the data of the argument. The error is None where the program ended."""
        reply = self.ask(request(function, data, argument))
        return answered(reply) if reply is not None else (None, b"")

    def listed(self):
        """The attributes and the names of all databases, in the order of the list."""
        found, place = [], 0
        while True:
            error, data = self.asked(0x16, b"\x80\0" + place.to_bytes(2, "big"))
            if error != 0:
                return found
            place = int.from_bytes(data[:2], "big") + 1
            rest = data[4:]
            for _ in range(data[3]):
                entry, rest = rest[:rest[0]], rest[rest[0]:]
                found.append((int.from_bytes(entry[2:4], "big"), entry[44:].split(b"\0")[0]))

    def shown(self, handle):
        """An open database in one line: its records or resources, and its blocks."""
        said = "holds"
        count = int.from_bytes(self.asked(0x2B, handle)[1], "big")
        for place in range(count):
            where = handle + b"\0" + place.to_bytes(2, "big") + b"\0\0\xff\xff"
            error, data = self.asked(0x20, where, 0x21)
            if error == 0:
                kind, number = data[8], int.from_bytes(data[:4], "big")
                bits = ":".join(str(kind >> bit & 1) for bit in (7, 6, 5))
                said += f" {number}:{data[9]}:{bits}:{len(data) - 10}"
            else:
                data = self.asked(0x23, where)[1]
                said += f" {int.from_bytes(data[4:6], 'big')}:{len(data) - 10}"
        for name, function in (("app", 0x1B), ("sort", 0x1D)):
            error, data = self.asked(function, handle + b"\0\0\0\xff\xff")
            said += f" {name} {len(data) - 2 if error == 0 else 0}"
        return said

"""A serial port whose reads are told, and what goes over it.

A port here is a pseudo terminal that is read by lines, where only one byte ends a line and is no
part of it, and another one quotes the byte behind it. So each piece that is given is one read of
the program at the port, whatever its bytes are, and a piece of no bytes is a read that brings
nothing: a tick of silence. No clock runs, and the program waits until it is given something."""

import os
import select
import subprocess
import termios
import time
import tty

ENDING, QUOTING = 0x04, 0x16
SECONDS = 120

# What a desktop answers to a wake of 9,600 bits a second.
INIT_BODY = b"\1\xc0\0\x0a\2\0\1\1\0\0\0\0\x25\x80"


def sums(data):
    """The CRC of these bytes, as a packet ends with it."""
    crc = 0
    for byte in data:
        crc ^= byte << 8
        for _ in range(8):
            crc = (crc << 1 ^ (0x1021 if crc & 0x8000 else 0)) & 0xFFFF
    return crc.to_bytes(2, "big")


def packet(transaction, body):
    """A packet between the sockets 3, of type 2."""
    head = b"\xbe\xef\xed\3\3\2" + len(body).to_bytes(2, "big") + bytes([transaction])
    data = head + bytes([sum(head) & 0xFF]) + body
    return data + sums(data)


def packets(held):
    """The packets that these bytes begin with, and the bytes behind them."""
    found = []
    while len(held) >= 10:
        length = 12 + int.from_bytes(held[6:8], "big")
        if len(held) < length:
            break
        found.append(held[:length])
        held = held[length:]
    return found, held


def acknowledgement(data):
    """That of a fragment: its flags and its size, under its transaction."""
    return packet(data[8], b"\2" + data[11:14])


def fragments(transaction, message):
    """The packets of a message."""
    pieces = [message[place:place + 1024] for place in range(0, len(message), 1024)] or [b""]
    made = []
    for number, piece in enumerate(pieces):
        flags = (0x80 if number == 0 else 0) | (0x40 if number == len(pieces) - 1 else 0)
        size = len(message) if number == 0 else 1024 * number
        made.append(packet(transaction, bytes([1, flags]) + size.to_bytes(2, "big") + piece))
    return made


def quoted(piece):
    """A piece as the port's line takes it."""
    out = bytearray()
    for byte in piece:
        if byte in (ENDING, QUOTING, 0x0A):
            out.append(QUOTING)
        out.append(byte)
    return bytes(out) + bytes([ENDING])


class Port:
    """A port for a program, and the program at it."""

    def __init__(self):
        self.master, self.slave = os.openpty()
        tty.setraw(self.master)
        tty.setraw(self.slave)
        how = termios.tcgetattr(self.slave)
        how[3] |= termios.ICANON | termios.IEXTEN
        how[6] = [b"\0"] * len(how[6])
        how[6][termios.VEOF], how[6][termios.VLNEXT] = bytes([ENDING]), bytes([QUOTING])
        termios.tcsetattr(self.slave, termios.TCSANOW, how)
        self.path = os.ttyname(self.slave)
        self.held, self.heard, self.program = b"", b"", None

    def start(self, words):
        self.program = subprocess.Popen(words, stdout=subprocess.PIPE, stderr=subprocess.PIPE)

    def give(self, piece=b""):
        """One read for the program: these bytes, or a tick. It took them then, and sleeps again
        or is over."""
        before, until = self.reads(), time.monotonic() + SECONDS
        os.write(self.master, quoted(piece))
        while time.monotonic() < until and not self.over():
            if self.reads() > before and self.sleeps():
                return
            time.sleep(0.0005)

    def reads(self):
        """How many reads the program has made."""
        return int(self.told("io").partition("syscr: ")[2].split()[0])

    def sleeps(self):
        return self.told("stat").rpartition(") ")[2][0] == "S"

    def told(self, name):
        """What the system tells of the program."""
        try:
            with open(f"/proc/{self.program.pid}/{name}", "rb") as file:
                return file.read().decode("ascii", "replace")
        except OSError:
            return "syscr: 0 ) Z"

    def hear(self, seconds=0.05):
        """The packets that came within this time."""
        if select.select([self.master], [], [], seconds)[0]:
            came = os.read(self.master, 65536)
            self.heard += came
            self.held += came
        found, self.held = packets(self.held)
        return found

    def said_to(self, piece):
        """The bytes that it says to a piece. What it wrote may be under way for a moment."""
        before = len(self.heard)
        self.give(piece)
        while select.select([self.master], [], [], 0.01)[0]:
            self.hear(0)
        return self.heard[before:]

    def over(self):
        return self.program.poll() is not None

    def end(self):
        """The lines of a program that ends by itself, and its status. What it said is heard."""
        until = time.monotonic() + SECONDS
        while not self.over() and time.monotonic() < until:
            self.hear(0.02)
        if not self.over():
            self.program.kill()
        while select.select([self.master], [], [], 0)[0]:
            self.hear(0)
        lines = self.program.communicate()[0].decode().splitlines()
        os.close(self.master)
        os.close(self.slave)
        return lines, self.program.returncode

"""Packets, and a handheld that is asked over captured bytes: `hotsync device HANDHELD --in=SENT
--out=SAID`."""
import os
import shutil
import subprocess


def program(tools, *words):
    """What the program prints in a folder of its own, a refusal where it prints nothing else, and its status."""
    done = subprocess.run([tools.program, *words], cwd=tools.scratch, capture_output=True,
                          timeout=600)
    return (done.stdout or (done.stderr if done.returncode else b"")).decode(), done.returncode


def put(tools, name, data):
    with open(os.path.join(tools.scratch, name), "wb") as file:
        file.write(data)


def got(tools, name):
    with open(os.path.join(tools.scratch, name), "rb") as file:
        return file.read()


def folder(tools, name, files):
    """Makes a folder anew, with these files."""
    path = os.path.join(tools.scratch, name)
    shutil.rmtree(path, ignore_errors=True)
    os.mkdir(path)
    for one, data in files.items():
        put(tools, f"{name}/{one}", data)


def crc(data):
    """CRC-16 by the polynomial 0x1021, as docs/FORMATS.md has it."""
    value = 0
    for byte in data:
        value ^= byte << 8
        for _ in range(8):
            value = (value << 1 ^ (0x1021 if value & 0x8000 else 0)) & 0xFFFF
    return value


def header(dest, source, kind, size, number):
    """The ten bytes in front of a body."""
    front = bytes([0xBE, 0xEF, 0xED, dest, source, kind, size >> 8, size & 0xFF, number])
    return front + bytes([sum(front) & 0xFF])


def packet(number, body, dest=3, source=3, kind=2):
    text = header(dest, source, kind, len(body), number) + body
    return text + crc(text).to_bytes(2, "big")


def packets_in(stream):
    """The packets that stand one behind the other: transaction and body."""
    found = []
    while stream:
        size = int.from_bytes(stream[6:8], "big")
        found.append((stream[8], stream[10:10 + size]))
        stream = stream[12 + size:]
    return found


def message(number, data):
    """A message of at most 1,024 bytes in its one fragment."""
    return packet(number, b"\x01\xc0" + len(data).to_bytes(2, "big") + data)


INIT = bytes.fromhex("02000101000000002580")


def replies(tools, files, requests):
    """What a handheld with these files replies to these requests, at most 253, of one fragment
    each."""
    folder(tools, "handheld", files)
    sent = message(255, INIT)
    sent += b"".join(message(number, request) for number, request in enumerate(requests, 1))
    put(tools, "sent", sent)
    program(tools, "device", "handheld", "--in=sent", "--out=said")
    said = packets_in(got(tools, "said"))
    return [body[4:] for number, body in said if body[:1] == b"\x01" and number != 255]

"""What a handheld says to captured bytes, over files and in pieces at a port."""

import contextlib
import subprocess

from cable import packets
from device_files import without

STATUSES = {"trace write failed": "sink", "handheld folder failed": "keeper"}


def served(said):
    """How many requests were served: each has a reply behind the wake, of which the first piece
    was said."""
    keys, last = 0, None
    for data in packets(said)[0]:
        if data[10] == 1 and data[11] & 0x80 and data[8:14] != last:
            last = data[8:14]
            keys += 1
    return max(keys - 1, 0)


def summary(end, said):
    return f"{end} served {served(said)} wrote {said.hex()}"


def by_program(cases, full, data):
    """What the program says to these bytes: how it ended, and what it wrote."""
    heard, answer = f"{cases.tools.scratch}/heard", f"{cases.tools.scratch}/answer"
    with open(heard, "wb") as file:
        file.write(data)
    out = "/dev/full" if full else answer
    words = [cases.tools.program, "device", cases.folder, f"--in={heard}", f"--out={out}"]
    line = subprocess.run(words, capture_output=True, text=True).stdout.splitlines()[-1]
    if full:
        return summary(STATUSES.get(line, line), b"")
    with open(answer, "rb") as file:
        return summary(STATUSES.get(line, line), file.read())


def in_pieces(cases, pieces):
    """How it ended at the port, and what it said to each piece, the wake first."""
    port, said = cases.talk.port, [cases.talk.port.heard]
    for piece in pieces:
        if not port.over():
            said.append(port.said_to(piece))
    end = "stream ended"
    if port.over():
        line = port.end()[0][-1]
        end = STATUSES.get(line, line)
        cases.talk = None
    return end, said


def device(cases, most, full, data):
    """What it says to these bytes: how it ended, how many requests it served, what it wrote."""
    if not most and not cases.later:
        cases.close()
        return by_program(cases, full, data)
    step = most or len(data)
    with without(cases.folder) if cases.later else contextlib.nullcontext():
        end, said = in_pieces(cases, [data[at:at + step] for at in range(0, len(data), step)])
    cases.close()
    return summary(end, b"".join(said))


def feed(cases, pieces):
    """What it says first, what to each packet, and how many requests it served."""
    _, said = in_pieces(cases, pieces)
    cases.close()
    return f"{' '.join(one.hex() for one in said)} served {served(b''.join(said))}"

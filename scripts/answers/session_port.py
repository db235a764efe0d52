"""Sessions of `hotsync sync` at a port whose reads are told, alone or with a handheld at another
one."""

import os
import subprocess

from cable import Port, packet, packets
from session_line import Said, answered, messages

DATE = "--date=2001-09-09T01:46:40"
TICKS = 1000
CAUSES = {"ended": "running", "handheld aborted": "aborted", "line down desktop": "line down"}
# Its memory can be opened by a program, and no byte of it be read.
NEVER_READ = "/proc/self/mem"


def numbers_of(text):
    """Numbers with commas between them, and ranges FIRST..END of them. A dash is none."""
    found = set()
    for part in [] if text == "-" else text.split(","):
        first, dots, end = part.partition("..")
        found.update(range(int(first), int(end)) if dots else [int(first)])
    return found


def cause(lines):
    """Why the link answers no more. A bad reply is one, and it goes on."""
    return "running" if lines[-1].startswith("bad reply ") else CAUSES.get(lines[-1], lines[-1])


def entries(trace):
    """What was said and heard: the end and the bytes, none where it was silent."""
    if not os.path.exists(trace):
        return []
    with open(trace, encoding="ascii") as file:
        lines = [line.split() for line in file]
    return [Said(line[1], bytes.fromhex("".join(line[2:]))) for line in lines]


def shown(entry, request):
    """An entry in words. The first request of the session is that of a line."""
    if entry.end == "silent":
        return " -"
    if entry.end == "H":
        return f" H {entry.data[8]} {entry.data[10:-2].hex()}"
    if entry.data[8] == 1 and entry.data[10] == 1 and request:
        return f" D {packet(1, entry.data[10:14] + request[0]).hex()}"
    return f" D {entry.data.hex()}"


def alone(cases, good, pieces, request):
    """A session with these pieces and then silence."""
    trace, words = cases.fresh("trace"), [cases.tools.program, "sync"]
    if good == "0":
        words += [NEVER_READ, cases.desk, DATE, f"--trace={trace}"]
        lines = subprocess.run(words, capture_output=True, text=True).stdout.splitlines()
    else:
        port = Port()
        port.start([*words, port.path, cases.desk, DATE, f"--trace={trace}"])
        for piece in pieces + [b""] * TICKS:
            if not port.over():
                port.give(piece)
                port.hear(0)
        lines = port.end()[0]
    said = entries(trace)
    whole = answered([one for one in said if one.end == "D"])
    return f"{cause(lines)} answered {whole}:" + "".join(shown(one, request) for one in said)


class Palm:
    """A session between two ports, and a cable that loses packets."""

    def __init__(self, cases, toward, back, ticks):
        self.ticks, self.steps, self.trace = ticks, 0, cases.fresh("trace")
        self.palm, self.desk = Port(), Port()
        self.ways = [[self.desk, self.palm, toward, 0], [self.palm, self.desk, back, 0]]
        program = cases.tools.program
        self.palm.start([program, "device", cases.palm, f"--port={self.palm.path}"])
        words = ["sync", self.desk.path, cases.desk, DATE, f"--trace={self.trace}"]
        self.desk.start([program, *words])

    def hand_over(self, way, seconds=0):
        """Hands over what one end said, but what is lost. Whether it said something."""
        one, other, lost, count = way
        found = one.hear(seconds)
        way[3] += len(found)
        for place, data in enumerate(found, count):
            if place not in lost and not other.over():
                other.give(data)
        return bool(found)

    def tick(self, end):
        if not end.over():
            end.give()

    def step(self):
        """Hands over what both said; where that is nothing, a tick for both. The handheld's clock
        may tick once more before that."""
        if self.steps in self.ticks:
            self.tick(self.palm)
        self.steps += 1
        # What an end wrote may be under way for a moment.
        for seconds in (0, 0.01):
            if any([self.hand_over(way, seconds) for way in self.ways]):
                return
        self.tick(self.palm)
        self.tick(self.desk)

    def session(self):
        """Why it answered no more, the requests, the replies, and how many of these came whole.
        The desktop comes behind the first wake."""
        self.palm.hear(60)
        while not self.desk.over():
            self.step()
        while not self.palm.over():
            self.hand_over(self.ways[0])
            self.tick(self.palm)
        lines = self.desk.end()[0]
        self.palm.end()
        log = entries(self.trace)
        replies = [Said("H", data) for data in packets(self.palm.heard)[0]]
        return cause(lines), messages(log, "D"), messages(replies, "H"), answered(log)

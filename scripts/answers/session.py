"""Sessions over a line by a script, and over ports, by `hotsync run`, `sync` and `device`.

Bytes are hexadecimal. `case TEXT` begins with an empty folder and an empty script.

- The handheld's folder: `file NAME H` puts a file into it, `fail 2` makes the first call fail
  that puts one.
- `script N FATE, N FATE ..` is a line's script. `talk REQUEST..` has a session over it whose
  requests have to be these: bytes, or `read*COUNT`, ReadRecord by index of so many records. It
  says why the line is down, how many frames there are, how many bytes and packets each end's
  reader took, and how many requests were issued, performed and answered. `frames N..`: the trace
  of these frames. `replies`: what the handheld replied.
- `port GOOD PIECES REQUEST..`: a session over a port, of which the first request stands for this
  one. PIECES are what comes, a read each, with a comma between them; an empty one is a tick of
  silence, and behind the last one all is silent. With GOOD 0 the port fails at the first read. It
  says why the link answered no more, how many requests were answered, and what was said and
  heard: `D` and the bytes of a packet, `H` and a packet's transaction and body, `-` for a tick.
- `palm TOWARD BACK TICKS REQUEST..` has the session at a port behind which the handheld stands at
  another one. TOWARD and BACK are the numbers of the packets that are lost on the way to the
  handheld and back, the first ones behind the first wake being 0, TICKS those of the packets
  before which the handheld's port ticks once more: with commas between them, or as FIRST..END, or
  `-` for none. It says why the session answered no more, and how many requests were performed and
  answered; `replies` as above.
"""

import os
import shutil
import subprocess

import session_line
import session_port
from session_port import DATE


def requests_of(words):
    """The requests of these words."""
    found = []
    for word in words:
        data, star, count = word.partition("*")
        if not star:
            found.append(bytes.fromhex(data))
            continue
        for number in range(int(count)):
            front = bytes.fromhex("200121080100")
            found.append(front + number.to_bytes(2, "big") + b"\0\0\xff\xff")
    return found


class Cases:
    """Both folders, the script, and what the last session said."""

    def __init__(self, tools):
        self.tools, self.scratch = tools, tools.scratch
        self.palm, self.desk = f"{self.scratch}/palm", f"{self.scratch}/desk"
        self.begin()

    def begin(self):
        for folder in (self.palm, self.desk):
            shutil.rmtree(folder, ignore_errors=True)
            os.mkdir(folder)
        self.script, self.frames, self.replies = "", [], []

    def put(self, name, data):
        with open(f"{self.palm}/{name}", "wb") as file:
            file.write(data)

    def fresh(self, name):
        """A path at which nothing stands."""
        path = f"{self.scratch}/{name}"
        if os.path.exists(path):
            os.remove(path)
        return path

    def talk(self, requests):
        """A session over a line by the script."""
        script, trace = self.fresh("script"), self.fresh("trace")
        with open(script, "w", encoding="ascii") as file:
            file.write(self.script)
        words = ["run", self.palm, self.desk, DATE, f"--script={script}", f"--trace={trace}"]
        done = subprocess.run([self.tools.program, *words], capture_output=True, text=True)
        with open(trace, encoding="ascii") as file:
            self.frames = [session_line.Frame(line) for line in file]
        self.replies = session_line.messages(self.frames, "H")
        asked = session_line.messages(self.frames, "D")
        if asked != requests[:len(asked)]:
            return "other requests: " + " ".join(one.hex() for one in asked)
        return session_line.summary(done.stdout.splitlines()[-1], self.frames)

    def palm_session(self, toward, back, ticks, requests):
        """A session over two ports with a cable between them that loses packets."""
        cause, asked, self.replies, whole = session_port.Palm(self, toward, back, ticks).session()
        if asked != requests[:len(asked)]:
            return "other requests: " + " ".join(one.hex() for one in asked)
        return f"{cause} performed {len(self.replies)} answered {whole}"


def prepared(cases, words, line):
    """Does what a line asks of the folder or of the script. Whether it was such a line."""
    match words:
        case ["file", name, data]:
            cases.put(name, bytes.fromhex(data))
        case ["fail", "2"]:
            # No file can be put where a folder has the name that it has at first.
            os.makedirs(f"{cases.palm}/hotsync.tmp/full")
        case ["script", *_]:
            cases.script = "".join(f"{rule}\n" for rule in line.partition(" ")[2].split(", "))
        case _:
            return False
    return True


def answer(cases, words):
    match words:
        case ["talk", *requests]:
            return cases.talk(requests_of(requests))
        case ["frames", *numbers]:
            by_number = {frame.number: frame.text for frame in cases.frames}
            return "; ".join(by_number.get(number, "no such frame") for number in numbers)
        case ["replies"]:
            return " ".join(["replies", *(reply.hex() for reply in cases.replies)])
        case ["port", good, pieces, *requests]:
            heard = [bytes.fromhex(piece) for piece in pieces.split(",")]
            return session_port.alone(cases, good, heard, requests_of(requests))
        case ["palm", toward, back, ticks, *requests]:
            losses = (session_port.numbers_of(text) for text in (toward, back, ticks))
            return cases.palm_session(*losses, requests_of(requests))
    return f"what? {' '.join(words)}"


def answers(lines, tools):
    found, cases = [], Cases(tools)
    for line in lines:
        words = line.split(" ")
        if words[0] == "case":
            cases.begin()
            found.append(line)
        elif not prepared(cases, words, line):
            found.append(answer(cases, words))
    return found

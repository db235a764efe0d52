"""What stands in the trace of a session."""

CAUSES = {"ended": "running", "handheld folder failed": "keeper"}


class Said:
    """A packet that an end said."""

    def __init__(self, end, data):
        self.end, self.data = end, data

    def key(self):
        """What a repeat of it has, too, and its acknowledgement."""
        return self.data[8:9] + self.data[11:14]


class Frame(Said):
    """A frame of a trace: its number, who sent it, its fate, whether it came, its bytes."""

    def __init__(self, line):
        self.text = line.rstrip("\n")
        words = self.text.split(" ")
        super().__init__(words[1], bytes.fromhex(words[-1]))
        self.number, self.fate, self.came = words[0], words[2:-2], words[-2] == "+"

    def arrived(self):
        """How many bytes came."""
        if self.fate[0] == "cut":
            return int(self.fate[1]) % len(self.data)
        noise = len(self.fate[1]) // 2 if self.fate[0] == "noise" else 0
        return noise + len(self.data) if self.came else 0

    def goes_on(self):
        """Whether the session goes on behind it."""
        return self.fate[0] not in ("unplug", "abort")


def messages(packets, end):
    """The messages of an end behind its greeting, those too of which not all pieces were said."""
    found, last = [], None
    for one in packets:
        if one.end != end or one.data[10] != 1 or one.key() == last:
            continue
        last = one.key()
        if one.data[11] & 0x80:
            found.append(b"")
        found[-1] += one.data[14:-2]
    return found[1:]


def answered(packets):
    """How many replies the desktop has whole: it acknowledged the last piece of each."""
    found, last = 0, None
    for one in packets:
        if one.end == "D" and one.data[10] == 2:
            found += one.key() != last and one.data[11] & 0x40 > 0
            last = one.key()
    return max(found - 1, 0)


def took(frames, end):
    """How many bytes and packets the reader of the other end took of this one's."""
    mine = [frame for frame in frames if frame.end == end]
    return f"{sum(frame.arrived() for frame in mine)}/{sum(frame.came for frame in mine)}"


def cause(line, frames):
    """Why the line is down; with the ten frames in vain where it was silent."""
    words = line.split(" ")
    if words[:2] != ["line", "down"]:
        return CAUSES.get(line, line)
    end = "H" if words[2] == "handheld" else "D"
    tries = [frame for frame in frames if frame.end == end and frame.data[10] == 1]
    last = [frame.number for frame in tries if frame.key() == tries[-1].key()][-10:]
    return f"{line} {last[0]}..{last[-1]}"


def issued(frames):
    """How many requests were said, with one in whose place the last frame aborts."""
    asked = [frame.data[8] for frame in frames if frame.end == "D" and frame.data[10] == 1]
    last, count = frames[-1], len(messages(frames, "D"))
    return count + (last.end == "D" and last.data[10] == 8 and last.data[8] != asked[-1])


def summary(line, frames):
    """Why the line is down, and what was sent, in numbers."""
    whole = answered([frame for frame in frames if frame.goes_on()])
    numbers = f"issued {issued(frames)} performed {len(messages(frames, 'H'))}"
    return (f"{cause(line, frames)} frames {len(frames)} handheld {took(frames, 'D')} "
            f"desktop {took(frames, 'H')} {numbers} answered {whole}")

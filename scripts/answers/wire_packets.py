"""Packets in the bytes of a line, by `hotsync packet`, and what a handheld makes of one packet, by
`hotsync device`."""
import functools

from wire_line import INIT, crc, folder, got, header, message, packet, packets_in, program, put

# How many bytes a word of the call may give.
MOST_BYTES = 4096
PIECES = (1, 2, 7, 1040)


@functools.cache
def shown(tools, stream):
    """The lines of the packets in these bytes, at most as many as MOST_BYTES and one at least."""
    return program(tools, "packet", stream.hex())[0]


def count_of(said):
    return int(said.rsplit("packets ", 1)[1])


def checksum(tools, data):
    """The CRC of these bytes: they stand in a body behind the CRC of their header, which sets the
    CRC to 0, and of all packets with another last word the one is looked for that is found."""
    front = header(3, 3, 2, len(data) + 2, 1)
    front += crc(front).to_bytes(2, "big") + data
    tried = [front + word.to_bytes(2, "big") for word in range(0x10000)]
    room = MOST_BYTES // len(tried[0])
    for place in range(0, len(tried), room):
        some = tried[place:place + room]
        while count_of(shown(tools, b"".join(some))):
            if len(some) == 1:
                return some[0][-2:].hex()
            half = some[:len(some) // 2]
            some = half if count_of(shown(tools, b"".join(half))) else some[len(half):]
    return "none"


def written(tools, dest, source, kind, number, body):
    """The packet with these fields: the bytes that are found to be this packet alone."""
    text = packet(number, body, dest, source, kind)
    said = shown(tools, text)
    wanted = f"slp {dest} {source} {kind} id {number} body {len(body)}\npackets 1\n"
    return text.hex() if said == wanted else said


def size_of(line):
    """The length of a body, of which this line is shown."""
    words = line.split()
    return int(words[-1]) + (4 if "padp" in words else 0)


def text_of(tools, stream, begin, line):
    """The packet that is shown as this line: the first bytes from this place on that alone are
    shown so, and where they end."""
    for place in range(begin, len(stream)):
        end = place + 12 + size_of(line)
        if shown(tools, stream[place:end]) == f"{line}\npackets 1\n":
            return stream[place:end], end
    return b"", begin


def found(tools, stream):
    """The packets in a stream that comes in pieces of each length: those of its growing
    beginnings, of which each has those of the one before it."""
    columns = []
    for piece in PIECES:
        taken, texts, begin = [], [], 0
        for end in range(piece, len(stream) + piece, piece):
            now = shown(tools, stream[:end]).split("\n")[:-2]
            if now[:len(taken)] != taken:
                return f"other packets up to {end}"
            for line in now[len(taken):]:
                text, begin = text_of(tools, stream, begin, line)
                texts.append(text.hex())
            taken = now
        columns.append("-" + "".join(texts))
    return "stream " + " ".join(columns)


def arrived(tools, dest, kind, number, body):
    """What a packet is for an end: its line where a handheld takes it for a fragment to its
    socket; data it acknowledges, and by an abort its talk ends."""
    text = packet(number, body, dest, 3, kind)
    folder(tools, "handheld", {})
    before = [message(255, INIT), *(message(one, b"\x10\0") for one in range(1, number))]
    put(tools, "sent", b"".join(before) + text)
    told, _ = program(tools, "device", "handheld", "--in=sent", "--out=said")
    said = packets_in(got(tools, "said"))
    is_acknowledged = any(one == number and body[0] == 2 for one, body in said)
    words = shown(tools, text).split("\n")[0].split()
    if "padp" not in words or (words[1], words[3]) != ("3", "2"):
        return "dropped" if not is_acknowledged and "aborted" not in told else "taken"
    padp, flags, size = words[7:10]
    if padp == "ack":
        return f"ack {number} {flags} {size}"
    if padp == "data":
        return f"data {number} {body[4:].hex()}" if is_acknowledged else "no data"
    return "stop" if "aborted" in told else padp

"""A handheld of another maker at a port: its own reader of packets, its own table of requests, and
the habits that real handhelds have, each by its name. Written from docs/FORMATS.md and pilot-link's
sources, and not from this program's."""
import collections
import os
import select
import struct
import termios
import time

from cable import packet as packet_of, packets

DIRTY, DELETED, SECRET, ARCHIVED, BUSY = 0x40, 0x80, 0x10, 0x08, 0x20
DATA, ACKNOWLEDGEMENT = 1, 2
NOT_FOUND, EXISTS, ILLEGAL = 5, 9, 2
# The habits that change nothing, and those that are told, with the lines and the status.
HARMLESS = ("wake_of_another_version", "three_wakes", "tickles", "each_packet_twice", "noise", "indices_with_gaps",
            "many_entries_a_reply", "more_to_the_end", "five_ids_a_reply", "handle_0", "dates_of_zeros", "a_password", "busy_records", "archived_without_deleted",
            "a_date_that_is_none", "a_user_date_that_is_none", "entries_with_more", "bytes_behind_the_user", "a_second_argument",
            "a_zero_behind_odd_arguments", "an_argument_beside_an_error", "a_name_with_more_zeros", "a_name_without_a_zero",
            "acknowledgements_without_flags", "acknowledgements_without_size")
TOLD = {
    "records_cut_to_40_bytes": (b"bad reply 1f\n", 6),
    "the_same_five_ids": (b"bad reply 31\n", 6),
    "begins_anew": (b"handheld began anew\n", 6),
}
DATE = bytes([2001 >> 8, 2001 & 255, 9, 8, 12, 0, 0, 0])


class Record:
    def __init__(self, number, bits, category, data):
        self.number, self.bits, self.category, self.data = number, bits, category, data


class Database:
    """One of the handheld's, from the bytes of a database file or made by a request."""

    def __init__(self, name, kind=b"DATA", creator=b"memo", flags=0, version=0):
        self.name, self.kind, self.creator, self.flags, self.version = name, kind, creator, flags, version
        self.records, self.app, self.sort, self.place = [], b"", b"", 0

    @classmethod
    def read(cls, data):
        name, flags, version = data[:32].split(b"\0")[0], *struct.unpack(">HH", data[32:36])
        made = cls(name, data[60:64], data[64:68], flags, version)
        app, sort = struct.unpack(">II", data[52:60])
        heads = [data[78 + 8 * n:86 + 8 * n] for n in range(int.from_bytes(data[76:78], "big"))]
        places = [int.from_bytes(head[:4], "big") for head in heads] + [len(data)]
        ends = sorted([place for place in (app, sort, *places) if place])
        made.app, made.sort = (data[at:next(it for it in ends if it > at)] if at else b"" for at in (app, sort))
        for n, head in enumerate(heads):
            made.records.append(Record(int.from_bytes(head[5:8], "big"), head[4] & 0xF0, head[4] & 0x0F,
                                       data[places[n]:places[n + 1]]))
        return made

    def of(self, number):
        return next((record for record in self.records if record.number == number), None)

    def free(self):
        return max([record.number for record in self.records] + [0x7000]) + 3


def argument(data):
    """One argument of a message, with a short head where it fits."""
    if len(data) < 255:
        return bytes([0x20, len(data)]) + data
    return b"\xa0\0" + len(data).to_bytes(2, "big") + data


class Handheld:
    """What stands at the master's end of a port: it serves until the desktop ends, or its time is up."""

    def __init__(self, master, folder, habits, rate=9600):
        self.master, self.habits, self.held, self.rate = master, set(habits), b"", rate
        self.databases, self.open, self.user = [], {}, [0, 0, 0, bytes(8), bytes(8), b""]
        self.taken, self.came, self.heard, self.over = None, [], 0, False
        self.begun = self.ended = time.monotonic()
        for name in sorted(os.listdir(folder)):
            if name.endswith(".pdb"):
                with open(f"{folder}/{name}", "rb") as file:
                    self.databases.append(Database.read(file.read()))
        if "a_hundred_databases" in self.habits:
            self.databases += [Database(b"Rom%02d" % n, b"appl", b"psys", 1) for n in range(100)]
        self.marks(f"{folder}/device.inf")

    def has(self, habit):
        return habit in self.habits

    def marks(self, path):
        """What the folder says of the handheld's user: numbers, dates and name."""
        if os.path.exists(path):
            with open(path, encoding="ascii") as file:
                held = dict(line.split(" ", 1) for line in file.read().splitlines()[1:])
            name = b"" if held["name"] == "-" else bytes.fromhex(held["name"])
            user, viewer, pc = (int(held.get(key, "0"), 16) for key in ("user", "viewer", "pc"))
            self.user = [user, viewer, pc, bytes.fromhex(held["good"]), bytes.fromhex(held["last"]), name]

    def contents(self):
        """How often each content stands in each database of records, as `records` of a folder tells it."""
        found = collections.Counter()
        for database in self.databases:
            for record in database.records:
                found[database.name.decode() + ".pdb", record.bits & SECRET | record.category, record.data] += 1
        return found

    # ---- packets

    def say(self, packet):
        for _ in range(2 if self.has("each_packet_twice") else 1):
            os.write(self.master, (b"\xbe\xefnoise" if self.has("noise") else b"") + packet)

    def data(self, transaction, flags, size, piece):
        return packet_of(transaction, bytes([1, flags]) + size.to_bytes(2, "big") + piece)

    def greet(self):
        minor, rate = (2, 57600) if self.has("wake_of_another_version") else (1, self.rate)
        wake = bytes([1, 0, 1, minor, 0, 0]) + rate.to_bytes(4, "big")
        for _ in range(2 if self.has("three_wakes") else 0):
            self.say(self.data(255, 0xC0, len(wake), wake))
        self.answer(255, wake)

    def next(self, seconds=0.05):
        """The next packet, or None where none comes within this time."""
        if not self.came and select.select([self.master], [], [], seconds)[0]:
            try:
                came = os.read(self.master, 65536)
            except OSError:
                came = b""
            self.over = not came
            self.came, self.held = packets(self.held + came)
        return self.came.pop(0) if self.came else None

    def answer(self, transaction, reply):
        """Says a reply in pieces, each until it is acknowledged."""
        pieces = [reply[at:at + 1024] for at in range(0, len(reply), 1024)] or [b""]
        for number, piece in enumerate(pieces):
            flags = (0x80 if number == 0 else 0) | (0x40 if number == len(pieces) - 1 else 0)
            packet = self.data(transaction, flags, len(reply) if number == 0 else 1024 * number, piece)
            for _ in range(10):
                self.say(packet)
                if self.is_acknowledged(transaction) or self.over:
                    break

    def is_acknowledged(self, transaction):
        until = time.monotonic() + 1
        while time.monotonic() < until and not self.over:
            packet = self.next()
            if packet and packet[8] == transaction and packet[10] == ACKNOWLEDGEMENT:
                return True
        return False

    def acknowledge(self, packet):
        flags, size = packet[11:12], packet[12:14]
        if self.has("acknowledgements_without_flags"):
            flags = b"\0"
        if self.has("acknowledgements_without_size"):
            size = b"\0\0"
        self.say(packet_of(packet[8], b"\2" + flags + size))

    def greeted(self, packet):
        """Acknowledges a piece. An init may ask for another rate, which is taken behind that."""
        is_init = packet[8] == 255 and packet[14:16] == b"\2\x80"
        if packet[8] == 255 and self.taken is None:
            self.begun = time.monotonic()
        if not (is_init and self.has("the_first_init_is_not_acknowledged") and self.taken is None):
            self.acknowledge(packet)
        if is_init and self.taken is None:
            rate = int.from_bytes(packet[20:24], "big")
            termios.tcdrain(self.master)
            how = termios.tcgetattr(self.master)
            how[4] = how[5] = getattr(termios, f"B{rate}")
            termios.tcsetattr(self.master, termios.TCSADRAIN, how)

    def serve(self, done, seconds=60):
        """Serves until the desktop's end is done."""
        message, until = b"", time.monotonic() + seconds
        self.greet()
        while not done() and time.monotonic() < until and not self.over:
            packet = self.next()
            if not packet or packet[10] != DATA:
                continue
            self.greeted(packet)
            key = packet[8], packet[11:14]
            if key == self.taken:
                continue
            self.taken = key
            message = packet[14:-2] if packet[11] & 0x80 else message + packet[14:-2]
            if packet[11] & 0x40 and packet[8] != 255:
                self.perform(packet[8], message)

    def perform(self, transaction, request):
        self.heard += 1
        if self.has("tickles"):
            self.say(packet_of(transaction, b"\4\xc0\0\0"))
        if self.has("begins_anew") and self.heard == 8:
            self.greet()
            time.sleep(1)
            return
        self.answer(transaction, self.reply(request))

    # ---- requests

    def reply(self, request):
        function, given = request[0], request[1]
        data = request[4:] if given and not request[2] & 0x80 else request[6:] if given else b""
        error, *args = getattr(self, f"on_{function:02x}", lambda *_: (ILLEGAL,))(data, request[2] & 0x7F if given else 0)
        if error or not args:
            extra = argument(b"") if error and self.has("an_argument_beside_an_error") else b""
            return bytes([function | 0x80, bool(extra)]) + error.to_bytes(2, "big") + extra
        said = argument(args[0])
        if self.has("a_zero_behind_odd_arguments") and len(said) % 2:
            said += b"\0"
        count = 1
        if self.has("a_second_argument"):
            said, count = said + b"\x21\1\0", 2
        return bytes([function | 0x80, count, 0, 0]) + said

    def on_10(self, data, which):
        number, viewer, pc, good, last, name = self.user
        if self.has("a_user_date_that_is_none"):
            last = bytes.fromhex("07d1ff2a00000000")
        name = name + b"\0" if name else b""
        if name and self.has("a_name_with_more_zeros"):
            name += b"\0\0"
        if name and self.has("a_name_without_a_zero") and not self.has("a_name_with_more_zeros"):
            name = name[:-1]
        password = bytes(range(32)) if self.has("a_password") else b""
        said = struct.pack(">III", number, viewer, pc) + good + last
        said += bytes([len(name), len(password)]) + name + password
        return 0, said + (b"\0\0" if self.has("bytes_behind_the_user") else b"")

    def on_11(self, data, which):
        bits, name = data[20], data[22:].split(b"\0")[0]
        number, viewer, pc = struct.unpack(">III", data[:12])
        if bits & 0x80:
            self.user[0] = number
        if bits & 0x40:
            self.user[2] = pc
        if bits & 0x20:
            self.user[3] = self.user[4] = data[12:20]
        if bits & 0x10:
            self.user[5] = name
        return (0,)

    def on_2e(self, data, which):
        return (0,)

    def on_2f(self, data, which):
        self.ended = time.monotonic()
        return (0,)

    def index(self, place):
        """The index of the database at this place of the list."""
        return 3 * place + 2 if self.has("indices_with_gaps") else place

    def entry(self, place):
        database = self.databases[place]
        dates = bytes(24) if self.has("dates_of_zeros") else DATE * 3
        if self.has("a_date_that_is_none") and place == 0:
            dates = bytes.fromhex("0000010100000000") * 3
        said = b"\0" + struct.pack(">H4s4sHI", database.flags, database.kind, database.creator, database.version, 0)
        said += dates + self.index(place).to_bytes(2, "big") + database.name + b"\0"
        if self.has("entries_with_more"):
            said += b"\0"
        return bytes([len(said) + 1]) + said

    def on_16(self, data, which):
        first = int.from_bytes(data[2:4], "big")
        most = 20 if self.has("many_entries_a_reply") else 1
        places = [n for n in range(len(self.databases)) if self.index(n) >= first]
        if not places:
            return (NOT_FOUND,)
        some, more = places[:most], len(places) > most
        if self.has("more_to_the_end"):
            more = True
        head = self.index(some[-1]).to_bytes(2, "big") + bytes([0x80 if more else 0, len(some)])
        return 0, head + b"".join(self.entry(n) for n in some)

    def named(self, name):
        return next((it for it in self.databases if it.name == name.split(b"\0")[0]), None)

    def handle(self, database):
        number = 255 if self.has("handle_255") else 0 if self.has("handle_0") else 7
        self.open[number], database.place = database, 0
        return 0, bytes([number])

    def on_17(self, data, which):
        database = self.named(data[2:])
        return self.handle(database) if database else (NOT_FOUND,)

    def on_18(self, data, which):
        if self.named(data[14:]):
            return (EXISTS,)
        creator, kind, _, flags, version = struct.unpack(">4s4sHHH", data[:14])
        self.databases.append(Database(data[14:].split(b"\0")[0], kind, creator, flags, version))
        return self.handle(self.databases[-1])

    def on_19(self, data, which):
        self.open.pop(data[0], None)
        return (0,)

    def on_1c(self, data, which):
        self.open[data[0]].app = data[4:]
        return (0,)

    def on_1e(self, data, which):
        self.open[data[0]].sort = data[4:]
        return (0,)

    def told(self, database, record):
        """A record in a reply. One that is deleted and has its data is archived."""
        bits = record.bits | (BUSY if self.has("busy_records") else 0)
        if record.bits & DELETED and record.data:
            bits = bits | ARCHIVED
            if self.has("archived_without_deleted"):
                bits &= ~DELETED
        data = record.data[:40] if self.has("records_cut_to_40_bytes") else record.data
        place = database.records.index(record)
        return 0, struct.pack(">IHHBB", record.number, place, len(record.data), bits, record.category) + data

    def on_1f(self, data, which):
        database = self.open[data[0]]
        while database.place < len(database.records):
            record = database.records[database.place]
            database.place += 1
            if record.bits & (DIRTY | DELETED):
                return self.told(database, record)
        return (NOT_FOUND,)

    def on_20(self, data, which):
        database, number = self.open[data[0]], int.from_bytes(data[2:6], "big")
        if which == 0x21:
            place = int.from_bytes(data[2:4], "big")
            record = database.records[place] if place < len(database.records) else None
        else:
            record = database.of(number)
        return self.told(database, record) if record else (NOT_FOUND,)

    def on_21(self, data, which):
        database, number = self.open[data[0]], int.from_bytes(data[2:6], "big")
        record = database.of(number) if number else None
        if record:
            record.bits, record.category, record.data = data[6] & SECRET, data[7] & 15, data[8:]
        else:
            record = Record(number or database.free(), data[6] & SECRET, data[7] & 15, data[8:])
            database.records.append(record)
        return 0, record.number.to_bytes(4, "big")

    def on_22(self, data, which):
        database, number = self.open[data[0]], int.from_bytes(data[2:6], "big")
        if not database.of(number):
            return (NOT_FOUND,)
        database.records.remove(database.of(number))
        return (0,)

    def on_26(self, data, which):
        database = self.open[data[0]]
        database.records = [it for it in database.records if not it.bits & DELETED]
        return (0,)

    def on_27(self, data, which):
        for record in self.open[data[0]].records:
            record.bits &= ~DIRTY
        return (0,)

    def on_2b(self, data, which):
        return 0, len(self.open[data[0]].records).to_bytes(2, "big")

    def on_30(self, data, which):
        self.open[data[0]].place = 0
        return (0,)

    def on_31(self, data, which):
        first, most = struct.unpack(">HH", data[2:6])
        if self.has("five_ids_a_reply") or self.has("the_same_five_ids"):
            most = 5
        if self.has("the_same_five_ids"):
            first = 0
        ids = [record.number for record in self.open[data[0]].records][first:first + most]
        return 0, len(ids).to_bytes(2, "big") + b"".join(it.to_bytes(4, "big") for it in ids)


# The greeting of net: what the handheld says first, and how its second and third message begin.
GREETING = (bytes.fromhex("900100000000000000200000000800000000000000").ljust(22, b"\0"), b"\x92\1".ljust(50, b"\0"), b"\x93".ljust(8, b"\0"))
OF_NET = ("none", "tickles", "in_single_bytes", "handle_0", "indices_with_gaps", "a_hundred_databases")


class NetHandheld(Handheld):
    """The same behind USB or TCP: its messages are whole, each behind a head of six bytes, and none is acknowledged."""

    def put(self, kind, transaction, message):
        said = bytes([kind, transaction]) + len(message).to_bytes(4, "big") + message
        for piece in (said[n:n + 1] for n in range(len(said))) if self.has("in_single_bytes") else (said,):
            os.write(self.master, piece)

    def answer(self, transaction, reply):
        self.put(1, transaction, reply)

    def take(self, seconds=0.05):
        """The next message, its transaction and its bytes, or None where none comes within this time."""
        if select.select([self.master], [], [], seconds)[0]:
            try:
                came = os.read(self.master, 65536)
            except OSError:
                came = b""
            self.over = not came
            self.held += came
        size = 6 + int.from_bytes(self.held[2:6], "big")
        if len(self.held) < max(size, 6):
            return None
        whole, self.held = self.held[:size], self.held[size:]
        return whole[1], whole[6:]

    def serve(self, done, seconds=60, behind=None):
        """Serves until the desktop's end is done, or behind so many messages the port is pulled."""
        until, asked = time.monotonic() + seconds, 0
        self.put(1, 255, GREETING[0])
        greeted = 1
        while not done() and time.monotonic() < until and not self.over:
            came = self.take()
            if not came:
                continue
            asked += 1
            if behind is not None and asked > behind:
                return
            transaction, message = came
            if transaction == 255 and greeted < 3:
                self.put(1, 255, GREETING[greeted])
                greeted += 1
            elif transaction != 255:
                self.perform(transaction, message)

    def perform(self, transaction, request):
        self.heard += 1
        if self.has("tickles"):
            self.put(2, transaction, b"")
        self.answer(transaction, self.reply(request))

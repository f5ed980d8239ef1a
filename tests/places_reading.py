"""The message rules of document 01, with the lengths of document 02's Q-2 and the places of its Q-5, once more in Python, written from their text alone: what tests/test_places.py and tests/test_lengths.py hold the program to."""
STRING, BOOLEAN, INTEGER, UNSIGNED, LIST = 0, 4, 5, 6, 7
NAMES = {10: "UnexpectedEOF", 11: "InvalidTlf", 12: "TlfMismatch", 13: "UnexpectedVariant", 14: "CrcMismatch", 15: "MsgEndMismatch"}
LIMIT = 2**32 - 1  # a length that passes it while it is being built is refused: document 02's Q-2, in place of document 01's low 32 bits


def table():
    """The CRC register behind each low byte: X25, polynomial 1021 hex reflected."""
    for b in range(256):
        for _ in range(8):
            b = b >> 1 ^ (0x8408 if b & 1 else 0)
        yield b


TABLE = list(table())


def crc(data):
    reg = 0xFFFF
    for b in data:
        reg = reg >> 8 ^ TABLE[(reg ^ b) & 0xFF]
    return reg ^ 0xFFFF


class Refusal(Exception):
    def __init__(self, number, place, kind=""):
        self.number, self.place, self.kind = number, place, kind

    def __str__(self):
        return "err %s%s %d @%d" % (NAMES[self.number], self.kind and " " + self.kind, self.number, self.place)


class Lengths:
    """An input, how far it is read, and the length at that place."""

    def __init__(self, data):
        self.data, self.at = data, 0

    def take(self, n):
        if n > len(self.data) - self.at:
            raise Refusal(10, len(self.data))
        self.at += n
        return self.data[self.at - n : self.at]

    def length(self):
        """Type and length of the element that begins here, and its place."""
        place, (b,) = self.at, self.take(1)
        kind, n = b >> 4 & 7, b & 15
        if kind not in (STRING, BOOLEAN, INTEGER, UNSIGNED, LIST):
            raise Refusal(11, place, "TlfInvalidTy")
        if kind == BOOLEAN and b > 127:
            raise Refusal(11, place, "TlfReserved")
        while b > 127:
            (b,) = self.take(1)
            if b >> 4 & 7:
                raise Refusal(11, place, "TlfNextByteTypeMismatch")
            n = 16 * n + b % 16
            if n > LIMIT:
                raise Refusal(11, place, "TlfLengthOverflow")
        if kind != LIST:
            n -= self.at - place
        if n < 0:
            raise Refusal(11, place, "TlfLengthUnderflow")
        return kind, n, place


def length_field(data):
    """What `tlf` answers: type and length of the element that begins the input, and the place behind its length bytes."""
    field = Lengths(data)
    try:
        kind, n, _ = field.length()
    except Refusal as f:
        return str(f)
    return "%d %d next %d" % (kind, n, field.at)


class Reading(Lengths):
    """All answers of an input: the events, the first refusal or None, where its message begins, and whether it came behind that message's first event."""

    def __init__(self, data):
        super().__init__(data)
        self.start, self.inside, self.events, self.refusal = 0, False, [], None
        try:
            while self.at < len(data):
                self.start, self.inside = self.at, False
                self.message()
        except Refusal as f:
            self.refusal = f

    def line(self):
        """What `places` answers: behind a refusal three more calls, 10 at the input's length inside a message, no event at its start."""
        later = str(Refusal(10, len(self.data))) if self.inside else "none"
        return " | ".join(self.events + (["none"] if self.refusal is None else [str(self.refusal)] + [later] * 3))

    # ---- fields

    def number(self, wanted, width):
        kind, n, place = self.length()
        if kind != wanted or not 1 <= n <= width:
            raise Refusal(12, place)
        return int.from_bytes(self.take(n), "big", signed=wanted == INTEGER)

    def u8(self):
        return str(self.number(UNSIGNED, 1))

    def i8(self):
        return str(self.number(INTEGER, 1))

    def string(self):
        kind, n, place = self.length()
        if kind != STRING:
            raise Refusal(12, place)
        return "x" + self.take(n).hex()

    def list_of(self, n):
        kind, many, place = self.length()
        if kind != LIST or many != n:
            raise Refusal(12, place)

    def optional(self, field):
        if self.data[self.at : self.at + 1] == b"\x01":
            self.at += 1
            return "-"
        return field()

    def wide(self, kind, n, place):
        """A number of the narrowest width that holds its length."""
        if not 1 <= n <= 8:
            raise Refusal(12, place)
        width = min(w for w in (1, 2, 4, 8) if n <= w)
        return "%s%d:%d" % ("i" if kind == INTEGER else "u", 8 * width, int.from_bytes(self.take(n), "big", signed=kind == INTEGER))

    def status(self):
        kind, n, place = self.length()
        if kind != UNSIGNED:
            raise Refusal(12, place)
        return self.wide(kind, n, place)

    def tag_one(self):
        place = self.at
        if self.number(UNSIGNED, 1) != 1:
            raise Refusal(13, place)

    def time(self):
        """A list of tag and seconds, or the bare seconds in exactly four bytes (docs/DIFFERENCES.md)."""
        kind, n, place = self.length()
        if (kind, n) == (UNSIGNED, 4):
            return "sec:%d" % int.from_bytes(self.take(4), "big")
        if (kind, n) != (LIST, 2):
            raise Refusal(12, place)
        self.tag_one()
        return "sec:%d" % self.number(UNSIGNED, 4)

    def value(self):
        """A Boolean, a string, a number, or a list of tag and time (docs/DIFFERENCES.md)."""
        kind, n, place = self.length()
        if kind == STRING:
            return "oct:" + self.take(n).hex()
        if kind == BOOLEAN and n == 1:
            return "bool:%d" % (self.take(1) != b"\0")
        if kind in (INTEGER, UNSIGNED):
            return self.wide(kind, n, place)
        if (kind, n) != (LIST, 2):
            raise Refusal(12, place)
        self.tag_one()
        return "list:" + self.time()

    # ---- messages

    def event(self, text, *fields):
        """An event, its fields read from the left."""
        said = text % tuple(field() for field in fields)
        self.inside = True
        self.events.append(said)

    def message(self):
        self.list_of(6)
        head = "tid=%s group=%s abort=%s" % (self.string(), self.u8(), self.u8())
        self.list_of(2)
        place = self.at
        tag = self.number(UNSIGNED, 4)
        if tag not in (0x101, 0x201, 0x701):
            raise Refusal(13, place)
        {0x101: self.open, 0x201: self.close, 0x701: self.list}[tag](head)
        self.trailer()

    def open(self, head):
        self.list_of(6)
        self.event("open " + head + " codepage=%s client=%s file=%s server=%s time=%s version=%s", self.opt_string, self.opt_string, self.string, self.string, self.opt_time, lambda: self.optional(self.u8))

    def close(self, head):
        self.list_of(1)
        self.event("close " + head + " sig=%s", self.opt_string)

    def list(self, head):
        self.list_of(7)
        said = "list " + head + " client=%s server=%s name=%s time=%s" % (self.opt_string(), self.string(), self.opt_string(), self.opt_time())
        kind, many, place = self.length()
        if kind != LIST:
            raise Refusal(12, place)
        self.event(said + " n=%d" % many)
        for _ in range(many):
            self.list_of(7)
            self.event("entry name=%s status=%s time=%s unit=%s scaler=%s value=%s sig=%s", self.string, lambda: self.optional(self.status), self.opt_time, lambda: self.optional(self.u8), lambda: self.optional(self.i8), self.value, self.opt_string)
        self.event("end sig=%s time=%s", self.opt_string, self.opt_time)

    def opt_string(self):
        return self.optional(self.string)

    def opt_time(self):
        return self.optional(self.time)

    def trailer(self):
        place = self.at
        low, high = divmod(self.number(UNSIGNED, 2), 256)  # the bytes are swapped
        if self.take(1) != b"\0":
            raise Refusal(15, self.at - 1)
        if low + 256 * high != crc(self.data[self.start : place]):
            raise Refusal(14, place)

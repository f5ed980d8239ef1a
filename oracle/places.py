"""The number and the place of a message input's first refusal, for the vectors: the crate has no places. A reader of its own, apart from the proved code: it follows document 01's length and message rules, document 02's Q-2 and,
where these are widened to it, the crate's common.rs (a bare time, a list value). So the numbers are no second opinion on the crate, which they must equal; the places are on ours. And it tells which commands are out of the
domain because a length over 32 bits is read on them: up to the first such length the crate reads as this reader does, but behind a list of more than 4,294,967,293, which is out of the domain already.

10 stands at the input's length; 11, 12 and 13 at the element's first length byte, of a 13 the tag's; 14 at the CRC's; 15 at the end byte.
"""
import re
from sml import crc

OCT, BOOL, INT, UINT, LIST = 0, 4, 5, 6, 7


class Refused(Exception):
    """Its arguments are the number and the place, and of an 11 the kind."""


class TooLong(Refused):
    """A length over 32 bits, of which the crate keeps the low ones."""


class Input:
    def __init__(self, data):
        self.data, self.at = data, 0

    def byte(self):
        if self.at >= len(self.data):
            raise Refused(10, len(self.data))
        self.at += 1
        return self.data[self.at - 1]

    def head(self):
        """An element's first place, its type and its length, less the length bytes where it is no list."""
        at = self.at
        b = self.byte()
        ty, total = b >> 4 & 7, b & 15
        if ty not in (OCT, BOOL, INT, UINT, LIST):
            raise Refused(11, at, "TlfInvalidTy")
        if ty == BOOL and b & 0x80:
            raise Refused(11, at, "TlfReserved")
        while b & 0x80:
            b = self.byte()
            if b & 0x70:
                raise Refused(11, at, "TlfNextByteTypeMismatch")
            total = total << 4 | b & 15
            if total > 0xFFFFFFFF:
                raise TooLong(11, at, "TlfLengthOverflow")
        n = total if ty == LIST else total - (self.at - at)
        if n < 0:
            raise Refused(11, at, "TlfLengthUnderflow")
        return at, ty, n

    def content(self, n):
        if len(self.data) - self.at < n:
            raise Refused(10, len(self.data))
        self.at += n
        return self.data[self.at - n : self.at]


def wanted(good, at):
    if not good:
        raise Refused(12, at)


def listed(i, size):
    at, ty, n = i.head()
    wanted(ty == LIST and n == size, at)


def string(i):
    at, ty, n = i.head()
    wanted(ty == OCT, at)
    i.content(n)


def number(i, ty, most):
    at, found, n = i.head()
    wanted(found == ty and 1 <= n <= most, at)
    return int.from_bytes(i.content(n), "big")


def tagged(i, width, known):
    at = i.at
    tag = number(i, UINT, width)
    if tag not in known:
        raise Refused(13, at)
    return tag


def time(i):
    at, ty, n = i.head()
    if (ty, n) == (UINT, 4):
        i.content(4)
        return
    wanted((ty, n) == (LIST, 2), at)
    tagged(i, 1, {1})
    number(i, UINT, 4)


def value(i):
    at, ty, n = i.head()
    if (ty, n) == (LIST, 2):
        tagged(i, 1, {1})
        time(i)
        return
    wanted(ty == OCT or ty == BOOL and n == 1 or ty in (INT, UINT) and 1 <= n <= 8, at)
    i.content(n)


def optional(i, field, *more):
    """Absent is the one byte 01."""
    if i.data[i.at : i.at + 1] == b"\x01":
        i.at += 1
    else:
        field(i, *more)


def entry(i):
    listed(i, 7)
    string(i)
    optional(i, number, UINT, 8), optional(i, time), optional(i, number, UINT, 1), optional(i, number, INT, 1)
    value(i)
    optional(i, string)


def opened(i):
    listed(i, 6)
    optional(i, string), optional(i, string), string(i), string(i), optional(i, time), optional(i, number, UINT, 1)


def closed(i):
    listed(i, 1)
    optional(i, string)


def entries(i):
    listed(i, 7)
    optional(i, string), string(i), optional(i, string), optional(i, time)
    at, ty, n = i.head()
    wanted(ty == LIST, at)
    # each is one byte at least, so that a large number ends in a refusal
    for _ in range(n):
        entry(i)
    optional(i, string), optional(i, time)


def message(i):
    start = i.at
    listed(i, 6)
    string(i), number(i, UINT, 1), number(i, UINT, 1)
    listed(i, 2)
    {0x101: opened, 0x201: closed, 0x701: entries}[tagged(i, 4, {0x101, 0x201, 0x701})](i)
    at = i.at
    said = number(i, UINT, 2)
    end = i.at
    if i.byte() != 0:
        raise Refused(15, end)
    if said != int.from_bytes(crc(i.data[start:at]).to_bytes(2, "little"), "big"):
        raise Refused(14, at)


def messages(i):
    while i.at < len(i.data):
        message(i)


def refusal(data):
    """(number, place), or None where the whole input is messages."""
    try:
        messages(Input(data))
    except Refused as r:
        return r.args[:2]
    return None


def length_field(data):
    """What `tlf` answers."""
    i = Input(data)
    try:
        at, ty, n = i.head()
    except Refused as r:
        number, place, *kind = r.args
        return "err %s %d @%d" % (" ".join(["InvalidTlf", *kind] if kind else ["UnexpectedEOF"]), number, place)
    return "%d %d next %d" % (ty, n, i.at)


# ---- which commands are out of the domain

LEAVES = {k + str(8 * n): (number, ty, n) for k, ty in (("u", UINT), ("i", INT)) for n in (1, 2, 4, 8)}
LEAVES |= {"bool": (number, BOOL, 1), "oct": (string,), "time": (time,), "value": (value,), "status": (number, UINT, 8)}
LEAVES |= {"opt_" + k: (optional, *LEAVES[k]) for k in ("u8", "i8", "oct", "time", "status")}
COMMAND = re.compile(r"(?:events|leaf (\w+)) (-|(?:[0-9a-f]{2})+)")
# nine digits at least, so that eight length bytes say that more follow
MORE = re.compile(rb"[\x80-\xff]{8}")


def over_32_bits(command):
    """Whether a length over 32 bits is read on it."""
    said = COMMAND.fullmatch(command)
    if not said or len(command) > 70000 or said[1] and said[1] not in LEAVES:
        return False
    data = bytes.fromhex(said[2].replace("-", ""))
    read, *more = LEAVES[said[1]] if said[1] else [messages]
    if not MORE.search(data):
        return False
    try:
        read(Input(data), *more)
    except Refused as r:
        return isinstance(r, TooLong)
    return False

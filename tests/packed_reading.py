"""A decoder's state in 28 plain bytes (document 02, Q-11), written from the documents alone over the push rules of tests/push_rules.py: what tests/test_packed.py holds the program to. Which bytes no packing gives is judged in two ways, by packing again and by a list of conditions on the bytes.

`python3 tests/packed_reading.py` holds it to the request's vectors, and both judgements to the packings of all records over a few numbers.
"""
import collections, itertools, re, sys

sys.dont_write_bytecode = True
import push_rules
from push_rules import START, crc

LIMIT, SIZE = 1048576, 28
SEARCH, NORMAL, WAITING, JUDGED, DONE = range(5)  # in the order of the Rust's DecodeState
BAD, WRONG, SHORT = 4, 5, 18
Record = collections.namedtuple("Record", "kind n way crc fill idx raw noise cap")


class Decoder(push_rules.Decoder):
    """With what its CRC has taken in, the frame's bytes as they came up to the last opened escape, and the fill at that place, the CRC index."""

    def begin(self):
        super().begin()
        self.taken, self.idx = START, 0

    def body(self, b):
        event = super().body(b)
        if self.state == "escape":
            self.taken, self.idx = self.seen, len(self.stored)
        return event

    def record(self):
        if self.state == "search":
            n, noise = self.matched, self.noise
            if self.way == 2:
                # the most of the start sequence's first bytes that are the last ones here; all before them is noise
                n = max(k for k in range(8) if self.last.endswith(START[:k]))
                noise = self.raw - n
            return Record(SEARCH, n, self.way, 0xFFFF, 0, 0, self.raw, noise, self.capacity)
        if self.state == "done":
            # the stored bytes still have the pads and the end's four
            return Record(DONE, 0, self.way, 0xFFFF, len(self.stored) - 4 - self.four[1], 0, 0, 0, self.capacity)
        kind, n = (JUDGED, len(self.four)) if self.state == "escape" else (WAITING, self.waiting) if self.waiting else (NORMAL, 0)
        return Record(kind, n, self.way, crc(self.taken) ^ 0xFFFF, len(self.stored), self.idx, self.raw, 0, self.capacity)


# ---- packing


def bad(d):
    """BadState, by document 01's list for a decoder; an unknown way by Q-7; a kind that is none."""
    return (
        d.fill > d.cap
        or d.idx > d.fill
        or d.kind == SEARCH and (d.fill != 0 or d.n > 7)
        or d.kind == WAITING and not 1 <= d.n <= 3
        or d.kind == JUDGED and (d.n > 3 or d.idx + d.n > d.fill)
        or d.kind in (NORMAL, WAITING, JUDGED) and d.raw < 8
        or d.way not in (1, 2)
        or d.kind > DONE
    )


def tidy(d):
    """The counts that a state doesn't use are 0: document 01, the push rules."""
    if d.kind in (NORMAL, DONE):
        d = d._replace(n=0)
    if d.kind != SEARCH:
        d = d._replace(noise=0)
    return d._replace(idx=0, raw=0) if d.kind == DONE else d


def written(d):
    head = bytes([d.kind, d.n, d.way, 0]) + d.crc.to_bytes(2, "little") + bytes(2)
    return head + b"".join(x.to_bytes(4, "little") for x in (d.fill, d.idx, d.raw, d.noise, d.cap))


def pack(d, out):
    """The refusal, or 0, and the output behind it."""
    refusal = BAD if bad(d) else WRONG if d.cap > LIMIT else SHORT if len(out) < SIZE else 0
    return (refusal, out) if refusal else (0, written(tidy(d)) + out[SIZE:])


# ---- unpacking


def said(s):
    """The record that 28 bytes say, each number as it stands."""
    return Record(s[0], s[1], s[2], s[4] + 256 * s[5], *(int.from_bytes(s[k : k + 4], "little") for k in range(8, 28, 4)))


def unpack(s):
    """The record; None, refusal 4, for bytes that no packing gives: what they say does not pack to them."""
    return said(s) if len(s) >= SIZE and pack(said(s), s) == (0, s) else None


def listed(s):
    """The other judgement: what must hold of bytes that a packing gives, by their places."""
    if len(s) < 28 or s[3] or s[6] or s[7] or s[2] not in (1, 2):
        return False
    fill, idx, raw, noise, cap = (s[k] | s[k + 1] << 8 | s[k + 2] << 16 | s[k + 3] << 24 for k in (8, 12, 16, 20, 24))
    frame = raw >= 8 and noise == 0
    here = {
        0: s[1] < 8 and fill == 0,
        1: s[1] == 0 and frame,
        2: s[1] in (1, 2, 3) and frame,
        3: s[1] in (0, 1, 2, 3) and idx <= fill - s[1] and frame,
        4: s[1] == idx == raw == noise == 0,
    }
    return here.get(s[0], False) and idx <= fill <= cap <= 1048576


# ---- the answers of bin/replay


def unhex(text):
    return bytes.fromhex(text.replace("-", ""))


def told(d):
    return "kind=%d n=%d way=%d crc=%04x fill=%d idx=%d raw=%d noise=%d cap=%d" % d if d else "refused %d" % BAD


def operations(text):
    """Numbers for bytes, "f" and "r"."""
    for word in text.split(",") if text != "-" else ():
        if word[0] == "z":
            yield from unhex(word[-2:]) * int(word[1:-3])
        elif word[0] == "b":
            yield from unhex(word[1:])
        else:
            yield word


def ran(way, capacity, ops):
    """A new decoder behind operations: the events as `push` prints them, and the decoder."""
    d, events = Decoder(capacity, way), []
    for i, op in enumerate(ops, 1):
        event = d.finalize() if op == "f" else d.reset() if op == "r" else d.push(op)
        if event:
            events.append("%d:%s" % (i, event))
    return ";".join(events) or "-", d


def answer(command):
    word, *rest = command.split(" ")
    if word == "unpack":
        return told(unpack(unhex(rest[0])))
    if word == "packed":
        # way and capacity never change: where packing the new decoder is refused, so it is behind the operations
        events, d = ran(int(rest[0]), int(rest[1]), operations(rest[2]))
        refusal, out = pack(d.record(), bytes(SIZE))
        return "refused %d" % refusal if refusal else "%s / %s" % (events, out.hex())
    d, out = Record(*(int(x, 16 if k == 3 else 10) for k, x in enumerate(rest[:9]))), unhex(rest[9])
    if d.kind > DONE or d._replace(idx=0, raw=0) != tidy(d)._replace(idx=0, raw=0):
        # the program's record has no such kind, or no place for that count; for CRC index and raw length behind a payload it has
        return "bad command"
    refusal, out = pack(d, out)
    return ("refused %d " % refusal if refusal else "") + (out.hex() or "-")


# ---- the request's vectors

# way, capacity and operations (S the start sequence, F the bench sheet's first frame), events, bytes; the ninth has one byte of the end judged early
PACKED = """
1 8 -                           -                     00000100ffff0000 00000000 00000000 00000000 00000000 08000000
2 1048576 -                     -                     00000200ffff0000 00000000 00000000 00000000 00000000 00001000
2 8 b001b1b                     -                     00020200ffff0000 00000000 00000000 03000000 01000000 08000000
1 8 bS                          -                     01000100dc910000 00000000 00000000 08000000 00000000 08000000
2 8 b00S1234                    9:discarded 1         01000200dc910000 02000000 00000000 0a000000 00000000 08000000
1 8 bS121b1b                    -                     02020100dc910000 01000000 00000000 0b000000 00000000 08000000
1 8 bS121b1b1b1b                -                     0300010057a80000 01000000 01000000 0d000000 00000000 08000000
1 8 bS121b1b1b1b1a00            -                     0302010057a80000 03000000 01000000 0f000000 00000000 08000000
1 8 bS0102031b1b1b1b1b1a0032    -                     03030100d2fc0000 07000000 03000000 13000000 00000000 08000000
2 8 bF                          20:payload 12345678   04000200ffff0000 04000000 00000000 00000000 00000000 08000000
"""
# not the request's: pads are no part of the fill; data that was escaped stands behind the CRC index; the way is kept
MORE_PACKED = """
1 8 bS010203001b1b1b1b1a01f006  20:payload 010203     04000100ffff0000 03000000 00000000 00000000 00000000 08000000
2 16 bS011b1b1b1b1b1b1b1b02     -                     01000200db010000 06000000 01000000 12000000 00000000 10000000
2 8 bS12,f,b1b,r                10:discarded 9;12:reset 1   00000200ffff0000 00000000 00000000 00000000 00000000 08000000
"""


def rows(table):
    """Columns stand two blanks or more apart."""
    for row in table.replace("S", START.hex()).replace("F", "1b1b1b1b01010101123456781b1b1b1b1a00b87b").strip().split("\n"):
        given, events, packing = re.split("  +", row)
        yield "packed " + given, events + " / " + packing.replace(" ", "")


def changed(place, b):
    return "unpack " + (THIRD[:place] + bytes([b]) + THIRD[place + 1 :]).hex()


VECTORS = list(rows(PACKED))
EE27, EE28, EE30 = "ee" * 27, "ee" * 28, "ee" * 30
VECTORS += [
    ("pack 4 0 1 1234 4 2 7 0 8 " + EE28, "04000100341200000400000000000000000000000000000008000000"),
    ("pack 0 2 2 1234 0 0 9 5 8 " + EE30, "00020200341200000000000000000000090000000500000008000000eeee"),
    ("pack 0 0 3 ffff 0 0 0 0 8 " + EE28, "refused 4 " + EE28),
    ("pack 4 0 1 ffff 1048578 0 0 0 1048577 -", "refused 4 -"),
    ("pack 0 0 1 ffff 0 0 0 0 1048577 " + EE27, "refused 5 " + EE27),
    ("pack 0 0 1 ffff 0 0 0 0 8 " + EE27, "refused 18 " + EE27),
]
# the third row's bytes with one changed, cut, or with more behind them
THIRD, SAYS = bytes.fromhex(VECTORS[2][1].split(" / ")[1]), "kind=0 n=2 way=%d crc=%s fill=0 idx=0 raw=3 noise=1 cap=8"
VECTORS += [(changed(place, b), "refused 4") for place, b in ((0, 5), (0, 1), (1, 8), (2, 0), (3, 1), (7, 1), (8, 1), (12, 1), (27, 1))]
VECTORS += [("unpack " + THIRD[:27].hex(), "refused 4"), ("unpack " + bytes(28).hex(), "refused 4")]
VECTORS += [(changed(2, 1), SAYS % (1, "ffff")), (changed(4, 0x34), SAYS % (2, "ff34")), ("unpack " + THIRD.hex() + "ee", SAYS % (2, "ffff"))]

# not the request's: a new decoder whose packing is refused; no bytes at all; records that the program's has no place for
MORE = [
    *rows(MORE_PACKED),
    ("packed 3 8 b00,f,r", "refused 4"),
    ("packed 0 1048577 -", "refused 4"),
    ("packed 2 1048577 b00", "refused 5"),
    ("unpack -", "refused 4"),
    ("pack 1 1 1 ffff 0 0 8 0 8 -", "bad command"),
    ("pack 4 1 1 ffff 0 0 0 0 8 -", "bad command"),
    ("pack 2 1 1 ffff 0 0 8 1 8 -", "bad command"),
    ("pack 5 0 1 ffff 0 0 8 0 8 -", "bad command"),
]


def disagreements():
    """Where the reading does not say what a vector does, or a judgement is not what packing gives: of all byte strings over a few numbers, those that a packing of some record over these numbers gives."""
    faults = [f"{command}\n  wanted   {wanted}\n  answered {answer(command)}" for command, wanted in VECTORS + MORE if answer(command) != wanted]
    few = range(6), (0, 1, 3, 4, 7, 8), range(4), (0xFFFF,), (0, 1, 4), (0, 1, 2), (0, 7, 8), (0, 1), (0, 1, 4, LIMIT, LIMIT + 1)
    records = [Record(*numbers) for numbers in itertools.product(*few)]
    given = {out for refusal, out in (pack(d, bytes(SIZE)) for d in records) if not refusal}
    for s in map(written, records):
        judged = s in given, unpack(s) is not None, listed(s)
        if len(set(judged)) > 1:
            faults.append(f"{s.hex()}: given by a packing {judged[0]}, by packing again {judged[1]}, by the list {judged[2]}")
    return faults, len(records), len(given)


if __name__ == "__main__":
    faults, strings, given = disagreements()
    agreeing = sum(answer(command) == wanted for command, wanted in VECTORS)
    print("\n".join([*faults[:5], f"{agreeing} of the request's {len(VECTORS)} vectors agree; {strings:,} byte strings judged, {given:,} of them packings; {len(faults)} faults"]))
    sys.exit(1 if faults else 0)

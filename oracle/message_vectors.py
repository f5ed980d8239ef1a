"""message_vectors.py: prints the fixed commands over messages. vectors.py puts them, with their answers, behind its own lines.

The answers are the crate's (target/oracle/oracle, made by oracle/build). The crate has no places: what `places` answers is its answer to `events` with document 01's number behind each
error, and its place. Both are those of places.py, a reader of its own, and the number must be the crate's; where one field is bent they are also written here beside the input. What `tlf` answers is that reader's too, since the
crate keeps the low 32 bits of a length; those of document 02's Q-2 are also written here.
"""
import os, subprocess, sys

sys.dont_write_bytecode = True
from messages import BOOL, INT, KINDS, LIST, OCT, UINT, element, length, payloads, sealed, unsigned
from places import length_field, over_32_bits, refusal
from sml import HERE, crc, hexed

b = bytes.fromhex
ORACLE = os.path.join(HERE, "..", "target/oracle/oracle")
NUMBERS = {"UnexpectedEOF": 10, "InvalidTlf": 11, "TlfMismatch": 12, "UnexpectedVariant": 13, "CrcMismatch": 14, "MsgEndMismatch": 15}


def heads(data):
    """Of a sound file: the place, number of length bytes, type and length of each element, in their order; the end byte is a string of no length."""
    at = 0
    while at < len(data):
        own, total = 1, data[at] & 15
        while data[at + own - 1] & 0x80:
            total, own = total << 4 | data[at + own] & 15, own + 1
        ty = data[at] >> 4 & 7
        n = 0 if data[at] == 0 else total if ty == LIST else total - own
        yield at, own, ty, n
        at += own + (0 if ty == LIST else n)


def messages_of(data):
    start = 0
    for at, own, ty, n in heads(data):
        if data[at] == 0:
            yield data[start : at + 1]
            start = at + 1


# ---- a file with every field present: (what it is, its bytes), so that each place is known


def fields(tag, content):
    head = [("list", length(LIST, 6)), ("string", element(OCT, b("05032b180f1b"))), ("number", unsigned(5, 1)), ("number", unsigned(1, 1)), ("list", length(LIST, 2)), ("tag", unsigned(tag, 4))]
    out = head + content
    c = crc(b"".join(x for _, x in out))
    return out + [("crc", element(UINT, c.to_bytes(2, "little"))), ("end", b"\0")]


def time(seconds):
    return [("list", length(LIST, 2)), ("time tag", unsigned(1, 1)), ("number", unsigned(seconds, 4))]


def string(text):
    return [("string", element(OCT, text))]


def entry(value):
    middle = [("number", unsigned(130, 2))] + time(7) + [("number", unsigned(30, 1)), ("number", element(INT, b"\xff"))]
    return [("list", length(LIST, 7))] + string(b("0100010800ff")) + middle + value + string(b"\xaa\xbb")


VALUES = [[("value", element(INT, b("fffe")))], [("list value", length(LIST, 2)), ("value tag", unsigned(1, 1))] + time(9)]
OPEN = fields(0x101, [("list", length(LIST, 6))] + string(b"utf8") + string(b"client") + string(b"file") + string(b"server") + time(1000000) + [("number", unsigned(1, 1))])
CLOSE = fields(0x201, [("list", length(LIST, 1))] + string(b"sig"))
LISTED = fields(
    0x701,
    [("list", length(LIST, 7))] + string(b"client") + string(b"server") + string(b"name") + time(5) + [("any list", length(LIST, 2))] + entry(VALUES[0]) + entry(VALUES[1]) + string(b"sig") + time(6),
)


def joined(message):
    return b"".join(x for _, x in message)


FULL = joined(OPEN) + joined(LISTED) + joined(CLOSE)


# ---- commands that the crate answers


def whole():
    both = list(payloads())
    for p in both + [b"", FULL, both[0] + both[1], both[1] + FULL, both[0] + b"\0", both[1] + b"\x76", b("00"), b("01")]:
        yield "events " + hexed(p)
    for p in both:
        yield from ("events " + m.hex() for m in messages_of(p))


def cuts():
    """Cut after every byte."""
    for p in [*payloads(), FULL]:
        yield from ("events " + hexed(p[:k]) for k in range(len(p)))


def damages():
    """One bit wrong at every byte, the CRC left as it was; and in each message made right again."""
    for p in [*payloads(), FULL]:
        for k in range(len(p)):
            yield "events " + (p[:k] + bytes([p[k] ^ 1 << k % 8]) + p[k + 1 :]).hex()
    for m in map(joined, (OPEN, LISTED, CLOSE)):
        for k in range(len(m) - 4):
            yield "events " + sealed(m[:k] + bytes([m[k] ^ 1 << (k + 3) % 8]) + m[k + 1 : -4]).hex()


def told():
    """The messages of docs/WRONG-READINGS.md that are not among the others."""
    close = "7605dd434400620062007263%s71%s"
    for tag, sig in (("0201", "03aabb"), ("0201", "01"), ("0201", "8002"), ("0700", "01"), ("0200", "01"), ("0202", "01")):
        one = sealed(b(close % (tag, sig)))
        yield from ("events " + x.hex() for x in (one, one + one, one[:-1] + b"\x01", one[:-3] + one[-3:-1][::-1] + b"\0", one[:-3] + one[-3:-1][::-1] + b"\x01", joined(OPEN) + one, one + joined(OPEN)))
    small = "7603dd4362006200726302017101"
    yield from ("events " + small + x for x in ("630f5b00", "635b0f00", "635b0f01", "630f5b01"))
    yield "events 76020762006200726307017701020101017177020501010101620101010163516200"


OTHERS = b("00 01 02 10 42 52 62 63 65 69 72 76 77 80 83 c2 f0 ff")


def replaced(message, others):
    """Each length byte replaced, and the CRC made right again; that of the CRC itself, and the end byte, replaced too."""
    for at, own, ty, n in heads(message):
        for p in range(at, at + own):
            for x in others(message[p]):
                bent = message[:p] + bytes([x]) + message[p + 1 :]
                yield "events " + (sealed(bent[:-4]) if at < len(message) - 4 else bent).hex()


def lengths():
    for m in map(joined, (OPEN, LISTED, CLOSE)):
        yield from replaced(m, lambda x: sorted({*OTHERS, (x + 1) % 256, (x - 1) % 256} - {x}))
    for p in payloads():
        for m in messages_of(p):
            yield from replaced(m, lambda x: sorted({0x01, x + 1} - {x}))


def longer():
    """One element in turn with one more length byte, or two, and each string with a content that needs two: the fields behind it are read as before."""
    for m in [*map(joined, (OPEN, LISTED, CLOSE)), *(m for p in payloads() for m in messages_of(p))]:
        for at, own, ty, n in heads(m[:-4]):
            end = at + own + (0 if ty == LIST else n)
            for more in (1, 2):
                if ty != BOOL:
                    yield "events " + sealed(m[:at] + length(ty, n, own - 1 + more) + m[at + own : -4]).hex()
            if ty == OCT:
                for k in (14, 15, 48, 255):
                    yield "events " + sealed(m[:at] + element(OCT, bytes(range(k))) + m[end:-4]).hex()
                yield "events " + sealed(m[:at] + b"\x01" + m[end:-4]).hex()


def leaves():
    """Every length byte at every kind that crate value reads, and both forms of a time."""
    for k in KINDS:
        yield from ("leaf %s %02x0203040506070809" % (k, x) for x in range(256))
        for h in ["01", "00", "8002", "8001", "-", "6500000007", "7262016500000007", "7262016500000005", "6205", "630005", "630102", "72620165000f4240", "65000f4240", "6400ffff", "720165000f4240", "72620265000f4240", "7262016201", "726201620165000000ff", "7262017262016500000001",
                  "72620165000000ff00", "7201", "7262", "726201", "72620165", "f002620165000000ff", "e00600000001", "e0070000000001", "72e003016500000001", "7262ff6500000001", "710165000000ff", "7362016500000001"]:
            yield "leaf %s %s" % (k, h)
        for n in range(0, 10):
            for ty in (INT, UINT):
                yield from ("leaf %s %x%x%s" % (k, ty, n + 1, c[: 2 * n]) for c in ("00" * n, "ff" * n, "80" + "00" * n, "7f" + "ff" * n))


# ---- commands with places: the input, the number of the first refusal and its place

# of each kind of field, what can't stand in its place: 12
WRONG = {"list": "6205", "any list": "6205", "string": "6205", "number": "0241", "tag": "0241", "time tag": "0241", "value": "71", "list value": "73", "value tag": "0241", "crc": "0241"}


def placed():
    before = joined(CLOSE)
    for message in (OPEN, CLOSE, LISTED):
        body = list(message)
        for k, (kind, bytes_of) in enumerate(body):
            at = len(before) + len(joined(body[:k]))

            def put(x):
                bent = joined(body[:k]) + x + joined(body[k + 1 :])
                return before + (bent if kind in ("crc", "end") else sealed(bent[:-4]))

            if k > 0:
                cut = put(bytes_of)[: at + len(bytes_of) - 1]
                yield cut, 10, len(cut)
            if kind == "end":
                yield put(b"\x01"), 15, at
                continue
            for x in ("10", "c2", "00", "8112"):
                yield put(b(x)), 11, at
            yield put(b(WRONG[kind])), 12, at
            if kind.endswith("tag"):
                yield put(unsigned(2, 1)), 13, at
            if kind == "number":
                yield put(element(UINT, bytes(9))), 12, at
            if kind == "crc":
                yield put(b"\x63" + bytes([bytes_of[1] ^ 1]) + bytes_of[2:]), 14, at
                yield put(b"\x63" + bytes_of[:0:-1]), 14, at
                # both wrong: the end byte is judged first
                yield put(b"\x63" + bytes_of[:0:-1])[:-1] + b"\x01", 15, at + 3


def judged():
    """Every cut, every length byte replaced and every damage of the messages: whatever is refused there."""
    for c in dict.fromkeys([*cuts(), *lengths(), *damages(), *told()]):
        data = b(c.split()[1].replace("-", ""))
        if refusal(data) is not None:
            yield (data, *refusal(data))


def bent():
    """Both lists, each input once; where it is in both they agree."""
    out = {}
    for data, number, place in placed():
        assert refusal(data) == (number, place), (data.hex(), refusal(data), number, place)
        out[data] = number, place
    for data, number, place in judged():
        out[data] = number, place
    return [(data, *what) for data, what in out.items()]


# ---- length fields, with document 02's Q-2

# the last that fit, and where a length passes 4,294,967,295: behind its byte's type, before underflow, for lists too
OVERFLOWS = """81808080808080800a: err InvalidTlf TlfLengthOverflow 11 @0
8f8f8f8f8f8f8f0f: 0 4294967287 next 8
ff8f8f8f8f8f8f0f: 7 4294967295 next 8
f180808080808080: err UnexpectedEOF 10 @8
f18080808080808000: err InvalidTlf TlfLengthOverflow 11 @0
8180808080808080: err UnexpectedEOF 10 @8
818080808080808010: err InvalidTlf TlfNextByteTypeMismatch 11 @0
818080808080808090: err InvalidTlf TlfNextByteTypeMismatch 11 @0
818080808080808080: err InvalidTlf TlfLengthOverflow 11 @0
80808080808080808080800d: 0 1 next 12
808080808080808080800a: err InvalidTlf TlfLengthUnderflow 11 @0
df8f8f8f8f8f8f8f0f: err InvalidTlf TlfLengthOverflow 11 @0
c1808080808080800a: err InvalidTlf TlfReserved 11 @0
918080808080808000: err InvalidTlf TlfInvalidTy 11 @0
8080808080808080818080808080808005: err InvalidTlf TlfLengthOverflow 11 @0"""


def length_fields():
    """Those of Q-2, no byte, and every first byte alone, before one more, before seven zeros that say more and a last digit, and before eight digits f."""
    for line in OVERFLOWS.split("\n"):
        h, answer = line.split(": ")
        assert length_field(b(h)) == answer, line
        yield b(h)
    yield b""
    for x in range(256):
        yield from (bytes([x]) + more for more in (b"", b"\x05", b("8080808080808004"), b("8f8f8f8f8f8f8f0f")))


def with_places(said, size, number, place):
    """The crate's answer to `events`, with number and place behind each error; behind the first refusal it is 10 at the end of the input."""
    out, first = [], True
    for one in said.split(" | "):
        if one.startswith("err "):
            n = NUMBERS[one.split()[1]]
            assert n == (number if first else 10), (said, number)
            one += " %d @%d" % (n, place if first else size)
            first = False
        out.append(one)
    assert not first, said
    return " | ".join(out)


def asked(commands):
    said = subprocess.run([ORACLE], input="\n".join(commands).encode(), capture_output=True, check=True).stdout.decode().splitlines()
    assert len(said) == len(commands)
    assert not {"panic", "bad command"} & set(said)
    return said


def plain():
    seen = dict.fromkeys([*whole(), *cuts(), *damages(), *told(), *lengths(), *longer(), *leaves()])
    return list(seen)


def vectors():
    """Commands and answers."""
    commands, refused = plain(), bent()
    assert not any(map(over_32_bits, commands + ["events " + d.hex() for d, _, _ in refused]))
    said = asked(commands + ["events " + d.hex() for d, _, _ in refused])
    for command, answer in zip(commands, said):
        if command.startswith("events "):
            # what the crate refuses, and nothing else, is refused by the rule of places too
            assert ("err " in answer) == (refusal(b(command[7:].replace("-", ""))) is not None), command
        yield command, answer
    for (data, number, place), answer in zip(refused, said[len(commands) :]):
        yield "places " + data.hex(), with_places(answer, len(data), number, place)
    yield from (("tlf " + hexed(data), length_field(data)) for data in dict.fromkeys(length_fields()))


if __name__ == "__main__":
    sys.stdout.writelines(c + "\n" for c in plain() + ["places " + d.hex() for d, _, _ in bent()] + ["tlf " + hexed(d) for d in dict.fromkeys(length_fields())])

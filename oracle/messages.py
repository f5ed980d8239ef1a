"""Messages by document 01's tables: valid ones, and the same with each field bent; for generate.py and message_vectors.py.

A field is bytes. `r` is a random.Random; `bent` is how likely a field is to be another than its table says.
"""
import os, re
from sml import HERE, crc, hexed

OCT, BOOL, INT, UINT, LIST = 0, 4, 5, 6, 7
ABSENT = b"\x01"
# kinds of `leaf` that crate value reads
KINDS = ["time", "value", "status", "opt_u8", "opt_i8", "opt_time", "opt_status"]
# a list of 4,294,967,294 or 4,294,967,295, beyond document 01's domain
BEYOND = re.compile(rb"\x8f{6}[\x0e\x0f]")


def length(ty, n, more=0):
    """The length bytes of an element of n bytes, or of a list of n: as few as can be, and `more`."""
    own = 1
    while n + (own if ty != LIST else 0) >= 16 ** own:
        own += 1
    own += more
    total = n + (own if ty != LIST else 0)
    out = [0x80 | total >> 4 * k & 15 for k in reversed(range(own))]
    out[0] |= ty << 4
    out[-1] &= 0x7F
    return bytes(out)


def element(ty, content, more=0):
    return length(ty, len(content), more) + content


def unsigned(x, width):
    return element(UINT, x.to_bytes(width, "big"))


def sealed(body):
    """A message's CRC and end behind its other fields."""
    return body + b"\x63" + crc(body).to_bytes(2, "little") + b"\0"


def payloads():
    """The payloads of the two constructed frames of meters; neither has a run of four 1b."""
    for line in open(os.path.join(HERE, "frames.hex")).read().split():
        frame = bytes.fromhex(line)
        yield frame[8 : len(frame) - 8 - frame[-3]]


# ---- random fields


def more(r):
    return r.choice([0] * 12 + [1, 1, 2, 7, 8])


def any_element(r):
    """A field of any type, of a length that a number or a short string has."""
    ty = r.choice([OCT, BOOL, INT, UINT, UINT, LIST])
    n = r.randrange(11)
    return length(ty, n, more(r)) + (b"" if ty == LIST else r.randbytes(n))


def over(r, field):
    """The field with a length over 32 bits, whose low ones are the length that stood there: the crate reads on."""
    own = next((k for k, b in enumerate(field, 1) if b < 0x80), 0)
    if own == 0:
        return field
    ty, digits = field[0] >> 4 & 7, r.choice([9, 9, 10, 12])
    total = int(field[:own].hex()[1::2], 16) + (digits - own if ty != LIST else 0) + (r.randrange(1, 16 ** (digits - 8)) << 32)
    out = [0x80 | total >> 4 * k & 15 for k in reversed(range(digits))]
    out[0] |= ty << 4
    out[-1] &= 0x7F
    return bytes(out) + field[own:]


def bend(r, field):
    what = r.randrange(10)
    if what == 0:
        return any_element(r)
    if what == 1:
        return r.choice([ABSENT, b"\x80\x02", b"\x80\x01", b"\x00", b"\x10", b"\xc2\x01", b"\x81\x12", b"\x41", b"\x51", b"\x61", b"\x71", b"\x70", b"\xf0\x02", b""])
    if what == 2:
        return bytes([field[0] ^ r.choice([1, 2, 16, 32, 64, 128])]) + field[1:]
    if what == 3:
        return field[: r.randrange(len(field))]
    if what == 4:
        return field + field
    if what == 5:
        return r.choice([time, value, status])(r, 0)
    if what == 6:
        return bytes([max(field[0] & 0xF0, field[0] - 1)]) + field[1:]
    if what == 7:
        return r.choice([string, number])(r)
    if what == 8:
        return over(r, field)
    return r.randbytes(r.randrange(1, 4))


def maybe(r, bent, field):
    return bend(r, field) if r.random() < bent else field


def string(r):
    n = r.choice([0, 1, 2, 4, 6, 10, 13, 14, 15, 16, 40] + [r.randrange(20)] * 6 + [r.randrange(300)] * (r.random() < 0.1))
    return element(OCT, r.choice([r.randbytes(n), bytes(n), b"\x1b" * n]), more(r))


def digits(r, most):
    """1 to `most` bytes, as a number has."""
    n = r.randint(1, most)
    return r.choice([r.randbytes(n), r.randbytes(n), bytes(n), b"\xff" * n, (b"\x80" + bytes(n))[:n], (b"\x7f" + b"\xff" * n)[:n]])


def number(r, ty=UINT, most=1):
    return element(ty, digits(r, most), more(r))


def optional(r, field):
    return ABSENT if r.random() < 0.35 else field


def seconds(r):
    """The bare form has four bytes exactly; within the list it has up to four."""
    return element(UINT, r.choice([r.randbytes(4), bytes(4), b"\xff" * 4]), r.choice([0, 0, 0, 0, 1]))


def time(r, bent):
    if r.random() < 0.3:
        return maybe(r, bent, seconds(r))
    tag = number(r) if r.random() < bent else unsigned(1, 1)
    return maybe(r, bent, length(LIST, 2, more(r))) + maybe(r, bent, tag) + maybe(r, bent, r.choice([seconds(r), number(r, UINT, 4)]))


def status(r, bent):
    return maybe(r, bent, number(r, UINT, 8))


def value(r, bent):
    what = r.randrange(12)
    if what < 2:
        return maybe(r, bent, element(BOOL, bytes([r.choice([0, 1, 2, 255])])))
    if what < 4:
        return maybe(r, bent, string(r))
    if what < 10:
        return maybe(r, bent, number(r, r.choice([INT, UINT]), r.choice([1, 2, 4, 8, 8])))
    tag = number(r) if r.random() < bent else unsigned(1, 1)
    return maybe(r, bent, length(LIST, 2, more(r))) + maybe(r, bent, tag) + time(r, bent)


# ---- random messages


def some_strings(r, bent, kinds):
    """A string for each letter: s, or o for one that may be absent."""
    return b"".join(maybe(r, bent, string(r) if k == "s" else optional(r, string(r))) for k in kinds)


def head(r, bent, tag):
    """A message up to its content."""
    tid = maybe(r, bent, string(r))
    tag = r.choice([0, 1, 0x100, 0x102, 0x300, 0x601, 0x700, 0x702, 0x1010000, 0xFF01, r.getrandbits(32)]) if r.random() < bent else tag
    tag = unsigned(tag, 4 if tag >> 16 else r.choice([2, 3, 4, 4, 4]))
    two = maybe(r, bent, number(r)) + maybe(r, bent, number(r))
    return maybe(r, bent, length(LIST, 6, more(r))) + tid + two + maybe(r, bent, length(LIST, 2, more(r))) + maybe(r, bent, tag)


def entry(r, bent):
    middle = optional(r, status(r, bent)) + optional(r, time(r, bent)) + maybe(r, bent, optional(r, number(r))) + maybe(r, bent, optional(r, number(r, INT)))
    return maybe(r, bent, length(LIST, 7, more(r))) + some_strings(r, bent, "s") + middle + value(r, bent) + some_strings(r, bent, "o")


def body(r, bent):
    """A message without its CRC and end."""
    kind = r.choice([0x101, 0x201, 0x701, 0x701])
    out = head(r, bent, kind)
    if kind == 0x101:
        out += maybe(r, bent, length(LIST, 6, more(r))) + some_strings(r, bent, "ooss")
        return out + optional(r, time(r, bent)) + maybe(r, bent, optional(r, number(r)))
    if kind == 0x201:
        return out + maybe(r, bent, length(LIST, 1, more(r))) + some_strings(r, bent, "o")
    n = r.choice([0, 1, 1, 2, 3, 8])
    said = r.choice([n + 1, max(n - 1, 0), 15, 16, 4294967293, 4294967280, r.getrandbits(31)]) if r.random() < bent else n
    out += maybe(r, bent, length(LIST, 7, more(r))) + some_strings(r, bent, "oso") + optional(r, time(r, bent))
    out += maybe(r, bent, length(LIST, said, 0 if said > 1 << 27 else more(r)))
    return out + b"".join(entry(r, bent) for _ in range(n)) + some_strings(r, bent, "o") + optional(r, time(r, bent))


def one_byte_crc(r):
    """A close with an id at which the CRC's low byte is 0, so that one byte is enough for it."""
    while True:
        m = b"\x76" + element(OCT, r.randbytes(6)) + bytes.fromhex("62006200726302017101")
        if crc(m) & 0xFF == 0:
            return m + bytes([0x62, crc(m) >> 8]) + b"\0"


def trailer(r, bent, m):
    c = crc(m)
    if r.random() >= bent:
        return element(UINT, c.to_bytes(2, "little"), more(r)) + b"\0"
    right = c.to_bytes(2, "little")
    field = r.choice([
        element(UINT, c.to_bytes(2, "big")), element(UINT, crc(m + b"\x63").to_bytes(2, "little")), element(UINT, r.randbytes(2)), element(UINT, r.randbytes(1)),
        element(UINT, right[:1]), element(UINT, right[1:]), element(UINT, b"\0" + right), element(UINT, right + b"\0"), element(INT, right), element(OCT, right), bend(r, element(UINT, right)), b"",
        element(UINT, right), element(UINT, right),
    ])
    return field + r.choice([b"\0", b"\0", b"\0", b"", b"\x01", b"\x1b", r.randbytes(1)])


def message(r, bent):
    if r.random() < 0.02:
        return one_byte_crc(r)
    m = body(r, bent)
    return m + trailer(r, bent * 2, m)


def mutated(r, data):
    data = bytearray(data)
    for _ in range(r.choice([1, 1, 1, 2, 4])):
        at = r.randrange(len(data)) if data else 0
        what = r.randrange(5)
        if what == 0 and data:
            data[at] ^= 1 << r.randrange(8)
        elif what == 1 and data:
            data[at] = r.choice([0, 1, 2, 0x62, 0x72, 0x80, 0x83, r.randrange(256)])
        elif what == 2 and data:
            del data[at]
        elif what == 3:
            data.insert(at, r.choice([0, 1, 0x62, 0x72, 0x80, r.randrange(256)]))
        else:
            del data[at:]
    return bytes(data)


def file(r):
    """The bytes of an `events` command."""
    what = r.random()
    if what < 0.12:
        return mutated(r, r.choice(list(payloads())))
    bent = r.choice([0, 0, 0.02, 0.05, 0.1, 0.3])
    data = b"".join(message(r, bent) for _ in range(r.choice([1, 1, 1, 2, 2, 3, 5])))
    if what < 0.2:
        return data + r.choice([b"\0", b"\0\0\0", b"\x76", b"\x01", r.randbytes(3)])
    if what < 0.32:
        return data[: r.randrange(len(data) + 1)]
    if what < 0.42:
        return mutated(r, data)
    if what < 0.44:
        return r.randbytes(r.randrange(12))
    return data


def leaf(r, kind):
    bent = r.choice([0, 0, 0.2, 0.5])
    plain = {"time": time, "value": value, "status": status}
    name = kind.replace("opt_", "")
    field = plain[name](r, bent) if name in plain else maybe(r, bent, number(r, UINT if name == "u8" else INT))
    if name != kind:
        field = optional(r, field)
    field = r.choice([field] * 8 + [field[: r.randrange(len(field) + 1)], mutated(r, field), any_element(r)])
    return field + r.randbytes(r.choice([0, 0, 1, 5]))


def command(r):
    while True:
        if r.random() < 0.25:
            kind = r.choice(KINDS)
            name, data = "leaf " + kind, leaf(r, kind)
        else:
            name, data = "events", file(r)
        if len(data) < 34000 and not BEYOND.search(data):
            return "%s %s" % (name, hexed(data))

"""generate.py SEED COUNT [messages]: random commands inside the domain of document 01, less what document 02's Q-2 takes from it, one a line; the same for the same seed.

Valid frames, damaged ones, payloads with many 1b, noise, capacities about the limit, finalize and reset in between, fields that are bent; now and then a line
that is no command. With `messages`: events of messages, valid, bent field by field, cut, damaged, and the fields of crate value (messages.py).
"""
import random, sys
import messages
from places import over_32_bits
from sml import ESCAPE, KINDS, START, capacities, closed, escaped, frame, hexed

CAPS = capacities()
SPECIAL = [0x1B, 0x1A, 0x01, 0x00]
# the bits of a length byte's type
TYPES = {"u": 6, "i": 5, "b": 4, "o": 0}


def near(r, n):
    """A capacity that the oracle has, about n."""
    n += r.choice([-5, -1, -1, 0, 0, 0, 1, 1, 4, 40])
    return min(CAPS, key=lambda c: (abs(c - n), c))


def payload(r):
    n = r.choice([r.randrange(9), r.randrange(9), r.randrange(40), r.randrange(40), r.randrange(300)] + [r.randrange(3000)] * (r.random() < 0.02))
    style = r.randrange(5)
    if style == 0:
        return r.randbytes(n)
    if style == 1:
        return bytes(r.choice(SPECIAL) for _ in range(n))
    if style == 2:
        return bytes(0x1B if r.random() < 0.8 else r.randrange(256) for _ in range(n))
    if style == 3:
        runs = b"".join(b"\x1b" * r.randrange(13) + r.randbytes(r.randrange(4)) for _ in range(r.randrange(1, 5)))
        return runs[:n]
    return bytes(n)


def damaged(r, f):
    f = bytearray(f)
    for _ in range(r.choice([1, 1, 1, 2, 5])):
        at = r.randrange(len(f)) if f else 0
        what = r.randrange(6)
        if what == 0 and f:
            f[at] ^= 1 << r.randrange(8)
        elif what == 1 and f:
            f[at] = r.choice(SPECIAL)
        elif what == 2 and f:
            del f[at]
        elif what == 3:
            f.insert(at, r.choice(SPECIAL + [r.randrange(256)]))
        elif what == 4:
            del f[at:]
        else:
            f[at:at] = r.choice([ESCAPE, START, b"\x1b" * r.randrange(1, 9)])
    return bytes(f)


def piece(r):
    """Bytes of a decoder's input, and how many it stores of them."""
    style = r.randrange(12)
    p = payload(r)
    stored = len(p) + -len(p) % 4 + 4
    if style < 4:
        return frame(p, r.choice([b"\0\0\0", r.randbytes(3), b"\x1b\x1b\x1b"])), stored
    if style < 7:
        return damaged(r, frame(p)), stored
    if style == 7:
        # any pad count, any alignment, the right CRC
        body = START + escaped(p) + bytes(r.randrange(4))
        return closed(body, r.choice([0, 1, 2, 3, 3, 4, 5, 0x1B, 0xFF])), stored
    if style == 8:
        # an escape and what may stand behind it
        tail = r.choice([b"\x01\x01\x01\x01", b"\x02\0\0\0", b"\x1b\x1b\x1b\x1a", b"\x1b\x1b\x1a\0", b"\x1b\x1a\x01\x02", bytes(r.choice(SPECIAL) for _ in range(4))])
        return START + escaped(p) + ESCAPE + tail + bytes(r.choice(SPECIAL) for _ in range(r.randrange(6))), stored
    if style == 9:
        return bytes(r.choice([0x1B, 0x1B, 0x01, 0x00]) for _ in range(r.randrange(24))), stored
    if style == 10:
        return r.randbytes(r.randrange(30)), stored
    return frame(p)[: r.randrange(1, 30)], stored


def push(r):
    ops, most, noise = [], 0, 0
    for _ in range(r.choice([1, 1, 1, 2, 2, 3, 6])):
        what = r.random()
        if what < 0.8:
            data, stored = piece(r)
            most = max(most, stored)
            if len(data) > 4 and r.random() < 0.15:
                cut = r.randrange(len(data))
                ops += ["b" + hexed(data[:cut]), r.choice("fr"), "b" + hexed(data[cut:])]
            else:
                ops.append("b" + hexed(data))
        elif what < 0.9:
            ops.append(r.choice("fr"))
        else:
            n = r.choice([r.randrange(12), r.randrange(12), r.randrange(400)] + [r.randrange(30000)] * (noise == 0 and r.random() < 0.05))
            noise += n
            ops.append("z%d:%02x" % (n, r.choice(SPECIAL + [r.randrange(256)])))
    ops += [[], ["f"], ["r"], ["f", "r"]][r.randrange(4)]
    cap = near(r, most) if r.random() < 0.6 else r.choice(CAPS[:65] if r.random() < 0.5 else CAPS)
    return "push %d %s" % (cap, ",".join(ops or ["f"]))


def length_field(r, ty, content):
    """Length bytes for `content` bytes of a type: the shortest, or longer ones, or bent."""
    own = 1
    while (content + own if ty != 7 else content) >= 16 ** own:
        own += 1
    own += r.choice([0, 0, 0, 0, 1, 1, 2, 7, 9])
    total = (content + (own if ty != 7 else 0)) & 0xFFFFFFFF
    digits = [total >> 4 * k & 15 for k in reversed(range(own))]
    if own > 8 and r.random() < 0.3:
        digits[0] = r.randrange(16)
    out = [0x80 | d for d in digits]
    out[0] |= ty << 4
    out[-1] &= 0x7F
    if r.random() < 0.1:
        out[r.randrange(own)] ^= 1 << r.randrange(8)
    return bytes(out)


def leaf(r):
    kind = r.choice(KINDS)
    key = kind.replace("opt_", "")
    ty = TYPES[key[0]] if r.random() < 0.85 else r.randrange(8)
    width = int(key[1:]) // 8 if key[0] in "ui" else 1 if key == "bool" else r.choice([0, 1, 3, 14, 15, 16, 48, 300])
    n = width if r.random() < 0.4 else r.randrange(width + 3)
    content = r.choice([r.randbytes(n), bytes(n), b"\xff" * n, b"\x80" + bytes(n), b"\x7f" + b"\xff" * n])[:n]
    data = length_field(r, ty, n) + content
    bend = r.random()
    if bend < 0.15:
        data = data[: r.randrange(len(data) + 1)]
    elif bend < 0.2:
        data = r.randbytes(r.randrange(5))
    elif bend < 0.3:
        data = r.choice([b"\x01", b"\x00", b"\x80\x01", b"\x80\x02", b"\x61"])
    return "leaf %s %s" % (kind, hexed(data + r.randbytes(r.choice([0, 0, 1, 5]))))


def no_command(r, command):
    line = command(r)
    at = r.randrange(len(line))
    bent = line[:at] + r.choice(["", " ", "g", "A", ",", "-", ":", "\r", "\t", "+"]) + line[at + r.randrange(2):]
    # a number that is bent may name a capacity that the oracle doesn't have
    return bent if bent.split(" ")[0] not in ("push", "encode_cap") or bent.split(" ")[1:2] == line.split(" ")[1:2] else "push " + bent


def command(r):
    what = r.random()
    if what < 0.5:
        return push(r)
    if what < 0.8:
        return leaf(r)
    p = payload(r)
    if what < 0.87:
        return "encode " + hexed(p)
    if what < 0.93:
        return "encode_cap %d %s" % (near(r, len(frame(p))), hexed(p))
    return ("stream " if what < 0.98 else "crc ") + hexed(p)


# what the third word says, and none
STYLES = {"transport": command, "messages": messages.command}


def drawn(seed, count, style="transport"):
    """Commands up to so many inside the domain, each with whether it is left out, because a length over 32 bits is read on it: those don't count."""
    r, one = random.Random(seed), STYLES[style]
    while count:
        line = no_command(r, one) if r.random() < 0.02 else one(r)
        line = line if len(line) <= 69000 else "crc -"
        left_out = over_32_bits(line)
        count -= not left_out
        yield line, left_out


def commands(seed, count, style="transport"):
    return (line for line, left_out in drawn(seed, count, style) if not left_out)


if __name__ == "__main__":
    out = 0
    for line, left_out in drawn(int(sys.argv[1]), int(sys.argv[2]), *sys.argv[3:]):
        out += left_out
        if not left_out:
            print(line)
    print(f"generate: {out} more were left out, on which a length over 32 bits is read", file=sys.stderr)

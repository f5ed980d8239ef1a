"""The places of refusals (document 02, Q-5): random messages, right and broken, through `places` of bin/replay. Each answer is the one of tests/places_reading.py, and Q-5 holds of the program's own answers (that reading says no more there than where the message begins): cut at the place, the input is whole so far, or ends too early;
an element begins there; with the bytes that were judged the refusal is given, with fewer it is 10, and what follows them changes nothing. Then docs/PLACES.md: its examples are answered so, and its commands print what it shows.

`python3 tests/test_places.py N` runs N inputs, with --all 200,000; the gate's are the first of these.
"""
import collections, os, random, re, subprocess, sys

sys.dont_write_bytecode = True
os.chdir(os.path.join(os.path.dirname(os.path.abspath(__file__)), ".."))
from places_reading import BOOLEAN, INTEGER, LIST, NAMES, STRING, UNSIGNED, Reading, crc

SEED, GATE, ALL, BATCH = 20250711, 2500, 200000, 20000
KINDS = ["TlfInvalidTy", "TlfReserved", "TlfNextByteTypeMismatch", "TlfLengthOverflow", "TlfLengthUnderflow"]  # in the order in which they are judged
faults = []


def places(inputs):
    """The answers of one run of bin/replay."""
    run = subprocess.run(["bin/replay"], input="".join("places %s\n" % (s.hex() or "-") for s in inputs).encode(), capture_output=True)
    said = run.stdout.decode().splitlines()
    if run.returncode != 0 or run.stderr or len(said) != len(inputs):
        sys.exit(f"test_places: bin/replay, status {run.returncode}, {len(inputs)} lines in, {len(said)} out: {run.stderr.decode(errors='replace')[-300:]}")
    return said


# ---- messages, right ones


def length_bytes(kind, n, k):
    """A length in k digits, its own bytes counted already."""
    digits = [n >> 4 * d & 15 | 0x80 * (d > 0) for d in reversed(range(k))]
    return bytes([digits[0] | kind << 4] + digits[1:])


class Draft:
    """Messages as they are written: the bytes; where length fields, tags, those of times and list values, and end bytes stand; of each CRC where its message begins, its length field and its two bytes."""

    def __init__(self, r):
        self.r, self.out, self.heads, self.tags, self.times, self.ends, self.crcs = r, bytearray(), [], [], [], [], []
        for _ in range(r.choice((1, 1, 1, 2, 2, 3))):
            self.message()

    def head(self, kind, n, least=1):
        """A length field, mostly the shortest that counts itself."""
        own, k = kind != LIST, least
        while n + k * own >= 16**k:
            k += 1
        if kind != BOOLEAN and self.r.random() < 0.05:
            k += self.r.choice((1, 1, 1, 2, 3, 7, 9))
        self.heads.append(len(self.out))
        self.out += length_bytes(kind, n + k * own, k)

    def number(self, kind, width, value=None):
        n = self.r.randint(1 if value is None else max(1, (value.bit_length() + 7) // 8), width)
        self.head(kind, n)
        self.out += self.r.randbytes(n) if value is None else value.to_bytes(n, "big")

    def u8(self):
        self.number(UNSIGNED, 1)

    def i8(self):
        self.number(INTEGER, 1)

    def status(self):
        self.number(UNSIGNED, 8)

    def tag(self, width, value):
        (self.times if width == 1 else self.tags).append(len(self.out))
        self.number(UNSIGNED, width, value)

    def string(self, least=1):
        n = self.r.choice((0, 1, 2, 3, 4, 6, 6, 6, 10, 14, 15, 48))
        self.head(STRING, n, least if n == 0 else 1)
        self.out += self.r.randbytes(n)

    def some_string(self):
        self.string(2)  # a present empty string is not 01

    def optional(self, *fields):
        for field in fields:
            if self.r.random() < 0.5:
                self.heads.append(len(self.out))
                self.out += b"\x01"
            else:
                field()

    def time(self):
        if self.r.random() < 0.5:
            self.head(UNSIGNED, 4)
            self.out += self.r.randbytes(4)
        else:
            self.head(LIST, 2)
            self.tag(1, 1)
            self.number(UNSIGNED, 4)

    def value(self):
        kind = self.r.choice((STRING, BOOLEAN, INTEGER, INTEGER, UNSIGNED, UNSIGNED, LIST, LIST))
        if kind == STRING:
            self.string()
        elif kind == LIST:
            self.head(LIST, 2)
            self.tag(1, 1)
            self.time()
        elif kind == BOOLEAN:
            self.head(BOOLEAN, 1)
            self.out.append(self.r.choice((0, 0, 1, 255)))
        else:
            self.number(kind, 8)

    def message(self):
        start, tag = len(self.out), self.r.choice((0x101, 0x201, 0x701, 0x701))
        self.head(LIST, 6)
        self.string()
        self.u8()
        self.u8()
        self.head(LIST, 2)
        self.tag(4, tag)
        self.head(LIST, {0x101: 6, 0x201: 1, 0x701: 7}[tag])
        if tag == 0x101:
            self.optional(self.some_string, self.some_string)
            self.string()
            self.string()
            self.optional(self.time, self.u8)
        elif tag == 0x201:
            self.optional(self.some_string)
        else:
            self.entries()
        at = len(self.out)
        self.head(UNSIGNED, 2)
        self.crcs.append((start, at, len(self.out)))
        self.ends.append(len(self.out) + 2)
        self.out += crc(self.out[start:at]).to_bytes(2, "little") + b"\0"

    def entries(self):
        self.optional(self.some_string)
        self.string()
        self.optional(self.some_string, self.time)
        n = self.r.choice((0, 1, 1, 1, 2, 2, 3, 17))
        self.head(LIST, n)
        for _ in range(n):
            self.head(LIST, 7)
            self.string()
            self.optional(self.status, self.time, self.u8, self.i8)
            self.value()
            self.optional(self.some_string)
        self.optional(self.some_string, self.time)


# ---- messages, broken ones


def other_length(r, b):
    """Another byte for one of a length field."""
    return r.choice((r.randrange(256), b & 0x8F | r.randrange(8) << 4, b & 0xF0 | (b + r.choice((-1, 1))) & 15, b ^ 0x80, r.choice(b"\x00\x01\x10\x41\x42\x80\x90\xc0\xc2\xf0\xff")))


def too_long(r, s, at):
    """Another length for the element at this place: over 32 bits, or the last that is not. Often the input ends before or behind the byte that makes it so, or that byte or the next has a type."""
    kind, old = s[at] >> 4 & 7, 1
    while s[at + old - 1] > 127:
        old += 1
    k, zeros = r.choice((9, 9, 9, 10, 12, 17)), r.choice((0, 0, 0, 1, 6))
    # by one, far over, or so that its low 32 bits are the length that stood there
    low = int(bytes(s[at : at + old]).hex()[1::2], 16) + (k + zeros - old) * (kind != LIST)
    n = r.choice((2**32 - 1, 2**32, r.randrange(2**32, 16**k), (r.randrange(1, 16 ** (k - 8)) << 32) + low))
    s[at : at + old] = length_bytes(kind, n, k + zeros)
    # the ninth digit makes it so, counted from the first that is not 0
    b = at + k + zeros - len("%x" % n) + 8
    way = r.choice(("none", "none", "none", "cut", "last", "more", "type", "later type"))
    if way == "cut":
        del s[b:]
    elif way in ("last", "more"):
        s[b:] = bytes([s[b] & 0x7F | 0x80 * (way == "more")])
    elif way == "type":
        s[b] |= r.randrange(1, 8) << 4
    elif way == "later type":
        s[b] |= 0x80
        s[b + 1] |= r.randrange(1, 8) << 4


def broken(r):
    """Bytes that began as messages."""
    d = Draft(r)
    ways = "none", "cut", "cut", "byte", "bit", "insert", "remove", "length", "length", "length", "more lengths", "later length", "too long", "too long", "too long", "tag", "crc", "crc length", "end", "sealed", "followed", "swapped"
    s, way = bytearray(d.out), r.choice(ways)
    k, at = r.randrange(len(s)), r.choice(d.heads)
    start, head, sum_ = r.choice(d.crcs)
    if way == "cut":
        del s[k:]
    elif way == "byte":
        s[k] = r.randrange(256)
    elif way == "bit":
        s[k] ^= 1 << r.randrange(8)
    elif way == "insert":
        s.insert(k, r.choice((r.randrange(256), 0, 1, s[k])))
    elif way == "remove":
        del s[k]
    elif way == "length":
        s[at] = other_length(r, s[at])
    elif way == "more lengths":
        s[at:at] = bytes(r.choice((0x80, 0x81, s[at] | 0x80, s[at] & 0xF0 | 0x80, 0xF0)) for _ in range(r.choice((1, 1, 2, 9))))
    elif way == "later length":
        long = [a + 1 for a in d.heads if s[a] > 127] or [at]
        at = r.choice(long)
        while s[at] > 127 and r.random() < 0.7:
            at += 1
        s[at] = other_length(r, s[at])
    elif way == "too long":
        too_long(r, s, at)
    elif way == "tag":
        # its length byte, its content's last byte or the one behind it; a message's tag, or more often a time's or a list value's
        at = r.choice(d.tags if r.random() < 0.4 else d.times or d.tags)
        at += r.choice((0, (s[at] & 15) - 1, (s[at] & 15) - 1, s[at] & 15))
        s[at] = r.choice((r.randrange(256), s[at] ^ 1, 2, 3))
    elif way == "crc":
        s[sum_ + r.randrange(2)] ^= r.randrange(1, 256)
    elif way == "crc length":
        s[head] = other_length(r, s[head])
    elif way == "end":
        s[r.choice(d.ends)] = r.randrange(1, 256)
    elif way == "swapped":
        s[sum_ : sum_ + 2] = s[sum_ + 1 : sum_ - 1 : -1]
    elif way == "sealed":
        # another byte, and the CRC that belongs to it
        k = r.randrange(start, head)
        s[k] = r.choice((r.randrange(256), s[k] ^ 1 << r.randrange(8)))
        s[sum_ : sum_ + 2] = crc(s[start:head]).to_bytes(2, "little")
    elif way == "followed":
        del s[r.choice((k, at, len(s))) :]
        s += r.randbytes(r.randrange(1, 6))
    if r.random() < 0.1:
        k = r.randrange(len(s) + 1)
        s[k : k + 1] = r.choice((b"", r.randbytes(1), r.randbytes(2)))
    return bytes(s)


def short(r):
    """A few bytes, of all or of those that lengths are made of."""
    n = r.choice((0, 1, 1, 2, 2, 3, 4, 6, 9))
    return r.choice((r.randbytes(n), bytes(r.choice(b"\x76\x72\x71\x62\x65\x01\x00\x80\x81\x8f\xf0\xf7\xc1\x41") for _ in range(n)), b"\x76\x01" + r.randbytes(n)))


def inputs(count):
    r = random.Random(SEED)
    for _ in range(count):
        yield short(r) if r.random() < 0.1 else broken(r)


# ---- what Q-5 promises, of the program's own answers

ERR = re.compile(r"err (\w+?)(?: (Tlf\w+))? (\d+) @(\d+)")


class Said:
    """An answer: the events, the first refusal (None if there is none) with its number, kind and place, and the three answers behind it."""

    def __init__(self, line):
        words = line.split(" | ")
        k = next((k for k, w in enumerate(words) if w.startswith("err ")), None)
        self.events, self.refusal, self.later = (words[:-1], None, words[-1:]) if k is None else (words[:k], words[k], words[k + 1 :])
        if k is None:
            self.sound = self.later == ["none"]
            return
        name, self.kind, number, place = (ERR.fullmatch(words[k]) or ERR.fullmatch("err None 0 @0")).groups()
        self.number, self.place = int(number), int(place)
        self.sound = NAMES.get(self.number) == name and (self.number == 11) == (self.kind is not None) and len(self.later) == 3 and len(set(self.later)) == 1

    def then(self, refusal, length):
        """The line of these events, this refusal and what follows it, where the input has this length."""
        later = "none" if self.later[0] == "none" else "err UnexpectedEOF 10 @%d" % length
        return " | ".join(self.events + [refusal] + [later] * 3)


def judged(s, said):
    """The place behind the bytes that were judged, from what Q-5 says of each number."""
    at = behind = said.place
    n, more = 0, True
    while said.number != 15 and more:
        more, n, behind = s[behind] > 127, 16 * n + s[behind] % 16, behind + 1
        if said.kind in ("TlfInvalidTy", "TlfReserved") or said.kind == "TlfNextByteTypeMismatch" and behind > at + 1 and s[behind - 1] & 0x70 or said.kind == "TlfLengthOverflow" and n > 4294967295:
            return behind
    # a number's length counts its length bytes; behind a CRC stands the end byte
    behind = {13: at + n, 14: at + n + 1, 15: at + 1}.get(said.number, behind)
    if not at < behind <= len(s) or said.kind not in (None, "TlfLengthUnderflow"):
        raise IndexError
    return behind


def laws(r, s, said, start):
    """The inputs made from one that is refused, each with the law and the answer that it wants: the line, or for a cut of an input that ends too early the place."""
    p, eof = said.place, "err UnexpectedEOF 10 @%d"
    if not start <= p <= len(s) or (said.number == 10) != (p == len(s)):
        raise IndexError
    if said.number == 10:
        for m in {start, start + 1, p - 1, r.randint(start, p)}:
            if start < m <= p:
                yield "cut", s[:m], m
        yield "cut", s[:start], None
        return
    q = judged(s, said)

    def cut(m):
        return " | ".join(said.events + ["none"]) if m == start else said.then(eof % m, m)

    yield "before", s[:p], cut(p)
    if said.number != 15:
        for b, kind in (b"\x10", "TlfInvalidTy"), (b"\xc0", "TlfReserved"):
            yield "element", s[:p] + b, said.then("err InvalidTlf %s 11 @%d" % (kind, p), p + 1)
    for m in range(p + 1, q):
        yield "there, not before", s[:m], cut(m)
    yield "there", s[:q], said.then(said.refusal, q)
    for tail in r.randbytes(r.randrange(1, 5)), r.choice((b"\0", b"\x01", b"\x80", b"\xff")):
        yield "behind", s[:q] + tail, said.then(said.refusal, q + len(tail))


def meets(answer, wanted, whole):
    """Whether an answer is the wanted line; of a cut: some of the whole input's events, and 10 at the cut, or none where its message begins."""
    if isinstance(wanted, str):
        return answer == wanted
    said = Said(answer)
    if said.events != whole.events[: len(said.events)] or not said.sound:
        return False
    if wanted is None:
        return said.refusal is None
    return said.refusal == "err UnexpectedEOF 10 @%d" % wanted and said.later[0] in ("none", said.refusal)


count, cuts, numbers, kinds, sides = 0, 0, collections.Counter(), collections.Counter(), set()


def compared(s, answer):
    """Whether the second reading says so too."""
    reading = Reading(s)
    if answer != reading.line():
        faults.append((len(s), f"places {s.hex() or '-'}\n  the reading says {reading.line()}\n  answered         {answer}"))
    return reading


def held(batch):
    """One batch and the one that is made from its answers."""
    global count, cuts
    r, made = random.Random(SEED + count), []
    for s, answer in zip(batch, places(batch)):
        count += 1
        reading, said = compared(s, answer), Said(answer)
        if not said.sound or said.refusal and said.later[0] not in ("none", "err UnexpectedEOF 10 @%d" % len(s)):
            faults.append((len(s), f"places {s.hex() or '-'}\n  answered {answer}, which is no such answer"))
        elif said.refusal:
            numbers[said.number] += 1
            kinds[said.kind] += 1
            sides.update((what, said.later[0] == "none") for what in (said.number, said.kind))
            try:
                made += [(law, cut, wanted, s, said) for law, cut, wanted in laws(r, s, said, reading.start)]
            except IndexError:
                faults.append((len(s), f"places {s.hex()}\n  answered {answer}, and the bytes to judge are not there"))
    cuts += len(made)
    for (law, cut, wanted, s, said), answer in zip(made, places([m[1] for m in made])):
        if not meets(answer, wanted, said):
            told = wanted if isinstance(wanted, str) else f"some of its events, and {'no refusal' if wanted is None else 'err UnexpectedEOF 10 @%d' % wanted}"
            faults.append((len(s), f"{law}: places {cut.hex() or '-'}, since {s.hex()} gives {said.refusal}\n  wanted   {told}\n  answered {answer}"))
        compared(cut, answer)


words = sys.argv[1:]
wanted = GATE if not words else ALL if words == ["--all"] else int(words[0])
batch = []
for s in inputs(wanted):
    batch.append(s)
    if len(batch) == BATCH:
        held(batch)
        batch = []
if batch:
    held(batch)
LAST = 10**9  # told behind faults that have an input
if count >= GATE:
    # each number and each kind of 11 at a message's start and inside one, but for 14 and 15, the trailer's, which stands behind an event
    faults += [(LAST, f"no {w} {side} in this run") for w in [*NAMES, *KINDS] for side in ("at a start", "inside a message") if (w, side == "at a start") not in sides and (w not in (14, 15) or side != "at a start")]
faults += [(LAST, f"{k} is given") for k in kinds if k not in KINDS + [None]]

# ---- the page

page = open("docs/PLACES.md", encoding="utf-8").read()
examples = re.findall(r"^    > places (\w+)\n    (.*)$", page, re.M)
shown = re.findall(r"^\| `(Tlf\w+)` \| .* \| `(\w+)` \|$", page, re.M)
examples += [(h, f"err InvalidTlf {kind} 11 @0 | none | none | none") for kind, h in shown]
if len(re.findall(r"^ *> ", page, re.M)) + len(KINDS) != len(examples) or [k for k, _ in shown] != KINDS:
    faults.append((LAST, "docs/PLACES.md: an example or a kind of 11 is not in its form"))
for (h, answer), said in zip(examples, places([bytes.fromhex(h) for h, _ in examples])):
    if said != answer:
        faults.append((LAST, f"docs/PLACES.md: places {h}\n  shown    {answer}\n  answered {said}"))

# its commands are typed into one shell; behind each stands a line that tells it from the next, with its status
commands = [(c, [line[len(indent) :] for line in said.splitlines()]) for indent, c, said in re.findall(r"^( {4,8})\$ (.*)\n((?:\1[^$\n].*\n)*)", page, re.M)]
typed = "".join(f"{c}\necho '-- {k}' $?\n" for k, (c, _) in enumerate(commands))
run = subprocess.run(["sh"], input=typed.encode(), capture_output=True)
said = re.split(r"^-- (\d+) (\d+)\n", run.stdout.decode(), flags=re.M)
if run.stderr or len(said) != 3 * len(commands) + 1 or len(commands) != len(re.findall(r"^ *\$ ", page, re.M)):
    faults.append((LAST, f"docs/PLACES.md: {len(commands)} commands, {len(said) // 3} run; {run.stderr.decode(errors='replace')[-300:]}"))
for (command, wanted), lines, status in zip(commands, said[::3], said[2::3]):
    if (lines.splitlines(), status) != (wanted, "0"):
        faults.append((LAST, f"docs/PLACES.md: {command}\n  shown   {wanted}\n  printed {lines.splitlines()}, status {status}"))

told = ", ".join(f"{n}: {numbers[n]:,}" for n in sorted(numbers)), ", ".join(f"{k[3:]} {kinds[k]:,}" for k in KINDS)
for _, fault in sorted(faults)[:5]:
    print(fault)
if faults:
    sys.exit(f"{len(faults)} faults")
print(f"places: {count:,} inputs, {sum(numbers.values()):,} refusals ({told[0]}; of 11 {told[1]}), {cuts:,} cuts: as the second reading and the laws say; {len(examples)} examples and {len(commands)} commands of docs/PLACES.md")

"""Lengths over 32 bits are faults (document 02, Q-2): random length fields, right and broken, through `tlf` of bin/replay. Each answer is the one of tests/places_reading.py, and Q-2 holds of the program's own answers, without that reading.
Where the answer is TlfLengthOverflow, the digits pass 4,294,967,295 at some byte; all before the first such byte say more, and up to it only the first has a type. Cut behind that byte the answer stays, whatever follows; cut before it, it is 10;
a type in that byte comes first; without that byte, and with the largest digits that fit, it is a length. Where the answer is another, there is no such byte, and it is what document 01 alone gives, which keeps the low 32 bits: nothing else moves.

`python3 tests/test_lengths.py N` runs N length fields, with --all 300,000; the gate's are the first of these.
"""
import collections, os, random, subprocess, sys

sys.dont_write_bytecode = True
os.chdir(os.path.join(os.path.dirname(os.path.abspath(__file__)), ".."))
from places_reading import BOOLEAN, INTEGER, LIST, STRING, UNSIGNED, length_field

SEED, GATE, ALL, BATCH = 20250718, 6000, 300000, 20000
LARGEST = 4294967295
INVALID, RESERVED, TYPED, OVER, UNDER = ("err InvalidTlf %s 11 @0" % k for k in ("TlfInvalidTy", "TlfReserved", "TlfNextByteTypeMismatch", "TlfLengthOverflow", "TlfLengthUnderflow"))
ENDS, IS = "err UnexpectedEOF 10 @%d", "%d %d next %d"
# stored beside their answers; those of the request are written out in oracle/message_vectors.py
COMMANDS, ANSWERS = (open("crates/replay_parts/" + f, encoding="utf-8", newline="\n").read().split("\n") for f in ("stdin", "stdout"))
VECTORS = {c[4:].replace("-", ""): a for c, a in zip(COMMANDS, ANSWERS) if c.startswith("tlf ")}
faults = []


def tlf(fields):
    """The answers of one run of bin/replay."""
    run = subprocess.run(["bin/replay"], input="".join("tlf %s\n" % (s.hex() or "-") for s in fields).encode(), capture_output=True)
    said = run.stdout.decode().splitlines()
    if run.returncode != 0 or run.stderr or len(said) != len(fields):
        sys.exit(f"test_lengths: bin/replay, status {run.returncode}, {len(fields)} lines in, {len(said)} out: {run.stderr.decode(errors='replace')[-300:]}")
    return said


# ---- length fields


def written(kind, digits):
    """The length bytes of these digits: all but the last say more."""
    s = bytearray(d | 0x80 for d in digits)
    s[0] |= kind << 4
    s[-1] &= 0x7F
    return bytes(s)


def passes(s):
    """The index of the first byte whose digit makes the length pass what fits, whatever else the bytes say; None if there is none."""
    n = 0
    for k, b in enumerate(s):
        n = 16 * n + b % 16
        if n > LARGEST:
            return k
    return None


def digits(r):
    """Of a length near a bound, or far from all, some with zeros in front."""
    own = r.choice((1, 2, r.randint(1, 20), r.randint(1, 20), r.randint(1, 20), r.randint(250, 260)))  # some of more length bytes than a byte counts
    few = max(0, own + r.randint(-3, 3))
    n, least = r.choice((
        (LARGEST + r.randint(-20, 20), 1),
        (LARGEST + r.randint(-20, 20), 1),
        (2**28 + r.randint(-20, 20), 1),
        (16 * (2**28 + r.randint(-2, 1)) + r.randrange(16), 1),
        (r.randrange(16 ** r.randint(9, 17)), 1),
        (r.randrange(16 ** r.randint(1, 17)), 1),
        (int("".join(r.choice("0f1") for _ in range(r.randint(1, 17))), 16), 1),
        (few, own),
        (few, own),
        (few + (r.randrange(1, 16 ** r.randint(1, 9)) << 32), own),  # its low 32 bits are near underflow
    ))
    out = [int(h, 16) for h in "%x" % n]
    return [0] * max(least - len(out), r.choice((0, 0, 0, r.randint(0, 20 - len(out))))) + out


def drawn(r):
    """A length field, whole or broken, and what follows it."""
    kind = r.choice([STRING, INTEGER, UNSIGNED, LIST] * 4 + [BOOLEAN, r.randrange(8)])
    s = bytearray(written(kind, digits(r) if kind != BOOLEAN or r.random() < 0.5 else [r.randrange(16)]))
    # broken anywhere, or about the byte that makes it over
    k = passes(s)
    k = r.randrange(len(s)) if k is None or r.random() < 0.3 else min(len(s) - 1, k + r.randint(-1, 1))
    way = r.choice(("none", "none", "none", "none", "cut", "type", "more", "byte", "bytes"))
    if way == "cut":
        return bytes(s[:k])
    if way == "type":
        s[k] ^= r.randrange(1, 8) << 4
    elif way == "more":
        s[k] ^= 0x80
    elif way == "byte":
        s[k] = r.randrange(256)
    elif way == "bytes":
        s = bytearray(b & r.choice((0x8F, 0x8F, 0x8F, 0xFF)) | r.choice((0, 0x80, 0x80)) for b in r.randbytes(r.randint(0, 20)))
    return bytes(s) + r.choice((b"", b"", b"\0", b"\x80", r.randbytes(r.randint(1, 4))))


# ---- what Q-2 promises, of the program's own answers


def old_rule(s):
    """What document 01 alone gives: of a length the low 32 bits are kept."""
    if not s:
        return ENDS % 0
    kind, own = s[0] >> 4 & 7, 1
    if kind in (1, 2, 3):
        return INVALID
    if kind == BOOLEAN and s[0] & 0x80:
        return RESERVED
    while s[own - 1] & 0x80:
        if own == len(s):
            return ENDS % own
        if s[own] & 0x70:
            return TYPED
        own += 1
    n = int("".join("%x" % (b & 15) for b in s[:own]), 16) % 2**32 - (0 if kind == LIST else own)
    return UNDER if n < 0 else IS % (kind, n, own)


def built(s):
    """The bytes that a length is built of: up to the first that says no more, or before a later one that has a type."""
    for k, b in enumerate(s):
        if k and b & 0x70:
            return s[:k]
        if b < 128:
            return s[: k + 1]
    return s


def unmoved(s, answer):
    """What is wrong with an answer that is not overflow; None if nothing is."""
    if answer != old_rule(s):
        return f"document 01 alone says {old_rule(s)}"
    if answer not in (INVALID, RESERVED) and passes(built(s)) is not None:
        return f"the byte at {passes(s)} makes it over"
    return None


def laws(r, s):
    """The length fields made from one that is over, each with the law and the answer that it wants."""
    k = passes(s)
    if k is None or s[0] >> 4 & 7 not in (STRING, INTEGER, UNSIGNED, LIST) or any(b < 128 for b in s[:k]) or any(b & 0x70 for b in s[1 : k + 1]):
        raise ValueError
    front, b, kind = s[:k], s[k], s[0] >> 4 & 7
    own = kind != LIST
    yield "there", s[: k + 1], OVER
    for tail in r.randbytes(r.randrange(1, 5)), r.choice((b"\0", b"\x01", b"\x10", b"\x80", b"\x90", b"\xff")):
        yield "behind", s[: k + 1] + tail, OVER
    yield "more or no more", front + bytes([b ^ 0x80]) + r.choice((b"", s[k + 1 :])), OVER
    # its own digit never decides: the digits before it are 2^28 at least
    for d in 0, 15:
        yield "any digit", front + bytes([b & 0xF0 | d]) + s[k + 1 :], OVER
    for m in range(k + 1) if k < 20 else (1, k - 8, k - 1, k):
        yield "not before", s[:m], ENDS % m
    for t in r.sample(range(1, 8), 2):
        yield "its type first", front + bytes([b | t << 4]) + r.choice((b"", s[k + 1 :])), TYPED
    n = int(front.hex()[1::2], 16)  # each byte's second digit
    yield "without that byte", front[:-1] + bytes([front[-1] & 0x7F]) + s[k:], IS % (kind, n - own * k, k)
    yield "what fits", written(kind, [0] * (k - 7) + [15] * 8) + s[k + 1 :], IS % (kind, LARGEST - own * (k + 1), k + 1)
    yield "one more", written(kind, [0] * (k - 8) + [1] + [0] * 8) + s[k + 1 :], OVER
    z = r.choice((1, 7, 300))
    yield "zeros in front", written(kind, [0] * z + [15] * 8), IS % (kind, LARGEST - own * (z + 8), z + 8)
    yield "zeros in front", bytes([kind << 4 | 0x80]) + b"\x80" * (z - 1) + bytes([s[0] & 0x8F]) + s[1:], OVER


count, cuts, kinds = 0, 0, collections.Counter()


def compared(s, answer):
    """Whether the second reading says so too, and an answer that is not overflow has not moved."""
    if answer != length_field(s):
        faults.append((len(s), f"reading: tlf {s.hex() or '-'}\n  the reading says {length_field(s)}\n  answered         {answer}"))
    if answer != OVER and (wrong := unmoved(s, answer)):
        faults.append((len(s), f"unmoved: tlf {s.hex() or '-'}\n  answered {answer}, and {wrong}"))


def held(batch):
    """One batch and the one that is made from its answers."""
    global count, cuts
    r, made = random.Random(SEED + count), []
    for s, answer in zip(batch, tlf(batch)):
        count += 1
        # a refusal as it is told, without 10's place; a length by its type
        kinds[answer.split(" @")[0] if answer.startswith("err") else answer.split(" ")[0]] += 1
        compared(s, answer)
        if answer == OVER:
            try:
                made += [(law, field, wanted, s) for law, field, wanted in laws(r, s)]
            except ValueError:
                faults.append((len(s), f"over: tlf {s.hex() or '-'}\n  answered {answer}, and no byte makes it so, or what stands before that byte ends it"))
    cuts += len(made)
    for (law, field, wanted, s), answer in zip(made, tlf([m[1] for m in made])):
        if answer != wanted:
            faults.append((len(s), f"{law}: tlf {field.hex() or '-'}, since {s.hex()} is over\n  wanted   {wanted}\n  answered {answer}"))
        compared(field, answer)


def fields(count):
    r = random.Random(SEED)
    for _ in range(count):
        yield drawn(r)


for (h, wanted), answer in zip(VECTORS.items(), tlf([bytes.fromhex(h) for h in VECTORS])):
    for who, said in ("answered", answer), ("the reading says", length_field(bytes.fromhex(h))):
        if said != wanted:
            faults.append((0, f"vector: tlf {h}\n  wanted   {wanted}\n  {who} {said}"))

words = sys.argv[1:]
wanted = GATE if not words else ALL if words == ["--all"] else int(words[0])
batch = []
for s in fields(wanted):
    batch.append(s)
    if len(batch) == BATCH:
        held(batch)
        batch = []
if batch:
    held(batch)
types = [str(t) for t in (STRING, BOOLEAN, INTEGER, UNSIGNED, LIST)]
refusals = [f.split(" @")[0] for f in (INVALID, RESERVED, TYPED, OVER, UNDER, ENDS)]
if count >= GATE:
    faults += [(10**9, f"no {k} among the vectors") for k in (OVER, ENDS % 8, IS % (LIST, LARGEST, 8)) if k not in VECTORS.values()]
    faults += [(10**9, f"no {f} in this run") for f in refusals if not kinds[f]] + [(10**9, f"no length of type {t} in this run") for t in types if not kinds[t]]

for _, fault in sorted(faults)[:5]:
    print(fault)
if faults:
    sys.exit(f"{len(faults)} faults")
invalid, reserved, typed, over, under, ends = (kinds[f] for f in refusals)
told = f"{over:,} over 32 bits, {under:,} underflow, {invalid + reserved + typed:,} other 11, {ends:,} of 10, {sum(kinds[t] for t in types):,} lengths"
print(f"lengths: {len(VECTORS):,} vectors, {count:,} length fields ({told}), {cuts:,} made from them: as the second reading and Q-2 say, and those not over as document 01 alone")

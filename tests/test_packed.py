"""Decoder state in 28 plain bytes (document 02, Q-11): the request's vectors, random histories of a decoder, byte strings and records, through `packed`, `unpack` and `pack` of bin/replay. Each answer is that of tests/packed_reading.py, a second reading written from the documents alone, whose two judgements of bytes agree.

A thousand decoders of the library stand in one array of bytes (`library thousand` of tests/library.c): operations on them, interleaved, must answer and leave in their 28 bytes what a thousand decoders of that reading answer and are.

Two sentences hold of the program's own answers, without that reading. Back: what `pack` gave unpacks to the record that was packed, its unused counts 0. Again: the record that `unpack` says packs to the bytes that it was read from, and what stands behind the 28 stays.

`python3 tests/test_packed.py N` runs N histories, N byte strings and N records; --all runs 100,000 of each. The gate's are the first of these.
"""
import collections, itertools, os, random, re, subprocess, sys, tempfile

sys.dont_write_bytecode = True
os.chdir(os.path.join(os.path.dirname(os.path.abspath(__file__)), ".."))
sys.path.append("scripts")
import clink
from packed_reading import DONE, JUDGED, LIMIT, MORE, NORMAL, SEARCH, SIZE, START, VECTORS, WAITING, Decoder, Record, answer, crc, disagreements, listed, ran, tidy, told, unpack, written

SEED, GATE, ALL, BATCH = 20250815, 800, 100000, 10000
DECODERS, MEMORY, OPERATIONS = 1000, 24, 60000  # in one array, each with so many bytes of memory
MORE_JUDGED = 10  # byte strings that the reading alone judges, for each that the program does
TOP, WIDE = 2**32 - 1, 2**33  # raw length and noise have 32 bits; fill, CRC index and capacity more, and nothing is left of WIDE in the low 32
ESC = b"\x1b" * 4
SAID = re.compile(r"kind=(\d+) n=(\d+) way=(\d+) crc=([0-9a-f]{4}) fill=(\d+) idx=(\d+) raw=(\d+) noise=(\d+) cap=(\d+)")
SYMBOLS = b"\x1b\x1b\x01\x00\x1a\x02" * 256 + bytes(range(256))
faults, kinds, states, turns, commands, judged = [], collections.Counter(), collections.Counter(), collections.Counter(), 0, 0


def held(what, command, said, wanted):
    if said != wanted:
        faults.append(f"{what}: {command}\n  wanted   {wanted}\n  answered {said}")


def asked(lines):
    """The answers of one run of bin/replay, held to the reading."""
    global commands
    run = subprocess.run(["bin/replay"], input="".join(line + "\n" for line in lines), capture_output=True, text=True)
    said = run.stdout.split("\n")[:-1]
    if run.returncode or len(said) != len(lines):
        sys.exit(f"test_packed: bin/replay, status {run.returncode}, {len(lines)} lines in, {len(said)} out: {run.stderr[-300:]}")
    commands += len(lines)
    for line, one in zip(lines, said):
        held("reading", line, one, answer(line))
        kinds[line.split(" ")[0], re.match(r"refused \d+|bad command|", one).group() or "done"] += 1
    return said


# ---- histories; operations are numbers for bytes, "f" and "r"


def symbols(r, n):
    return bytes(r.choices(SYMBOLS, k=n))


def inside(r, room):
    """A start and data, escaped as it must be, or not."""
    data = symbols(r, r.randint(0, room))
    return START + r.choice((data, data.replace(ESC, ESC + ESC), bytes(len(data))))


def ended(front, p):
    front += ESC + bytes([0x1A, p])
    return front + crc(front).to_bytes(2, "little")


def frame(r, room):
    """Some end with 1b and no pads, so that bytes of the end are judged early."""
    data = symbols(r, r.randint(0, room))
    if r.random() < 0.3:
        data = data[: len(data) // 4 * 4]
        k = r.randint(0, min(3, len(data)))
        data = data[: len(data) - k] + b"\x1b" * k
    p = -len(data) % 4
    return ended(START + data.replace(ESC, ESC + ESC) + bytes(p), p)


def noise(r):
    k = r.randint(1, 7)
    return r.choice((symbols(r, r.randint(1, 12)), b"\x1b" * r.randint(1, 9) + b"\1" * r.randint(0, 4), START[:k], START[:k] + symbols(r, 1), symbols(r, 1) + START[:k]))


def bent(r, whole):
    """A frame cut or damaged."""
    k = r.randrange(len(whole))
    return r.choice((whole[:k], whole[:k], whole[:k] + symbols(r, 1) + whole[k + 1 :], whole[:k] + b"\x1b" + whole[k:]))


def opened(r, room):
    """In a frame: 1b that wait, an escape with none to four of its bytes, a new start."""
    return inside(r, room) + r.choice((b"\x1b" * r.randint(0, 3), ESC + symbols(r, r.randint(0, 3)), ESC + symbols(r, 4), START))


def piece(r, room):
    """What meets a decoder; among the ends with the right CRC are some behind anything, with any pad count."""
    sort = r.choice("nnsffbbbboooocxx")
    if sort in "nsx":
        return noise(r) if sort == "n" else START if sort == "s" else r.choice("fr")
    if sort in "fb":
        return frame(r, room) if sort == "f" else bent(r, frame(r, room))
    return opened(r, room) if sort == "o" else ended(inside(r, room), r.randrange(6))


def history(r):
    """Way, capacity and operations, cut anywhere or behind a piece."""
    way = r.choice((1, 2)) if r.random() < 0.98 else r.choice((0, 3, 255))
    capacity = r.choice((r.randint(0, 24), r.randint(0, 24), r.randint(8, 24), r.randint(25, 300))) if r.random() < 0.99 else r.choice((4096, 4097, LIMIT, LIMIT + 1))
    ops = [op for _ in range(r.randint(0, 6)) for op in piece(r, min(capacity, 24))]
    return way, capacity, ops[: r.randint(0, len(ops))] if r.random() < 0.3 else ops


def spelled(r, ops):
    """The operations as a command has them, their bytes cut anyhow."""
    words = []
    for sort, group in itertools.groupby(ops, lambda op: op if op in ("f", "r") else "b"):
        group = list(group)
        while group and sort == "b":
            n = r.choice((len(group), r.randint(1, len(group))))
            part, group = bytes(group[:n]), group[n:]
            words.append(f"z{n}:{part[:1].hex()}" if len(set(part)) == 1 and r.random() < 0.5 else "b" + part.hex())
        words += group
    return ",".join(words) or r.choice(("-", "b-"))


# ---- records and byte strings


def good(r):
    """A record that packing accepts, behind a payload with unused counts too."""
    kind, way, cap = r.randrange(5), r.choice((1, 2)), r.choice((r.randint(0, 30), r.randint(0, 300), r.randint(0, LIMIT), LIMIT))
    if kind == SEARCH:
        return Record(kind, r.randint(0, 7), way, r.choice((0xFFFF, r.randrange(2**16))), 0, 0, *(r.choice((0, 8, r.randrange(99), r.randint(0, TOP), TOP)) for _ in range(2)), cap)
    fill = r.choice((cap, r.randint(0, cap), r.randint(0, min(4, cap))))
    n = r.randint(1, 3) if kind == WAITING else r.randint(0, min(3, fill)) if kind == JUDGED else 0
    idx = r.choice((0, fill, r.randint(0, fill))) if kind != JUDGED else r.choice((0, fill - n, r.randint(0, fill - n)))
    raw = r.choice((8, 8 + fill, r.randint(8, TOP), TOP)) if kind != DONE else r.choice((0, 0, 7, TOP))
    return Record(kind, n, way, r.choice((0xFFFF, r.randrange(2**16))), fill, idx, raw, 0, cap)


def beside(r, d):
    """A field or two of a record changed, mostly to what stands beside a bound."""
    for field in r.choices(Record._fields, k=r.randint(1, 2)):
        d = d._replace(**{field: r.choice({
            "kind": range(5),
            "n": (0, 1, 3, 4, 7, 8, r.randrange(256)),
            "way": (0, 1, 2, 3, r.randrange(256)),
            "crc": (0, 0xFFFF, r.randrange(2**16)),
            "fill": (0, 1, d.cap, d.cap + 1, d.idx, max(0, d.idx - 1), d.idx + d.n, max(0, d.idx + d.n - 1), 2**32 + d.fill, WIDE),
            "idx": (0, 1, d.fill, d.fill + 1, max(0, d.fill - d.n), max(0, d.fill - d.n + 1), 2**32 + d.idx, WIDE),
            "raw": (0, 7, 8, TOP),
            "noise": (0, 1, TOP),
            "cap": (0, d.fill, max(0, d.fill - 1), LIMIT, LIMIT + 1, 2**24 + d.cap, 2**32 + d.cap, WIDE),
        }[field])})
    return d


def record(r):
    """Of those that the program's record has no place for, which are no command, few are left."""
    d = good(r)
    if r.random() < 0.5:
        d = beside(r, d)
    if r.random() < 0.95:
        d = d._replace(n=tidy(d).n, noise=tidy(d).noise)
    n = r.choice((0, 27, 28, 28, 29, r.randint(0, 40), r.randint(28, 40)))
    return d, r.choice((r.randbytes(n), b"\xee" * n))


def packs(d, out):
    return "pack %d %d %d %04x %d %d %d %d %d " % d + (out.hex() or "-")


def string(r):
    """Packings of decoders and of records, with more behind them, with a byte or two changed, cut; records written as they are; zeros and random bytes."""
    s = written(ran(*history(r))[1].record() if r.random() < 0.3 else tidy(good(r)))
    sort = r.random()
    if sort < 0.15:
        return s + r.randbytes(r.choice((0, r.randint(1, 12))))
    if sort < 0.65:
        s = bytearray(s + r.randbytes(r.choice((0, 0, 0, r.randint(1, 12)))))
        for k in r.choices(range(SIZE), k=r.randint(1, 2)):
            s[k] = r.choice((0, 1, 2, 3, 4, 5, 7, 8, 255, s[k] ^ 1 << r.randrange(8), (s[k] + 1) % 256, (s[k] - 1) % 256, r.randrange(256)))
        return bytes(s)
    if sort < 0.85:
        return written(Record(*(x % (2**32 if k > 3 else 2**16) for k, x in enumerate(beside(r, good(r))))))
    n = r.choice((27, 28, 29, r.randint(0, 40)))
    return r.choice((s[: r.randint(0, 27)], bytes(n), r.randbytes(n)))


def both_ways(s):
    global judged
    judged += 1
    held("the two judgements of", s.hex(), listed(s), unpack(s) is not None)


def round_of(r, n, first):
    """n histories, byte strings and records, then what was answered, back and again."""
    histories, strings, records = [history(r[0]) for _ in range(n)], [string(r[1]) for _ in range(n)], [record(r[2]) for _ in range(n)]
    lines = [f"packed {way} {capacity} {spelled(r[3], ops)}" for way, capacity, ops in histories] + ["unpack " + (s.hex() or "-") for s in strings] + [packs(*one) for one in records]
    said, later = asked([command for command, _ in first] + lines), []
    for (command, wanted), one in zip(first, said):
        held("vector", command, one, wanted)
    said = said[len(first) :]
    for one in said[:n]:
        packing = re.search(" / ([0-9a-f]{56})$", one)
        if packing:
            # only the reading knows which record this is
            later.append(("packed", "unpack " + packing[1], None))
            states[tuple(bytes.fromhex(packing[1][:6]))] += 1
    for s, one in zip(strings, said[n:]):
        both_ways(s)
        record_said = SAID.fullmatch(one)
        if record_said:
            numbers = (int(x, 16 if k == 3 else 10) for k, x in enumerate(record_said.groups()))
            later.append(("again", packs(Record(*numbers), bytes(SIZE) + s[SIZE:]), s.hex()))
    for (d, _), one in zip(records, said[2 * n :]):
        if re.fullmatch("[0-9a-f]+", one):
            later.append(("back", "unpack " + one, told(d._replace(idx=0, raw=0) if d.kind == DONE else d)))
    for (what, command, wanted), one in zip(later, asked([command for _, command, _ in later])):
        held(what, command, one, wanted or answer(command))
    for _ in range(n * MORE_JUDGED):
        both_ways(string(r[4]))


def thousand(r):
    """Each decoder meets pieces of its own; whose turn it is, and whether it takes a byte or a slice, is drawn. Of a slice that an event cuts short the rest comes later."""
    decoders, left, lines, wanted = [Decoder(MEMORY, 1 + i % 2) for i in range(DECODERS)], [[] for _ in range(DECODERS)], [], []
    for _ in range(OPERATIONS):
        i = r.randrange(DECODERS)
        d, ops = decoders[i], left[i]
        while not ops:
            ops = list(piece(r, MEMORY))
        n = next((k for k, op in enumerate(ops) if op in ("f", "r")), len(ops))
        event, taken = None, 0
        if n == 0:
            event = d.finalize() if ops[0] == "f" else d.reset()
            lines.append(f"{i} {ops.pop(0)}")
        else:
            chunk = bytes(ops[: r.choice((1, r.randint(1, min(n, 16))))])
            lines.append(f"{i} {'b' if len(chunk) == 1 and r.random() < 0.8 else 's'} {chunk.hex()}")
            while taken < len(chunk) and not event:
                event, taken = d.push(chunk[taken]), taken + 1
        left[i] = ops[taken:]
        wanted.append(f"{event or '-'} {taken} {written(d.record()).hex()}")
        turns[(event or "nothing").split(" ")[0]] += 1
    with tempfile.TemporaryDirectory() as folder:
        program = clink.built("tests/library.c", os.path.join(folder, "library"))
        run = subprocess.run([*program, "thousand"], input="".join(line + "\n" for line in lines), capture_output=True, text=True)
    said = run.stdout.split("\n")[:-1]
    held("a thousand decoders", "the status and how many answers", (run.returncode, len(said)), (0, len(lines)))
    for line, one, want in zip(lines, said, wanted):
        held("a thousand decoders", line, one, want)


words = sys.argv[1:]
left = rounds = GATE if not words else ALL if words == ["--all"] else int(words[0])
faults += disagreements()[0]
thousand(random.Random(SEED))
draws, first = [random.Random(SEED + k) for k in range(5)], VECTORS + MORE
while left > 0:
    round_of(draws, min(left, BATCH), first)
    left, first = left - BATCH, []

if rounds >= GATE:
    # a run that reaches too little says little
    wanted = [(SEARCH, n) for n in range(8)] + [(NORMAL, 0), (DONE, 0)] + [(WAITING, n) for n in (1, 2, 3)] + [(JUDGED, n) for n in range(4)]
    faults += [f"no history ends in kind {kind}, small count {n}, way {way}" for kind, n in wanted for way in (1, 2) if not states[kind, n, way]]
    wanted = [("packed", "done"), ("packed", "refused 4"), ("packed", "refused 5"), ("unpack", "done"), ("unpack", "refused 4"), ("pack", "done"), ("pack", "refused 4"), ("pack", "refused 5"), ("pack", "refused 18")]
    faults += [f"no {command} is answered {what}" for command, what in wanted if not kinds[command, what]]
    faults += [f"none of a thousand decoders says {what}" for what in ("payload", "discarded", "escape", "memory", "invalid", "reset", "nothing") if turns[what] < 100]
for fault in sorted(faults, key=len)[:5]:
    print(fault)
if faults:
    sys.exit(f"{len(faults)} faults")
refused = sum(n for (_, what), n in kinds.items() if what.startswith("refused"))
print(f"packed: {len(VECTORS)} vectors of the request and {len(MORE)} more, {commands:,} commands, {refused:,} of them refused, as the second reading says; {judged:,} byte strings judged in two ways; {len(states)} kinds, small counts and ways at the end of {rounds:,} histories; a thousand decoders in one array, {OPERATIONS:,} operations, {turns['payload']:,} payloads")

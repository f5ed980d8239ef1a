"""A larger buffer takes nothing away (document 02, Q-12): the request's vectors, all short inputs of a few words with each two of ten capacities, and random histories with capacities that lie close together or far apart, in both ways of searching, through `push` and `push2` of bin/replay,
which run a decoder by single pushes and one by slices and look at the payload that stands in the buffer. Each answer but those of the vectors is also that of a second reading of the push rules (tests/push_rules.py).

The sentence, of the program's own answers: two decoders of one way get the same operations. Before the operation at which the smaller one answers OutOfMemory first, or to the end, all events are equal, those of finalize and reset with them; so the larger one has no OutOfMemory before then.
Of that operation and of those behind it nothing is said, and rightly: the run counts how often the larger one hears a payload more there, and how often one less.

Both buffers are zeroed, and what is handed back is looked at where a slice stops and behind finalize and reset; that the content doesn't matter, and that the same is handed back behind every operation, is proved alone.

`python3 tests/test_larger.py N` runs N histories; --all runs 100,000, and inputs of up to five words. The gate's are the first of these.
"""
import collections, itertools, os, random, re, subprocess, sys

sys.dont_write_bytecode = True
os.chdir(os.path.join(os.path.dirname(os.path.abspath(__file__)), ".."))
from push_rules import ESCAPE, START, answer, crc

SEED, GATE, ALL, BATCH = 20250912, 500, 100000, 5000
F = bytes.fromhex("1b1b1b1b01010101123456781b1b1b1b1a00b87b")
KINDS = "payload", "memory", "escape", "invalid", "discarded", "reset"
EQUAL, OUT, LATER, MORE, FEWER = "with events, all equal", "whose smaller one ran out", "and that behind an event", "whose larger one then heard more payloads", "whose larger one then heard fewer"
faults, commands = [], 0

# way, C, D, operations (S the start sequence, F the bench sheet's first frame), what the smaller one answers, and the larger one if that differs. The last eight are not the request's: behind the smaller one's OutOfMemory the larger one may lose a frame that the smaller one hears, in either way;
# and capacities on both sides of 2^8, 2^16 and 2^20
VECTORS = """
1  7        8        bF                                     20:memory                                               20:payload 12345678
1  8        8        bF                                     20:payload 12345678
1  8        1048576  b1bF,f,bF                              22:discarded 21;42:payload 12345678
2  8        12       b1bF,f,bF                              9:discarded 1;21:payload 12345678;42:payload 12345678
1  0        4        b00S12                                 9:discarded 1;10:memory                                 9:discarded 1
1  4        8        bS1b1b1b1b1a00c6e5,bF                  16:payload;33:memory                                    16:payload;36:payload 12345678
2  3        4        bS1b1b1b1b1a00c6e5                     16:memory                                               16:payload
1  4        5        bS1b1b1b1b02000000,bS01020304,b05      16:escape 02000000;29:memory                            16:escape 02000000
2  8        20       bSaabb,bF,r                            18:discarded 10;30:payload 12345678;31:reset 0
1  8        9        bS0102030405060708,b09                 17:memory                                               -
1  8        9        bS0102030405061b,r,bF                  16:reset 15;36:payload 12345678
2  4        8        bS1b1b1b1b,f,bF                        13:discarded 12;30:memory                               13:discarded 12;33:payload 12345678
1  3        8        bSS,bF                                 16:memory;28:memory                                     16:discarded 8;24:discarded 8;36:payload 12345678
1  8        16       bS123456781b1b1b1b1a00b87a,bF          20:invalid 7ab8 7bb8 aligned 0;40:payload 12345678
1  5        6        bS010203041b,b06                       14:memory                                               -
1  8        9        bS010203040506070809,bF                17:memory;37:payload 12345678                           22:memory
1  4        5        bS0102030405,bS1b1b1b1b1a00c6e5        13:memory;29:payload                                    18:memory
1  8        16       bS010203040506070809,b1b1b1b1b1a00,bF  17:memory;31:discarded 6;43:payload 12345678            25:invalid 1b1b 2da5 misaligned 0
2  8        16       bS010203040506070809,b1b,bF            17:memory;26:discarded 1;38:payload 12345678            25:escape 1b010101
2  1048575  1048576  b1bF                                   9:discarded 1;21:payload 12345678
1  255      256      bS,z256:00,f                           264:memory                                              265:discarded 264
2  65535    65536    bS,z65536:00,r                         65544:memory;65545:reset 0                              65545:reset 65544
1  1048575  1048576  bS,z1048576:00,r                       1048584:memory;1048585:reset 0                          1048585:reset 1048584
"""
VECTORS = [re.split("  +", line) for line in VECTORS.replace("S", START.hex()).replace("F", F.hex()).strip().split("\n")]
# a start, an escape, the end of an empty payload, a wrong one, another escape, data, a stray byte, finalize
WORDS = START, ESCAPE, ESCAPE + bytes.fromhex("1a00c6e5"), ESCAPE + bytes.fromhex("1a010203"), ESCAPE + bytes.fromhex("02000000"), bytes.fromhex("0203040506"), b"\x1b", "f"
MOST = 9  # the largest capacity for them


def held(what, command, said, wanted):
    if said != wanted:
        faults.append(f"{what}: {command}\n  wanted   {wanted}\n  answered {said}")


def asked(given):
    """The answers to (way, capacity, operations)."""
    global commands
    lines = [f"push{'2' * (way == 2)} {capacity} {text}" for way, capacity, text in given]
    run = subprocess.run(["bin/replay"], input="".join(line + "\n" for line in lines), capture_output=True, text=True)
    said = run.stdout.split("\n")[:-1]
    if run.returncode or len(said) != len(lines):
        sys.exit(f"test_larger: bin/replay, status {run.returncode}, {len(lines)} lines in, {len(said)} out: {run.stderr[-300:]}")
    commands += len(lines)
    return dict(zip(given, said))


def told(one):
    return {int(i): event for i, event in re.findall(r"(\d+):([^;]+)", one)}


def compared(way, small, large, text, said):
    """The sentence, of two capacities. Gives what such a pair shows."""
    first, second = told(said[way, small, text]), told(said[way, large, text])
    full = min((i for i, event in first.items() if event == "memory"), default=float("inf"))
    held("larger", f"push{'2' * (way == 2)}, {small} and {large}: {text}", *({i: event for i, event in events.items() if i < full} for events in (second, first)))
    heard = [sum(event.startswith("payload") for event in events.values()) for events in (first, second)]
    out = full < float("inf")
    return [what for what, so in ((EQUAL, first and first == second), (OUT, out), (LATER, out and min(first) < full), (MORE, out and heard[1] > heard[0]), (FEWER, out and heard[1] < heard[0])) if so]


def joined(words):
    return ",".join(word if word in ("f", "r") else "b" + (word.hex() or "-") for word in words)


# ---- histories


def symbols(r, n):
    return bytes(r.choice((0x1B, 0x1B, 0x01, 0x00, 0x1A, 0x02, r.randrange(256))) for _ in range(n))


def ended(front, p):
    front += ESCAPE + bytes([0x1A, p])
    return front + crc(front).to_bytes(2, "little")


def piece(r, room):
    """Noise; a frame whole, cut, or with a byte changed; a start and data; an escape; an end behind anything; finalize; reset."""
    data = r.choice((symbols, lambda r, n: bytes(n)))(r, r.randint(max(0, room - 8), room + 4) if r.random() < 0.6 else r.randint(0, room))
    p = -len(data) % 4
    whole = ended(START + data.replace(ESCAPE, ESCAPE + ESCAPE) + bytes(p), p)
    k = r.randrange(len(whole))
    changed = whole[:k] + symbols(r, 1) + whole[k + 1 :]
    return r.choice((symbols(r, r.randint(1, 9)), START[: r.randint(1, 8)], whole, whole, whole, whole[:k], whole[k:], changed, START + data, ESCAPE + symbols(r, 4), ended(START + data, r.randrange(5)), "f", "r"))


def history(r):
    small = r.choice((r.randint(0, 12), r.randint(0, 12), r.randint(0, 24), r.randint(0, 24), r.randint(25, 200), r.randint(245, 300)))
    sizes = sorted({small, small + r.randint(1, 4), 2 * small + r.randint(0, 1), r.choice((small + r.randint(5, 40), 300, 4096))})
    return sizes, [piece(r, r.choice(sizes[:3])) for _ in range(r.randint(1, 7))]


def run(drawn):
    """Capacities and words: each capacity in both ways against the reading, each two of them against the sentence. Gives what was reached."""
    seen = collections.Counter()
    drawn = [(sizes, words, joined(words)) for sizes, words in drawn]
    said = asked([(way, size, text) for sizes, _, text in drawn for way in (1, 2) for size in sizes])
    for sizes, words, text in drawn:
        for way in (1, 2):
            for size in sizes:
                held("reading", f"push{'2' * (way == 2)} {size} {text}", said[way, size, text], answer(size, words, way))
                seen.update(event.split(" ")[0] for event in told(said[way, size, text]).values())
            for small, large in itertools.combinations(sizes, 2):
                seen.update([f"pairs, way {way}", *compared(way, small, large, text, said)])
        seen["where the ways differ"] += any(said[1, size, text] != said[2, size, text] for size in sizes)
    return seen


words = sys.argv[1:]
histories = left = GATE if not words else ALL if words == ["--all"] else int(words[0])
rows = [(int(way), int(small), int(large), text, wanted) for way, small, large, text, *wanted in VECTORS]
said = asked([(way, size, text) for way, small, large, text, _ in rows for size in (small, large)])
for way, small, large, text, wanted in rows:
    held("vector", f"push, way {way}, {small} {text}", said[way, small, text], wanted[0])
    held("vector", f"push, way {way}, {large} {text}", said[way, large, text], wanted[-1])
    compared(way, small, large, text, said)
# the request's fake, a decoder of nine bytes that stores seven: the comparison must see it
fake, seen, before = f"b{F.hex()}", asked([(1, 7, f"b{F.hex()}"), (1, 8, f"b{F.hex()}")]), len(faults)
compared(1, 8, 9, fake, {(1, 8, fake): seen[1, 8, fake], (1, 9, fake): seen[1, 7, fake]})
if len(faults) == before:
    faults.append("a larger buffer that stores one byte less is not seen")
else:
    faults.pop()
short = [list(ws) + ["f"] for n in range(1, 6 if words == ["--all"] else 4) for ws in itertools.product(WORDS, repeat=n)]
drawn, reached = random.Random(SEED), {"short inputs": collections.Counter(), "histories": collections.Counter()}
for k in range(0, len(short), BATCH):
    reached["short inputs"] += run([(range(MOST + 1), ws) for ws in short[k : k + BATCH]])
while left > 0:
    reached["histories"] += run([history(drawn) for _ in range(min(left, BATCH))])
    left -= min(left, BATCH)

# a run that reaches too little says little
for name, seen in reached.items():
    for what in ("pairs, way 1", "pairs, way 2", *KINDS, EQUAL, OUT, LATER, MORE, FEWER, "where the ways differ"):
        # no short input has a reset, and none of up to three words is long enough to lose a frame
        least = 0 if name == "histories" and histories < GATE or name == "short inputs" and what in ("reset", FEWER) else 3 if what == FEWER else 20
        if seen[what] < least:
            faults.append(f"{name}: {seen[what]} {what}, and {least} are wanted")
for fault in sorted(faults, key=len)[:5]:
    print(fault)
if faults:
    sys.exit(f"{len(faults)} faults")
for name, n in (("short inputs", len(short)), ("histories", histories)):
    seen = reached[name]
    pairs = seen["pairs, way 1"] + seen["pairs, way 2"]
    print(f"larger, {name}: {n:,}, as the second reading says; {pairs:,} pairs, {seen[EQUAL]:,} {EQUAL}, {seen[OUT]:,} {OUT}, {seen[LATER]:,} {LATER}, {seen[MORE]:,} {MORE}, {seen[FEWER]:,} {FEWER}")
print(f"larger: {len(VECTORS)} vectors; {commands:,} commands in all")

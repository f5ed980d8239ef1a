"""A start search that a stray 1b doesn't fool (document 02, Q-7): the request's vectors, all short inputs and random histories of a decoder, through `push2` and `push` of bin/replay. Each answer is that of a second reading, written from the documents alone: document 01's push rules,
and for the second way the request's own sentence, over the list of all bytes since the search began. A record of an unknown way has no command and is not run here.

Four sentences hold of what `push2` answers, without that reading. The bytes since the search began are there those behind its last payload, refusal, finalize or reset.
Begins: in a search the last byte of the first whole start answers for the bytes before that start, none at 0, and every other byte says nothing. Sound: a payload comes only at the last byte of a sound frame for it.
Noise: behind a search or a payload, noise, then an encoded payload that fits, with no whole start in the bytes since the search began, the noise and the frame's first seven: DiscardedBytes for all before the frame at its eighth byte, none at 0, the payload at its last, nothing else.
Zeros: behind any operations, capacity + 5 zero bytes, then encoded payloads that fit: one DiscardedBytes at the first frame's eighth byte, each payload at its own last byte, nothing else.

`python3 tests/test_search.py N` runs N histories, and a frame behind each input of up to six bytes 1b, 01 and 00; --all runs 100,000 and the inputs of up to nine. The gate's histories are the first of these.
"""
import binascii, collections, itertools, os, random, re, subprocess, sys

os.chdir(os.path.join(os.path.dirname(os.path.abspath(__file__)), ".."))
SEED, GATE, ALL, BATCH, LIMIT = 20250807, 600, 100000, 10000, 1048576
ESC, ONES, F = b"\x1b" * 4, b"\1" * 4, bytes.fromhex("1b1b1b1b01010101123456781b1b1b1b1a00b87b")
START = ESC + ONES
# behind these a search begins; behind DiscardedBytes a frame runs
LAST = "payload", "memory", "escape", "invalid"
REFLECTED = bytes(int(f"{b:08b}"[::-1], 2) for b in range(256))
faults, kinds, sentences, commands, differing = [], collections.Counter(), collections.Counter(), 0, 0

# capacity and operations (S the start sequence, F the bench sheet's first frame), the second way, the first way if it differs; the last three are not the request's: more noise than 16 bits count, and the largest capacity and one more
VECTORS = """
8 b1b,bF                                9:discarded 1;21:payload 12345678                               -
8 bF                                    20:payload 12345678
8 b00,bF                                9:discarded 1;21:payload 12345678
8 z5:1b,bF                              13:discarded 5;25:payload 12345678
8 b1b1b1b1b01,bF                        13:discarded 5;25:payload 12345678                              -
8 b1b1b1b1b010101,bF                    15:discarded 7;27:payload 12345678                              -
8 b1b1b1b1b0101011b,bF                  16:discarded 8;28:payload 12345678
8 bSaabb,bF                             18:discarded 10;30:payload 12345678
8 bS1b1b1b1b021b1b1b,b1b01010101,f,bF   16:escape 021b1b1b;22:discarded 5;42:payload 12345678
8 bF1bF                                 20:payload 12345678;29:discarded 1;41:payload 12345678          20:payload 12345678
8 b1b1b1b1b0101,f,b0101,r,bF            7:discarded 6;10:reset 2;30:payload 12345678
7 b1b,bF,b1bS,f                         9:discarded 1;21:memory;30:discarded 1;31:discarded 8           31:discarded 30
8 bS12,z13:00,bFF                       17:memory;30:discarded 5;42:payload 12345678;62:payload 12345678
8 b1b1b,f,f,b1b,r,r                     3:discarded 2;6:reset 1;7:reset 0
8 z70001:1b,bF,f                        70009:discarded 70001;70021:payload 12345678                    70022:discarded 70021
1048576 b1b,bF                          9:discarded 1;21:payload 12345678                               -
1048577 b1bS,f,r                        1:wrong;2:wrong;3:wrong;4:wrong;5:wrong;6:wrong;7:wrong;8:wrong;9:wrong;11:reset 0
"""
VECTORS = VECTORS.replace("S", START.hex()).replace("F", F.hex()).replace("wrong", "wrong buffer")
VECTORS = [re.split("  +", line) for line in VECTORS.strip().split("\n")]


# ---- the second reading


def crc(data):
    """CRC X25 by its public parameters. The library's has the same polynomial and reflects nothing: so bytes and result are reflected here."""
    return int(f"{binascii.crc_hqx(data.translate(REFLECTED), 0xFFFF):016b}"[::-1], 2) ^ 0xFFFF


def ended(front, p):
    front += ESC + bytes([0x1A, p])
    return front + crc(front).to_bytes(2, "little")


def frame(payload):
    p = -len(payload) % 4
    return ended(START + payload.replace(ESC, ESC + ESC) + bytes(p), p)


class Decoder:
    """`since` holds the bytes since the search or the frame began: its length is the raw length. Behind a payload no answer differs from a fresh search's."""

    def __init__(self, way, capacity):
        self.way, self.capacity = way, capacity
        self.begin(b"", None)

    def begin(self, since, event):
        """A frame behind its start, or a search behind nothing."""
        self.inside, self.since, self.stored = since == START, bytearray(since), bytearray()
        self.matched, self.noise, self.waiting, self.judged = 0, 0, 0, None  # judged: bytes read of the four behind an escape
        return event

    def operation(self, op):
        """The event of a byte pushed, of finalize or of reset, or None."""
        if op in ("f", "r"):
            raw = len(self.since)
            return self.begin(b"", f"reset {raw}" if op == "r" else f"discarded {raw}" if raw else None)
        if self.capacity > LIMIT:
            return "wrong buffer"
        self.since.append(op)
        if not self.inside:
            return self.searched(op)
        if op == 0x1B and self.judged is None:
            self.waiting += 1
            if self.waiting == 4:
                self.waiting, self.judged = 0, 0
            return None
        new, self.waiting = b"\x1b" * self.waiting + bytes([op]), 0
        if len(self.stored) + len(new) > self.capacity:
            return self.begin(b"", "memory")
        self.stored += new
        if self.judged is not None:
            self.judged += 1
        return self.judge(self.stored[-4:], len(self.stored)) if self.judged == 4 else None

    def searched(self, b):
        if self.way == 2:
            whole, noise = self.since.endswith(START), len(self.since) - len(START)
        else:
            self.matched += 1
            if b != (0x1B if self.matched <= 4 else 0x01):
                self.noise, self.matched = self.noise + self.matched, 0
            whole, noise = self.matched == 8, self.noise
        return self.begin(START, f"discarded {noise}" if noise else None) if whole else None

    def judge(self, four, fill):
        missing = -fill % 4
        if four == ESC:
            self.judged = None
        elif four == ONES:
            return self.begin(START, f"discarded {len(self.since) - 8}")
        elif four[0] == 0x1A:
            p, read, computed, data = four[1], int.from_bytes(four[2:], "little"), crc(self.since[:-2]), self.stored[:-4]
            if read == computed and not missing and p <= min(3, len(data)):
                return self.begin(b"", f"payload {data[: len(data) - p].hex()}".rstrip())
            return self.begin(b"", f"invalid {read:04x} {computed:04x} {'misaligned' if missing else 'aligned'} {p}")
        elif missing and four[: missing + 1] == b"\x1b" * missing + b"\x1a":
            # the data's last bytes were taken for the escape's first: of the end behind it the 1a and what follows are read
            self.judged = 4 - missing
        else:
            return self.begin(b"", f"escape {four.hex()}")
        return None


def reading(way, capacity, ops):
    decoder = Decoder(way, capacity)
    events = ((i, decoder.operation(op)) for i, op in enumerate(ops, 1))
    return ";".join(f"{i}:{event}" for i, event in events if event) or "-"


# ---- commands; operations are numbers for bytes, "f" and "r"


def parsed(text):
    ops = []
    for word in text.split(","):
        if word[0] == "z":
            n, byte = word[1:].split(":")
            ops += bytes.fromhex(byte) * int(n)
        else:
            ops += bytes.fromhex(word[1:].strip("-")) if word[0] == "b" else [word]
    return ops


def written(r, ops):
    """The operations as a command has them, their bytes cut anyhow, since the program pushes them by slices too."""
    words = []
    for sort, group in itertools.groupby(ops, lambda op: op if op in ("f", "r") else "b"):
        group = list(group)
        while group and sort == "b":
            n = r.choice((len(group), r.randint(1, len(group))))
            part, group = bytes(group[:n]), group[n:]
            words.append(f"z{n}:{part[:1].hex()}" if len(set(part)) == 1 and r.random() < 0.5 else "b" + part.hex())
        words += group
    return ",".join(words) or "b-"


def symbols(r, n):
    return bytes(r.choice((0x1B, 0x1B, 0x01, 0x00, 0x1A, 0x02, r.randrange(256))) for _ in range(n))


def noise(r):
    k = r.randint(1, 7)
    return r.choice((symbols(r, r.randint(1, 12)), r.randbytes(r.randint(1, 30)), b"\x1b" * r.randint(1, 9) + b"\1" * r.randint(0, 5), START[:k], START[:k] + symbols(r, 1), START[k:]))


def piece(r, room):
    """What meets a decoder: noise, starts, frames whole, cut and damaged, what stands inside one, an end with the right CRC behind anything, finalize, reset."""
    whole = frame(symbols(r, r.randint(0, room)))
    k = r.randrange(len(whole))
    damaged = whole[:k] + symbols(r, 1) + whole[k + 1 :], whole[:k] + whole[k + 1 :], whole[:k] + b"\x1b" + whole[k:]
    inside = START + symbols(r, r.randint(0, room + 2)), ESC + symbols(r, 4), START + symbols(r, 2) + START
    return r.choice((noise(r), noise(r), START, whole, whole, whole[:k], whole[k:], *damaged, *inside, ended(START + symbols(r, r.randint(0, room)), r.randrange(6)), "f", "r"))


def history(r):
    capacity = r.choice((r.randint(0, 24), r.randint(0, 24), r.randint(8, 24), r.randint(25, 300)))
    return capacity, [op for _ in range(r.randint(1, 8)) for op in piece(r, min(capacity, 24))]


# ---- the program's own answers


def held(what, command, said, wanted):
    if said != wanted:
        faults.append(f"{what}: {command}\n  wanted   {wanted}\n  answered {said}")


def sound(f):
    """The event of a sound frame, by document 01's frame rules, without its push rules; None if it is none."""
    data, p = f[8:-8].replace(ESC + ESC, ESC), f[-3]
    right = f[:8] == START and f == ended(START + data.replace(ESC, ESC + ESC), p) and not len(data) % 4 and p <= min(3, len(data))
    return f"payload {data[: len(data) - p].hex()}".rstrip() if right else None


def searches(command, ops, events):
    """Begins and Sound. Gives for each number of operations the place where the search began, whether it still runs or a frame has come of it."""
    began, h, inside = [0], bytearray(), False
    for i, op in enumerate(ops, 1):
        event, ends = events.get(i, ""), op in ("f", "r")
        if not ends:
            h.append(op)
            if not inside:
                inside = h.endswith(START)
                if event != (f"discarded {len(h) - 8}" if inside and len(h) > 8 else ""):
                    faults.append(f"begins: {command}\n  answered {i}:{event or 'nothing'}; {len(h)} bytes since the search began, {'the first' if inside else 'no'} whole start at their end")
            elif event.startswith("payload") and not any(h.startswith(START, k) and sound(h[k:]) == event for k in range(len(h) - 15)):
                faults.append(f"sound: {command}\n  answered {i}:{event}, and no sound frame for it ends there")
            ends = event.startswith(LAST)
        if ends:
            h, inside = bytearray(), False
        began.append(i if ends else began[-1])
    return began


def asked(given):
    """Runs capacities with operations in both ways, against the reading. Gives for each the two answers and, of the second way, the operations, the events by their number, and where its searches began."""
    global commands, differing
    lines = [f"push{way} {capacity} {text}" for way in ("2", "") for capacity, text in given]
    run, out = subprocess.run(["bin/replay"], input="".join(line + "\n" for line in lines), capture_output=True, text=True), []
    said = run.stdout.split("\n")[:-1]
    if run.returncode or len(said) != len(lines):
        sys.exit(f"test_search: bin/replay, status {run.returncode}, {len(lines)} lines in, {len(said)} out: {run.stderr[-300:]}")
    if "bad command" in said:
        sys.exit(f"test_search: no command of bin/replay: {lines[said.index('bad command')]}")
    commands += len(lines)
    for (capacity, text), second, first in zip(given, said, said[len(given) :]):
        ops, events, command = parsed(text), {int(i): event for i, event in re.findall(r"(\d+):([^;]+)", second)}, f"{capacity} {text}"
        held("reading", "push2 " + command, second, reading(2, capacity, ops))
        held("reading", "push " + command, first, reading(1, capacity, ops))
        kinds.update(event.split(" ")[0] for event in events.values())
        differing += first != second
        out.append((second, first, ops, events, searches("push2 " + command, ops, events) if capacity <= LIMIT else []))
    return out


def followed(r, drawn):
    """Histories, then Noise or Zeros behind a part of each."""
    given, wanted = [], []
    for (capacity, _), (_, _, ops, events, began) in zip(drawn, asked([(capacity, written(r, ops)) for capacity, ops in drawn])):
        zeros, place = r.random() < 0.3, r.randint(0, len(ops))
        while not zeros and START in bytes(ops[began[place] : place]):
            place = r.randint(0, len(ops))
        front = ops[:place] + [*(bytes(capacity + 5) if zeros else b"".join(noise(r) for _ in range(r.randint(0, 3))))]
        frames = [frame(symbols(r, r.randint(0, max(0, capacity // 4 * 4 - 4)))) for _ in range(r.randint(1, 3) if zeros else 1)]
        # nothing fits in less than four bytes
        if capacity >= 4 and (zeros or START not in bytes(front[began[place] :]) + frames[0][:7]):
            given.append((capacity, written(r, front + [*b"".join(frames)])))
            wanted.append((zeros, {i: e for i, e in events.items() if i <= place}, place, len(front), frames))
    for (capacity, text), (zeros, answers, place, at, frames), (_, _, _, events, began) in zip(given, wanted, asked(given)):
        if zeros:
            # they may end a frame, in any way
            answers |= {i: e for i, e in events.items() if place < i <= at}
        if zeros or at > began[at]:
            answers[at + 8] = f"discarded {at - began[at]}"
        for f in frames:
            at += len(f)
            answers[at] = sound(f)
        held("zeros" if zeros else "noise", f"push2 {capacity} {text}", events, answers)
        sentences["zeros" if zeros else "noise"] += 1


words = sys.argv[1:]
histories = left = GATE if not words else ALL if words == ["--all"] else int(words[0])
held("the CRC of", "123456789", crc(b"123456789"), 0x906E)
held("the frame of", "12345678", frame(bytes.fromhex("12345678")), F)
short = [bytes(s) for n in range(1, 10 if words == ["--all"] else 7) for s in itertools.product((0x1B, 0x01, 0x00), repeat=n)]
rows = [(int(row[0].split(" ")[0]), row[0].split(" ")[1]) for row in VECTORS]
for (command, *wanted), (second, first, *_) in zip(VECTORS, asked(rows + [(8, f"b{s.hex()},b{F.hex()}") for s in short])):
    held("vector", "push2 " + command, second, wanted[0])
    held("vector", "push " + command, first, wanted[-1])
draw, cuts = random.Random(SEED), random.Random(SEED + 1)
while left > 0:
    drawn = [history(draw) for _ in range(min(left, BATCH))]
    followed(cuts, drawn)
    left -= len(drawn)

if histories >= GATE:
    # a run that reaches too little says little
    faults += [f"no {kind} in this run" for kind in (*LAST, "discarded", "reset") if not kinds[kind]] + ["the two ways never differ, or a sentence was not tried"] * (not differing or len(sentences) < 2)
for fault in sorted(faults, key=len)[:5]:
    print(fault)
if faults:
    sys.exit(f"{len(faults)} faults")
told = ", ".join(f"{n:,} {kind}" for kind, n in kinds.most_common())
print(f"search: {len(VECTORS)} vectors in both ways, {len(short):,} short inputs, {commands:,} commands, as the second reading says; the two ways differ on {differing:,} inputs of {commands // 2:,}; the second answered {told}; {sentences['noise']:,} times noise and a frame, {sentences['zeros']:,} times zeros and frames")

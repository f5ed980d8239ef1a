"""The marks, run: random histories of a decoder, then capacity + 5 zero bytes, then frames, through bin/replay; what it answers is judged here by document 01's words, without the decoder's rules.

Mark 1: a command is answered alike whatever the program did before it. Mark 2: a payload comes only at the last byte of a sound frame for it; and a new decoder, noise, then any sound frame: with room
for its data and 4, DiscardedBytes at the eighth byte for the noise and the payload at the last; with one less, 3 is the first event behind the eighth. Mark 3: behind the zero bytes one DiscardedBytes at the first frame's eighth
byte, with the count of the bytes before that frame, each payload at its own last byte, and nothing else. Events, on random messages, whole and bent: a list start with n is followed by n entries and the end, or by a refusal."""
import os, random, re, subprocess, sys

os.chdir(os.path.join(os.path.dirname(os.path.abspath(__file__)), ".."))
sys.path.insert(0, "oracle")
sys.dont_write_bytecode = True
from generate import commands
from sml import ESCAPE, START, closed, crc, escaped, frame, hexed

COUNT, FRAMES, MESSAGES = 800, 400, 1000
CAPACITIES = list(range(18)) + [20, 23, 24, 31, 32, 40, 63, 64, 100, 128, 255, 256, 300, 512, 1000, 1024, 2048, 4095, 4096]
SPECIAL = [0x1B, 0x1B, 0x1B, 0x1A, 0x01, 0x00]


def some_bytes(r, n):
    style = r.randrange(4)
    if style == 0:
        return r.randbytes(n)
    if style == 1:
        return bytes(r.choice(SPECIAL) for _ in range(n))
    if style == 2:
        return bytes(0x1B if r.random() < 0.8 else r.randrange(256) for _ in range(n))
    return bytes(n)


def before(r, capacity):
    """Operations on a new decoder: a list of bytes to push, `f` for finalize and `r` for reset."""
    ops = []
    for _ in range(r.randrange(6)):
        style, size = r.randrange(8), r.choice([capacity, capacity + 8, 12])
        f = frame(some_bytes(r, r.randrange(size + 1)), r.choice([b"\0\0\0", r.randbytes(3)]))
        if style < 2:
            ops.append(f)
        elif style == 2:
            ops.append(f[: r.randrange(len(f))])
        elif style == 3:
            at = r.randrange(len(f))
            ops.append(f[:at] + bytes([f[at] ^ 1 << r.randrange(8)]) + f[at + 1:])
        elif style == 4:
            ops.append(START + some_bytes(r, r.randrange(size + 1)) + ESCAPE * r.randrange(3) + bytes(r.choice(SPECIAL) for _ in range(r.randrange(6))))
        elif style == 5:
            ops.append(some_bytes(r, r.randrange(40)))
        else:
            ops.append(r.choice("fr"))
    return ops


def command(capacity, ops):
    return "push %d %s" % (capacity, ",".join(o if o in ("f", "r") else "b" + hexed(o) for o in ops))


def single(ops):
    """The operations one by one, as the answers number them: a byte, `f` or `r`."""
    return [x for o in ops for x in ([o] if o in ("f", "r") else o)]


def heard(line):
    """The number of an operation, and its answer; from 1 on."""
    return {int(e.split(":")[0]): e.split(":")[1] for e in line.split(";")} if line != "-" else {}


def unescaped(body):
    """The data that `body` is the escape of, or None."""
    data, run, at = bytearray(), 0, 0
    while at < len(body):
        data.append(body[at])
        run = run + 1 if body[at] == 0x1B else 0
        at += 1
        if run == 4:
            if body[at:at + 4] != ESCAPE:
                return None
            at, run = at + 4, 0
    return bytes(data)


def is_sound(f, payload):
    """Is f a sound frame for the payload? Start; escape of D; 1b1b1b1b 1a p and the right CRC; D's length divides by 4, p at most 3 and at most D's length; the payload is D without its last p bytes."""
    if len(f) < 16 or f[:8] != START or f[-8:-3] != ESCAPE + b"\x1a" or f[-2] + 256 * f[-1] != crc(f[:-2]):
        return False
    data, p = unescaped(f[8:-8]), f[-3]
    return data is not None and len(data) % 4 == 0 and p <= 3 and p <= len(data) and data[: len(data) - p] == payload


def unsound(ops, said):
    """The first answer with a payload that no sound frame ends at, or None."""
    since = b""
    for n, o in enumerate(single(ops), 1):
        a = said.get(n, "")
        if o in ("f", "r"):
            if a.startswith("payload"):
                return n
            since = b""
            continue
        since += bytes([o])
        if a.startswith("payload"):
            payload = bytes.fromhex(a[8:])
            if not any(is_sound(since[at:], payload) for at in range(len(since)) if since[at:at + 8] == START):
                return n
            since = b""
    return None


def bytes_since(ops, said):
    """The bytes pushed since the last payload, refusal, finalize or reset, or else since the start."""
    count = 0
    for n, o in enumerate(single(ops), 1):
        count = 0 if o in ("f", "r") or n in said else count + 1
    return count


def wanted(ops, said, payloads):
    """What mark 3 says of the answers behind `ops`, which end with the zero bytes."""
    done = len(single(ops))
    want = {done + 8: "discarded %d" % bytes_since(ops, {n: a for n, a in said.items() if n <= done})}
    for p in payloads:
        done += len(frame(p))
        want[done] = ("payload " + p.hex()) if p else "payload"
    return want


def history(seed):
    """A command, its operations up to and with the zero bytes, and the payloads behind them; below a capacity of 4 no payload fits."""
    r = random.Random(seed)
    capacity = r.choice(CAPACITIES)
    ops = before(r, capacity) + [bytes(capacity + 5)]
    most = capacity // 4 * 4 - 4
    lengths = [r.choice([0, most, r.randrange(most + 1), r.randrange(min(most, 40) + 1)]) for _ in range(r.choice([1, 1, 2, 3]))] if most >= 0 else []
    payloads = [some_bytes(r, n) for n in lengths]
    return command(capacity, ops + [frame(p) for p in payloads]), ops, payloads


def sound_frame(seed):
    """Noise that leaves nothing matched, a sound frame with pads of any value, its payload, and the length of its data."""
    r = random.Random(seed)
    noise = r.choice([b"", some_bytes(r, r.randrange(30)) + b"\0"])
    data = some_bytes(r, 4 * r.choice([0, 1, 2, r.randrange(30), r.randrange(200)]))
    pads = r.randrange(min(3, len(data)) + 1)
    return noise.replace(START, b""), closed(START + escaped(data), pads), data[: len(data) - pads], len(data)


def not_complete(noise, f, payload, roomy, tight):
    """What the answers with just enough room, and with one byte less, should be and are not, or None."""
    eighth, last = len(noise) + 8, len(noise) + len(f)
    start = {eighth: "discarded %d" % len(noise)} if noise else {}
    if heard(roomy) != {**start, last: ("payload " + payload.hex()) if payload else "payload"}:
        return "mark 2, a sound frame that fits is not handed out"
    said = heard(tight)
    behind = min((n for n in said if n > eighth), default=None)
    if {n: a for n, a in said.items() if n <= eighth} != start or said.get(behind) != "memory":
        return "mark 2, a sound frame that does not fit is not refused with 3 first"
    return None


def lists_whole(line):
    """Is each list start of an answer to `events` followed by its entries and end, or a refusal?"""
    said = line.split(" | ")
    for k, s in enumerate(said):
        if s.startswith("list "):
            n, behind = int(re.search(r" n=(\d+)$", s).group(1)), said[k + 1:]
            entries = next((j for j, e in enumerate(behind) if not e.startswith("entry ")), len(behind))
            last = behind[entries] if entries < len(behind) else ""
            if entries > n or not (last.startswith("err ") or entries == n and last.startswith("end ")):
                return False
    return True


def answers(given):
    run = subprocess.run(["bin/replay"], input="".join(c + "\n" for c in given).encode(), capture_output=True)
    lines = run.stdout.decode().split("\n")
    if run.returncode != 0 or len(lines) != len(given) + 1:
        sys.exit(f"test_marks: bin/replay ended with status {run.returncode} and {len(lines) - 1} answers to {len(given)} commands")
    return lines[:-1]


def main():
    tried = [history(seed) for seed in range(COUNT)]
    pushes = [c for c, _, _ in tried]
    encodes = [("encode " + hexed(p), frame(p).hex()) for _, _, payloads in tried for p in payloads]
    messages = [c for c in commands(11, MESSAGES, "messages") if re.fullmatch("events [0-9a-f]+", c)]
    frames = [sound_frame(seed) for seed in range(FRAMES)]
    tries = [command(n + room, [o for o in (noise, f) if o]) for noise, f, _, n in frames for room in (4, 3)]
    lines = answers(pushes + pushes[::-1] + [c for c, _ in encodes] + messages + tries)
    bad, payloads_heard, lists = [], 0, 0
    for seed, (c, ops, payloads) in enumerate(tried):
        said = heard(lines[seed])
        payloads_heard += sum(a.startswith("payload") for a in said.values())
        if lines[2 * COUNT - 1 - seed] != lines[seed]:
            bad.append(("mark 1, another answer behind other commands", c, lines[seed]))
        every = ops + [frame(p) for p in payloads]
        if unsound(every, said):
            bad.append((f"mark 2, the payload at operation {unsound(every, said)} ends no sound frame", c, lines[seed]))
        last = len(single(ops))
        if payloads and {n: a for n, a in said.items() if n > last} != wanted(ops, said, payloads):
            bad.append(("mark 3, behind the zero bytes not what is claimed", c, lines[seed]))
    for (c, f), line in zip(encodes, lines[2 * COUNT:]):
        if line != f:
            bad.append(("encode", c, line))
    for c, line in zip(messages, lines[2 * COUNT + len(encodes):]):
        lists += sum(s.startswith("list ") for s in line.split(" | "))
        if not lists_whole(line):
            bad.append(("a list without its entries", c, line))
    behind = lines[len(lines) - len(tries):]
    for k, (noise, f, payload, _) in enumerate(frames):
        what = not_complete(noise, f, payload, behind[2 * k], behind[2 * k + 1])
        if what:
            bad.append((what, tries[2 * k], behind[2 * k] + " / " + behind[2 * k + 1]))
    for what, c, line in bad[:5]:
        print(f"test_marks: {what}: {c[:300]} answers {line[:300]}")
    print(f"test_marks: {COUNT} histories, {payloads_heard} payloads, {len(encodes)} of them behind the zero bytes; {FRAMES} sound frames with and without room; {len(messages)} message inputs, {lists} list starts; {len(bad)} faults")
    return 1 if bad else 0


sys.exit(main())

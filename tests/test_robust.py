"""smlcat and both programs behind bin/replay on bytes that nobody meant: random, cut, empty, a megabyte without a line end, lines of the longest length and one more. None may stop early, and each must say what the rules give.

smlcat, and the pushes of the library, are held to tests/push_rules.py, `packed`, `unpack` and `pack` to tests/packed_reading.py, `tlf` to oracle/places.py; what is no command, or none of that program, must be answered `bad command`, and nothing else.
"""
import functools, os, random, re, subprocess, sys

sys.dont_write_bytecode = True
os.chdir(os.path.join(os.path.dirname(os.path.abspath(__file__)), ".."))
sys.path += ["oracle", "scripts"]
import clink, packed_reading, push_rules
from generate import commands, damaged, payload, piece
from sml import KINDS, START, crc, frame, hexed, program
from messages import KINDS as MORE
from places import length_field
from programs import COMMANDS, LIBRARY, MAKING_READY, VECTORS

SEED = 20250711
for name in "smlcat", "replay_parts":
    if subprocess.run(["rt", "check"], cwd=f"crates/{name}", capture_output=True).returncode != 0:
        sys.exit(f"test_robust: {name} is not proved")
faults, count = [], 0
RUN = {"bin/replay": ["bin/replay"], LIBRARY: clink.replay()}


def run(name, given, *words):
    ran = subprocess.run([*(RUN.get(name) or program(name)), *words], input=given, capture_output=True)
    said = [line for line in ran.stderr.decode().splitlines() if not line.startswith(MAKING_READY)]
    if ran.returncode != 0 or said:
        faults.append(f"{name}: status {ran.returncode} on {len(given)} bytes, {given[:40]!r}")
    return ran.stdout.decode("latin-1")


def same(what, said, wanted):
    global count
    count += 1
    if said != wanted:
        at = next((k for k, (a, b) in enumerate(zip(said, wanted)) if a != b), min(len(said), len(wanted)))
        faults.append(f"{what}: at {at} it says {said[max(0, at - 40) : at + 60]!r}, wanted {wanted[max(0, at - 40) : at + 60]!r}")


# ---- smlcat


def captures(r):
    """Bytes as they come in from a meter, and worse."""
    yield b""
    yield r.randbytes(300000)
    yield bytes(r.choice(b"\x1b\x1a\x01\x00\x42") for _ in range(100000))
    yield b"\x1b" * 70001
    yield START * 500
    for n in (4088, 4089, 4092, 4093, 4096, 5000):
        yield b"\0\0" + frame(bytes(n)) + frame(b"\x1b" * 7)
    for n in range(17):
        yield START[:n] + frame(b"\x12\x34\x56\x78")[: 20 - n]
    for _ in range(40):
        yield b"".join(r.choice([lambda: frame(payload(r)), lambda: damaged(r, frame(payload(r))), lambda: r.randbytes(r.randrange(60)), lambda: piece(r)[0]])() for _ in range(20))


r = random.Random(SEED)
for k, data in enumerate(captures(r)):
    same(f"smlcat, capture {k}", run("smlcat", data), "".join(e + "\n" for e in push_rules.events(4096, data)))
    same(f"smlcat -2, capture {k}", run("smlcat", data, "-2"), "".join(e + "\n" for e in push_rules.events(4096, data, 2)))

# ---- replay: what is a command, by the table of commands

HEX = r"(?:-|(?:[0-9a-f]{2})+)"
OPS = r"(?:f|r|b%s|z\d+:[0-9a-f]{2})" % HEX
OPS = f"{OPS}(?:,{OPS})*"
PACK = r"\d+ (\d+) (\d+) [0-9a-f]{4} (\d+) (\d+) (\d+) (\d+) (\d+)"
COMMAND = re.compile(rf"(?:encode|stream|crc|events|places|tlf|unpack) {HEX}|encode_cap \d+ {HEX}|leaf (?:{'|'.join(KINDS + MORE)}) {HEX}|push2? \d+ {OPS}|packed \d+ \d+ (?:-|{OPS})|pack {PACK} {HEX}", re.A)
# the largest n, way, fill, CRC index, raw length, noise and capacity of `pack`; its kind is judged by the reading
LIMITS = 255, 255, 2**53, 2**53, 2**32 - 1, 2**32 - 1, 2**53


def is_command(line):
    if len(line) > 70000 or not COMMAND.fullmatch(line):
        return False
    limits = [*zip(re.findall(r"^(?:encode_cap|push2?|packed \d+) (\d+)", line), [1048577]), *((n, 1048576) for n in re.findall(r"[ ,]z(\d+):", line)), *zip(re.findall(r"^packed (\d+)", line), [255])]
    limits += zip(re.match(rf"pack {PACK}", line).groups(), LIMITS) if line.startswith("pack ") else []
    return all(int(n) <= limit for n, limit in limits)


def unhex(h):
    return bytes.fromhex(h.replace("-", ""))


@functools.cache
def wanted(line):
    """The answer where this file knows it, else None."""
    if not is_command(line):
        return "bad command"
    words = line.split(" ")
    if words[0] == "crc":
        return "%04x" % crc(unhex(words[1]))
    if words[0] == "encode":
        return frame(unhex(words[1])).hex()
    if words[0] == "stream":
        return frame(unhex(words[1])).hex() + " none none none"
    if words[0] == "encode_cap":
        f = frame(unhex(words[2]))
        return f.hex() if len(f) <= int(words[1]) else "memory"
    if words[0] == "tlf":
        return length_field(unhex(words[1]))
    if words[0] in ("packed", "unpack", "pack"):
        return packed_reading.answer(line)
    if words[0] in ("push", "push2"):
        ops = [o if o in "fr" else unhex(o[1:]) if o[0] == "b" else bytes([int(o[-2:], 16)]) * int(o[1:-3]) for o in words[2].split(",")]
        return push_rules.answer(int(words[1]), ops, 2 if words[0] == "push2" else 1)


def held(name, known, what, given):
    """The answers of one program, which knows these commands."""
    lines = given.decode("latin-1").split("\n")
    if lines[-1] == "":
        lines.pop()
    said = run(name, given).split("\n")
    if len(said) != len(lines) + 1 or said[-1] != "":
        faults.append(f"{name}, {what}: {len(lines)} lines in, {len(said) - 1} out")
        return
    for line, answer in zip(lines, said):
        want = wanted(line) if line.split(" ")[0] in known else "bad command"
        if want is None:
            same(f"{name}, {what}, {line[:60]!r}", answer in ("bad command", "differ", ""), False)
        else:
            same(f"{name}, {what}, {line[:60]!r}", answer, want)


def replayed(what, given):
    for name, known in COMMANDS.items():
        held(name, known, what, given)
    held("bin/replay", sum(COMMANDS.values(), []), what, given)


cut = [c[: r.randrange(len(c) + 1)] for c in list(commands(SEED, 1000)) + list(commands(SEED, 300, "messages"))]
# the words that the generator doesn't draw; the crate's driver doesn't know them
WORDS = "tlf", "unpack", "pack", "packed", "places", "push2"
stored = [line for folder in VECTORS.values() for line in open(f"{folder}/stdin", encoding="utf-8").read().split("\n") if len(line) <= 2000]
parts = [c for word in WORDS for c in r.choices([line for line in stored if line.startswith(word + " ")], k=350)]
cut_parts = [c[: r.randrange(len(c) + 1)] for c in parts[::3]]
bent = [c[:k] + r.choice("0189abf -,:") + c[k + r.randrange(2) :] for c in parts for k in [r.randrange(len(c))]]
replayed("nothing", b"")
replayed("line ends", b"\n\n\r\n\n")
replayed("random bytes", r.randbytes(200000))
replayed("random letters", bytes(r.choice(b"push 8bfrz0123456789abcdef,:-\n") for _ in range(50000)))
replayed("no line end", bytes(r.choice(b"0123456789abcdef") for _ in range(1 << 20)))
replayed("no line end, a command's beginning", b"push 4096 b" + b"1b" * (1 << 19))
replayed("cut commands", "\n".join(cut).encode("latin-1"))
replayed("cut lines of the other commands", "\n".join(cut_parts).encode())
replayed("bent lines of the other commands", "\n".join(bent).encode())
replayed("commands", "\n".join(commands(SEED + 1, 400)).encode("latin-1"))
replayed("commands, the second way", "\n".join(c.replace("push ", "push2 ") for c in commands(SEED + 1, 400)).encode("latin-1"))
for n in (69998, 69999, 70000, 70001, 70002, 140000):
    for head in ("crc ", "encode ", "stream ", "push 4096 b", "push 12 f,b", "push2 12 f,b", "packed 2 8 b", "events ", "leaf oct ", "tlf ", "unpack ", "pack 1 0 1 ffff 0 0 8 0 8 "):
        replayed(f"a line of {n}", (head + ("1b0042ff" * 40000)[: n - len(head)] + "\ncrc 31").encode())
print("\n".join(faults[:20]))
print(f"{count} answers held, {len(faults)} faults")
sys.exit(1 if faults else 0)

"""vectors.py: writes the fixed list of commands to replay/stdin and crates/replay_parts/stdin, each to the list of the program that answers it and what is no command to both, and the crate's answers
(target/oracle/oracle, made by oracle/build) to stdout beside them; those over messages (message_vectors.py) come last, and what the crate doesn't have: `push2`, `packed`, `unpack`, `pack` and `why`, whose answers are told here.

tests/test_replay.py and tests/test_forms.py replay the first list, `rt ci` the second, without the crate at hand. Run it again when a command is added; what it writes depends on nothing but this folder and the crate.
"""
import itertools, os, re, subprocess, sys

sys.dont_write_bytecode = True
import message_vectors
from generate import commands
from places import over_32_bits
from sml import ESCAPE, HERE, KINDS, START, capacities, closed, frame, hexed
from programs import ANSWERS, LIBRARY, ROOT, VECTORS

b = bytes.fromhex
CAPS = capacities()
B1 = frame(b("12345678"))
lines = []
# document 02, Q-7: capacity and operations (S the start sequence, F the frame of B1), the answer of `push2`, and that of `push` where it is another
SEARCHES = """
8 b1b,bF                                9:discarded 1;21:payload 12345678                         -
8 bF                                    20:payload 12345678
8 b00,bF                                9:discarded 1;21:payload 12345678
8 z5:1b,bF                              13:discarded 5;25:payload 12345678
8 b1b1b1b1b01,bF                        13:discarded 5;25:payload 12345678                        -
8 b1b1b1b1b010101,bF                    15:discarded 7;27:payload 12345678                        -
8 b1b1b1b1b0101011b,bF                  16:discarded 8;28:payload 12345678
8 bSaabb,bF                             18:discarded 10;30:payload 12345678
8 bS1b1b1b1b021b1b1b,b1b01010101,f,bF   16:escape 021b1b1b;22:discarded 5;42:payload 12345678
8 bF1bF                                 20:payload 12345678;29:discarded 1;41:payload 12345678    20:payload 12345678
8 b1b1b1b1b0101,f,b0101,r,bF            7:discarded 6;10:reset 2;30:payload 12345678
7 b1b,bF,b1bS,f                         9:discarded 1;21:memory;30:discarded 1;31:discarded 8     31:discarded 30
8 bS12,z13:00,bFF                       17:memory;30:discarded 5;42:payload 12345678;62:payload 12345678
8 b1b1b,f,f,b1b,r,r                     3:discarded 2;6:reset 1;7:reset 0
"""
# document 02, Q-11: commands (Z is 28 bytes 00) and their answers
PACKINGS = """
packed 1 8 -                                         - / 00000100ffff00000000000000000000000000000000000008000000
packed 2 8 b001b1b                                   - / 00020200ffff00000000000000000000030000000100000008000000
packed 1 8 bS121b1b1b1b                              - / 0300010057a8000001000000010000000d0000000000000008000000
packed 2 8 bF                                        20:payload 12345678 / 04000200ffff00000400000000000000000000000000000008000000
packed 1 8 b00,bF,b1b,f                              9:discarded 1;21:payload 12345678;23:discarded 1 / 00000100ffff00000000000000000000000000000000000008000000
packed 1 1048576 b00                                 - / 00000100ffff00000000000000000000010000000100000000001000
packed 1 0 f                                         - / 00000100ffff00000000000000000000000000000000000000000000
packed 1 8 b1b1b1b,r,b00                             4:reset 3 / 00000100ffff00000000000000000000010000000100000008000000
packed 2 4 bS0102030405,b00                          13:memory / 00000200ffff00000000000000000000010000000100000004000000
packed 1 8 bS12341b1b1b1b02000000                    18:escape 02000000 / 00000100ffff00000000000000000000000000000000000008000000
packed 2 8 b00,bS123456781b1b1b1b1a00b87a            9:discarded 1;21:invalid 7ab8 7bb8 aligned 0 / 00000200ffff00000000000000000000000000000000000008000000
packed 1 8 bS121b1b1b1b1a00,r                        16:reset 15 / 00000100ffff00000000000000000000000000000000000008000000
packed 2 8 bS121b1b1b1b1a00b8                        - / 0303020057a800000400000001000000100000000000000008000000
packed 1 8 bS12341b1b1b1b1a00b87b                    18:invalid 7bb8 2f83 misaligned 0 / 00000100ffff00000000000000000000000000000000000008000000
packed 0 8 -                                         refused 4
packed 3 8 b00,f,r                                   refused 4
packed 255 1048577 -                                 refused 4
packed 1 1048577 -                                   refused 5
packed 2 1048577 b00,f,r                             refused 5
unpack 00000100ffff00000000000000000000000000000000000008000000      kind=0 n=0 way=1 crc=ffff fill=0 idx=0 raw=0 noise=0 cap=8
unpack 00020200ffff00000000000000000000030000000100000008000000a5    kind=0 n=2 way=2 crc=ffff fill=0 idx=0 raw=3 noise=1 cap=8
unpack 0300010057a8000001000000010000000d0000000000000008000000      kind=3 n=0 way=1 crc=a857 fill=1 idx=1 raw=13 noise=0 cap=8
unpack 04000200ffff00000400000000000000000000000000000008000000      kind=4 n=0 way=2 crc=ffff fill=4 idx=0 raw=0 noise=0 cap=8
unpack Z                                             refused 4
unpack 00000100ffff000000000000000000000000000000000000080000        refused 4
unpack 05000100ffff00000000000000000000000000000000000008000000      refused 4
unpack 01010100ffff00000000000000000000080000000000000008000000      refused 4
unpack -                                             refused 4
pack 4 0 1 1234 4 2 7 0 8 Z                          04000100341200000400000000000000000000000000000008000000
pack 0 2 2 ffff 0 0 3 1 8 Za5a5                      00020200ffff00000000000000000000030000000100000008000000a5a5
pack 0 0 1 ffff 0 0 4294967295 4294967295 8 Z        00000100ffff00000000000000000000ffffffffffffffff08000000
pack 0 8 1 ffff 0 0 8 0 8 -                          refused 4 -
pack 0 0 3 ffff 0 0 0 0 8 Z                          refused 4 Z
pack 1 0 1 ffff 4294967296 0 8 0 8 aa                refused 4 aa
pack 0 0 1 ffff 0 0 0 0 1048577 a5                   refused 5 a5
pack 0 0 1 ffff 0 0 0 0 4294967304 Z                 refused 5 Z
pack 1 0 1 ffff 9007199254740992 9007199254740992 8 0 9007199254740992 -    refused 5 -
pack 0 0 1 ffff 0 0 0 0 8 a5                         refused 18 a5
pack 0 0 1 ffff 0 0 0 0 8 -                          refused 18 -
"""
NO_PACKINGS = """
packed
packed 1
packed 1 8
packed 256 8 f
packed -1 8 f
packed 1 8 -,f
packed 3 8 x
packed 1 1048578 f
packed 1 8 f f
unpack
unpack 0
unpack 00 00
pack
pack 0 0 1 ffff 0 0 0 0 8
pack 0 0 1 ffff 0 0 0 0 8 - -
pack 0 0 1 fffff 0 0 0 0 8 -
pack 0 0 1 AAAA 0 0 0 0 8 -
pack 5 0 1 ffff 0 0 0 0 8 -
pack 1 0 1 ffff 0 0 8 1 8 -
pack 1 1 1 ffff 0 0 8 0 8 -
pack 4 1 1 ffff 0 0 8 0 8 -
pack 3 1 1 ffff 0 0 8 1 8 -
pack 0 256 1 ffff 0 0 8 1 8 -
pack 0 0 256 ffff 0 0 8 1 8 -
pack 0 0 1 ffff 0 0 4294967296 0 8 -
pack 0 0 1 ffff 0 0 0 4294967296 8 -
pack 0 0 1 ffff 9007199254740993 0 0 0 8 -
pack 0 0 1 ffff 0 0 0 0 99999999999999999999 -
"""
# document 02, Q-10: way, capacity, recording (S the start sequence, F the frame of B1) and the losses
LOSSES = """
1 8 1bF                             hidden 1 21
2 8 1bF                             noise 1 1
1 8 00F                             noise 1 1
1 8 SaabbF                          cut 1 10
1 8 S1b1b1b1b02000000aaS123456      escape 1 16 | noise 17 17 | unfinished 18 28
1 7 F                               room 1 20
1 8 S123456781b1b1b1b1a00b87a       crc 1 20
1 8 F1b1bF00F                       hidden 21 43
1 12 S01020304051b1b1b1b1a04074f    crc+misaligned+pads 1 21
1 12 S1b1b1b1b1a014ff4              pads 1 16
1 12 S011b1b1b1b1a02161e            misaligned+pads 1 17
2 12 S0102031b1b1b1b1a03edf4        misaligned 1 19
1 8 SS1234                          cut 1 8 | unfinished 9 18
1 8 1b1b1b1b010101                  noise 1 7
1 8 F                               -
1 8 -                               -
1 0 SS                              room 1 13 | noise 14 16
2 8 1bS1b1b1b1b1b                   noise 1 1 | unfinished 2 14
3 1048577 -                         refused 4
2 1048577 -                         refused 5
0 8 F                               refused 4
255 1048577 F                       refused 4
1 1048576 1bF                       hidden 1 21
"""
NO_LOSSES = ["why", "why 1", "why 1 8", "why 1 8 ", "why 1 8 0", "why 1 8 00 00", "why 1 8 S", "why  8 -", "why -1 8 -", "why 1 -1 -", "why x 8 -", "why 1 x -", "why 1  -"]


def say(*commands):
    lines.extend(commands)


def push(cap, *ops):
    say("push %d %s" % (cap, ",".join("b" + hexed(o) if isinstance(o, bytes) else o for o in ops)))


def bench():
    """B1 to B13, and the CRC's published check value. B14, which the crate answers otherwise, is in tests/test_beyond.py."""
    say("crc 313233343536373839", "crc -", "encode 12345678", "encode 13243546", "stream 12345678", "stream 13243546")
    push(8, B1), push(7, B1), push(8, b"\x1b" + B1), push(8, b"\x1b" + B1, "f"), push(8, b"\0" + B1)
    push(8, START + b("aabb") + B1), push(8, START + ESCAPE + b("02000000")), push(8, B1[:-1] + b"\x7a")
    for h in ["07", "07010203040506", "8302" + "00" * 48, "8302", "8002", "00", "c2", "10", "8112", "8182", "52ff", "630005"]:
        say(*("leaf %s %s" % (k, h) for k in KINDS))


def doc_comments():
    """The byte vectors of the crate's doc comments (src/transport.rs, src/parser/complete.rs, src/lib.rs), in the buffer that they use, and numbers of every type."""
    say("events 7605dd4344006200620072630201710163fd5600", "push 8 b010203,f", "push 8 b0102030405,f", "events 010203", "events 0102030405")
    say("encode 001b1b1b1b010203", "stream 001b1b1b1b010203", "encode_cap 20 12345678")
    push(10, B1, frame(b("13243546")), "f"), push(10, B1, "f", frame(b("13243546")), "r"), push(20, frame(b("001b1b1b1b010203")), "f")
    for k in KINDS:
        say(*("leaf %s %s" % (k, h) for h in ["62ff", "6300ff", "63ff01", "52ff", "537fff", "5401ffff", "4200", "4201", "42ff", "01", "0261", "-"]))


def wrong_readings():
    """The bytes of docs/WRONG-READINGS.md, and document 01's five marked readings."""
    for h in ["8302", "07", "01", "8112", "4201", "6205", "72", "070102", "07010203040506", "52ff", "630102", "6301", "5280", "42ff", "4200", "41", "61", "6500000005", "00", "016205"]:
        say(*("leaf %s %s" % (k, h) for k in KINDS))
    say("crc 31", "crc 32", "crc 3139", "crc 39")
    for h in ["1b1b1b1b", "001b1b1b1b010203", "1b1b001b1b", "010203", "0102031b", "12345678"]:
        say("encode " + h, "stream " + h)
        push(16, frame(b(h)), frame(b(h)), "f")
    push(8, b("1b00") + B1, "f"), push(8, b("1b"), b("00") + B1, "f"), push(8, b("001b1b1b01010101") + B1, "f"), push(8, b("1b"), "f", "f"), push(8, b("1b"), "r", "r"), push(8, closed(START, 1), "f")
    # a stray 1b before a payload that has a start inside: another payload, and an end that fails its tests
    for h in ["a3c3001b1b1b1b1b0101010112345678", "1b1b1b1b1b0101010112345678"]:
        push(24, frame(b(h)), "f"), push(24, b"\x1b", frame(b(h)), "f")
    for n in range(1, 4):
        # a payload that ends in 1b, and pads behind it
        push(16, closed(START + b("010203")[: 4 - n] + b"\x1b" * n, 0), "f")
        push(16, closed(START + b("010203")[: 3 - n] + b"\x1b" * n + b"\0", 1), "f")
    for n in range(9):
        push(8, b"\x1b" * n + B1, "f"), push(8, b"\x1b" * n + b"\0" + B1, "f")
        push(8, B1[:n] + B1, "f"), push(8, B1, B1[:n], "f"), push(8, B1, B1[:n], "r", B1)
        # the start, and what follows it, in two pushes
        push(8, B1[:n], B1[n:], "f"), push(8, b"\0" + B1[:n], B1[n:], "f")
    push(12, closed(START + ESCAPE + ESCAPE + b("1234") + b"\0\0", 2), "f")


def runs_of_1b():
    """Runs of 1b of every length from 0 to 12 at the start, in the middle and at the end, with every pad; there and back."""
    for n, pads in itertools.product(range(13), range(4)):
        for place in ("start", "middle", "end"):
            size = next(s for s in range(2, 7) if (n + s + pads) % 4 == 0)
            rest = bytes(range(0x41, 0x41 + size))
            cut = {"start": 0, "middle": size // 2, "end": size}[place]
            p = rest[:cut] + b"\x1b" * n + rest[cut:]
            f = frame(p)
            say("encode " + hexed(p), "stream " + hexed(p))
            push(64, f, "f"), push(64, f + f), push(64, f[:-1], "f"), push(64, f[:-3] + b"\x04" + f[-2:], "f")


def at_the_limits():
    """Capacities one below, at and one above each limit: of an output, of the bytes stored."""
    for n in range(0, 41):
        p = bytes(0x1B if n % 3 == 0 else k for k in range(n))
        f = frame(p)
        for c in (len(f) - 1, len(f), len(f) + 1):
            if c in CAPS:
                say("encode_cap %d %s" % (c, hexed(p)))
        stored = n + -n % 4 + 4
        for c in (stored - 1, stored, stored + 1):
            if c in CAPS:
                push(c, f, "f"), push(c, f, f)
    for c in range(0, 13):
        # waiting 1b that don't fit; an escape that doesn't
        for n in range(1, 4):
            push(c, START + bytes(range(8)) + b"\x1b" * n + b"\x41" * 3, "f")
        push(c, START + bytes(range(8)) + ESCAPE + ESCAPE + b"\x41", "f"), push(c, START + ESCAPE + b"\x1a\0\0\0", "f")
    say("encode_cap 0 -", "encode_cap 15 -", "encode_cap 16 -", "encode_cap 17 -", "encode_cap 4096 " + "1b" * 300)
    push(0, "f"), push(0, START, "f"), push(0, START + b"\x41", "f"), push(4096, START + bytes(4096), "f"), push(4096, START + bytes(4097), "f")
    push(4096, frame(bytes(4092))), push(4096, frame(bytes(4093))), push(4095, frame(bytes(4092)))
    # memory that is made for those who ask for much
    say("encode_cap 65536 " + "1b" * 3000, "encode_cap 1048576 12345678", "encode " + "1b" * 2000, "encode " + "1b" * 2001, "encode " + "1b" * 34996, "stream " + "1b" * 2001)
    push(65536, START, "z65536:00", "f"), push(65536, START, "z65537:00", "f"), push(65536, START, "z65532:41", closed(START + b"\x41" * 65532, 0)[-8:], "f"), push(1048576, frame(bytes(5000)), B1, "f")


def refusals():
    """Each refusal of a push, in each way, and the searches."""
    for p in range(6):
        for n in range(0, 6):
            push(32, closed(START + bytes(range(0x30, 0x30 + n)), p), "f")
            push(32, closed(START + bytes(range(0x30, 0x30 + n)), p)[:-1] + b"\0", "f")
    for a in range(4):
        for q in itertools.product((0x1B, 0x1A, 0x01, 0x02), repeat=4):
            push(16, START + b"\x41" * a + ESCAPE + bytes(q), b"\x1a\0\0\0\0", "f")
    for t in itertools.product((0x1B, 0x01, 0x00), repeat=5):
        push(8, START[:3] + bytes(t) + START[4:], "f")
    for n in (65534, 65535):
        say("push 8 z%d:00,b%s,f" % (n, B1.hex()), "push 8 z%d:00,f,r" % n, "push 8 z%d:1b,f" % n)
    say("push 8 b%s,f,f,r,r" % B1.hex(), "push 8 r,f,b-,r", "push 8 b1b,f,b1b1b,r,b00,f,z3:1b,f", "push 8 z0:00,f")


def meters():
    """The two constructed frames of meters: whole, at capacities about their limit, cut at every byte, one bit of every byte wrong."""
    for f in map(b, open(os.path.join(HERE, "frames.hex")).read().split()):
        push(512, f), push(512, f, f[:9], "f"), push(239, f, "f"), push(240, f, "f"), push(360, f, "f"), push(366, f, "f")
        for k in range(len(f)):
            push(512, f[:k], "f"), push(512, f[:k] + bytes([f[k] ^ 1 << k % 8]) + f[k + 1:], "f")


def fields():
    """Every length byte at every kind, and the edges of every width."""
    for k in KINDS:
        for x in range(256):
            say("leaf %s %02x" % (k, x))
            if x % 16 < 10 or x >= 128:
                say("leaf %s %02x0203040506070809" % (k, x))
    for n in range(0, 10):
        for c in ("00" * n, "ff" * n, "80" + "00" * n, "7f" + "ff" * n, "01" * n):
            say(*("leaf %s %x%x%s" % (k, ty, n + 1, c[: 2 * n]) for k in KINDS for ty in (5, 6)))


def no_commands():
    say("", " ", "encode", "encode ", "encode  12", "encode 1", "encode 123", "encode AB", "encode ab ", "encode ab cd", "encode --", "encode 0x12", "ENCODE ab", "encode\tab",
        "encode ab\r", "crc", "crc -\r", "stream", "stream g0", "encode_cap", "encode_cap 16", "encode_cap 16 ", "encode_cap  -", "encode_cap -1 -", "encode_cap +16 -", "encode_cap 1048578 -",
        "encode_cap 016 -", "encode_cap 99999999999999999999999999 -", "push", "push 8", "push 8 ", "push 8 ,", "push 8 f,", "push 8 ,f", "push 8 b", "push 8 b1", "push 8 bAB", "push 8 f f",
        "push 8 x", "push 8 ff", "push 8 rf", "push 8 b12-", "push 8 b--", "push 1048578 f", "push 99999999999999999999 f", "push 8x f", "push -8 f", "push 008 f", "push 8 z", "push 8 z3", "push 8 z3:",
        "push 8 z:00", "push 8 z3:0", "push 8 z3:000", "push 8 z3:-", "push 8 z3:00:00", "push 8 z+3:00", "push 8 z1048577:00", "push 8 z99999999999999999999:00", "push 8 f,b,r", "push2", "push2 8", "push2 8 f,", "push2 8 b1", "push2 8 f f", "push2 1048578 f", "leaf", "leaf u8",
        "leaf u8 ", "leaf u9 6201", "leaf  6201", "leaf U8 6201", "leaf u8 620", "leaf opt_u9 01", "bad command", "pushx 8 f", "pus 8 f", "crc " + "00" * 34998,
        "crc " + "00" * 34999, "x" * 70001, "encode \u00e9", "crc 31")


def searches():
    """Q-7's rows, each as `push2` and as `push`."""
    for row in SEARCHES.strip().split("\n"):
        ops, *told = re.split("  +", row)
        ops = ops.replace("S", START.hex()).replace("F", B1.hex())
        yield "push2 " + ops, told[0]
        yield "push " + ops, told[-1]


def packings():
    """Q-11's rows, and what is no command of theirs."""
    for row in PACKINGS.strip().split("\n"):
        yield tuple(word.replace("S", START.hex()).replace("F", B1.hex()).replace("Z", "00" * 28) for word in re.split("  +", row))
    for row in NO_PACKINGS.strip().split("\n"):
        yield row, "bad command"


def losses():
    """Q-10's rows, and what is no command of theirs."""
    for row in LOSSES.strip().split("\n"):
        asked, told = re.split("  +", row, maxsplit=1)
        yield "why " + asked.replace("S", START.hex()).replace("F", B1.hex()), told
    for row in NO_LOSSES:
        yield row, "bad command"


def store(name, pairs):
    """The commands that nobody else answers, and their answers. The last line has no line end."""
    mine = [(c, a) for c, a in pairs if ANSWERS.get(c.split(" ")[0], name) == name]
    for file, text in ("stdin", "\n".join(c for c, _ in mine)), ("stdout", "".join(a + "\n" for _, a in mine)):
        open(os.path.join(ROOT, VECTORS[name], file), "w", encoding="utf-8", newline="").write(text)
    print(f"{name}: {len(mine)} commands, {sum(a == 'bad command' for _, a in mine)} of them answered bad command")


def main():
    bench(), doc_comments(), wrong_readings(), runs_of_1b(), at_the_limits(), refusals(), meters(), fields(), no_commands()
    lines.extend(commands(20240607, 1500))
    second, first = ([row for row in searches() if row[0].startswith(word)] for word in ("push2 ", "push "))
    say(*(c for c, _ in first))
    # the crate's answers are stored, so that no length is read that only ours refuses
    assert not any(map(over_32_bits, lines))
    said = subprocess.run([os.path.join(ROOT, "target/oracle/oracle")], input="\n".join(lines).encode(), capture_output=True, check=True).stdout.decode()
    for word in ("no such capacity", "panic"):
        assert word not in said, word
    last = ("encode 12345678", frame(b("12345678")).hex())
    pairs = list(zip(lines, said.split("\n"))) + list(message_vectors.vectors()) + second + list(packings()) + list(losses())
    assert said.count("\n") == len(lines)
    assert not set(first) - set(pairs)
    for name in VECTORS:
        store(name, pairs + [last] * (name == LIBRARY))


if __name__ == "__main__":
    main()

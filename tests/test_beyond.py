"""Beyond the domain the crate's counts and lengths wrap, and ours don't: each such input with our answer, run through bin/replay, and the crate's, run through it where it is at hand.
Built with overflow checks the crate panics where a count wraps: that answer is a third column, run where it is at hand. What is not is said to be skipped.

The first of each group is the last input inside the domain, where all agree; of lengths the first three are inside. Behind them the shortest inputs of docs/DIFFERENCES.md at which crate and specification differ: all answer alike.
"""
import os, subprocess, sys

sys.dont_write_bytecode = True
os.chdir(os.path.join(os.path.dirname(os.path.abspath(__file__)), ".."))
sys.path.append("oracle")
from messages import sealed
from places import over_32_bits
from sml import KINDS, frame

B1 = frame(bytes.fromhex("12345678")).hex()
EOF = " | err UnexpectedEOF"
CLOSE = sealed(bytes.fromhex("7602016200620072630201" + "7101"))
ENTRY = bytes.fromhex("77024101010101620501")


def head(last):
    """A list message up to its entries' length bytes: ff 8f 8f 8f 8f 8f 8f and the last one."""
    return bytes.fromhex("7602016200620072630701770102020101ff8f8f8f8f8f8f") + bytes([last])


def said(n):
    return "list tid=x01 group=0 abort=0 client=- server=x02 name=- time=- n=%d" % n


CLOSED = " | close tid=x01 group=0 abort=0 sig=- | none"
READ = " | entry name=x41 status=- time=- unit=- scaler=- value=u8:5 sig=-"
MISMATCH = " | err TlfMismatch"
NONE = " | none | none | none"
PANIC = "panic"
# (command, ours, the crate's, the crate's with overflow checks)
NOISE = [
    ("push 8 z65535:00,b" + B1, "65543:discarded 65535;65555:payload 12345678", "65543:discarded 65535;65555:payload 12345678", "65543:discarded 65535;65555:payload 12345678"),
    ("push 8 z65536:00,b" + B1, "65544:discarded 65536;65556:payload 12345678", "65556:payload 12345678", PANIC),
    ("push 8 z65537:00,b" + B1, "65545:discarded 65537;65557:payload 12345678", "65545:discarded 1;65557:payload 12345678", PANIC),
    ("push 8 z65536:00,f", "65537:discarded 65536", "-", PANIC),
    ("push 8 z65537:00,f", "65538:discarded 65537", "65538:discarded 65537", PANIC),
    ("push 8 z65536:00,r", "65537:reset 65536", "65537:reset 65536", PANIC),
    ("push 8 z65535:00,b1b00,b" + B1, "65545:discarded 65537;65557:payload 12345678", "65545:discarded 1;65557:payload 12345678", PANIC),
    ("push 8 z327680:1b,b00" + B1, "327689:discarded 327681;327701:payload 12345678", "327689:discarded 1;327701:payload 12345678", PANIC),
    ("push 8 z1048576:00,b" + B1, "1048584:discarded 1048576;1048596:payload 12345678", "1048596:payload 12345678", PANIC),
]
LISTS = []
for last, n, alone, sealed_, close, entry, both in (
    (0x0D, 4294967293, None, None, None, None, None),
    # pending wraps to 0: the message ends at once, and what follows is read as a message
    (0x0E, 4294967294, " | none", MISMATCH + NONE, CLOSED, MISMATCH + NONE, MISMATCH + NONE),
    # pending wraps to 1: the trailer is read at once, and accepted if its CRC is right
    (0x0F, 4294967295, None, " | none", None, MISMATCH + 3 * EOF, CLOSED),
):
    h = head(last)
    for data, ours, theirs in (
        (h, 4 * EOF, alone),
        (sealed(h), MISMATCH + 3 * EOF, sealed_),
        (h + CLOSE, MISMATCH + 3 * EOF, close),
        (sealed(h + ENTRY + b"\x01\x01"), READ + MISMATCH + 3 * EOF, entry),
        (sealed(h) + CLOSE, MISMATCH + 3 * EOF, both),
    ):
        # the sum of entries, end and trailer passes 32 bits as soon as the list's head is read
        checked = PANIC if n > 0xFFFFFFFD else said(n) + ours
        LISTS.append(("events " + data.hex(), said(n) + ours, said(n) + (ours if theirs is None else theirs), checked))

# Lengths over 32 bits (document 02, Q-2): the crate keeps the low ones, by a shift that no check sees.
OVERFLOW = "err InvalidTlf TlfLengthOverflow"
LENGTHS = [
    ("leaf oct 8f8f8f8f8f8f8f0f", "err UnexpectedEOF", "err UnexpectedEOF"),
    ("leaf oct 80808080808080808080800d41", "x41 left 0", "x41 left 0"),
    ("leaf oct 818080808080808010", "err InvalidTlf TlfNextByteTypeMismatch", "err InvalidTlf TlfNextByteTypeMismatch"),
    ("leaf oct 818080808080808080", OVERFLOW, "err UnexpectedEOF"),
    ("leaf oct 818080808080808000", OVERFLOW, "err InvalidTlf TlfLengthUnderflow"),
    ("leaf time f1808080808080800262016500000007", OVERFLOW, "sec:7 left 0"),
    # a whole close message to the crate
    ("events f1808080808080800605dd43440062006200726302017101634c2600", OVERFLOW + NONE, "close tid=xdd434400 group=0 abort=0 sig=- | none"),
]
# B14, and a byte of content behind it
LENGTHS += [("leaf %s 81808080808080800a41" % k, OVERFLOW, "x41 left 0" if k.endswith("oct") else "err TlfMismatch") for k in KINDS]

CRC_WRONG = "close tid=x group=0 abort=0 sig=- | err CrcMismatch" + 3 * EOF
FOLLOWED = [
    ("leaf time 6500000007", "sec:7 left 0"),
    ("leaf value 7262016500000007", "list:sec:7 left 0"),
    ("leaf value 7262017262016500000007", "list:sec:7 left 0"),
    ("leaf value 7262026500000007", "err UnexpectedVariant"),
    ("leaf u32 630101", "257 left 0"),
    ("leaf time 7262026500000007", "err UnexpectedVariant"),
    ("leaf time 7262036500000007", "err UnexpectedVariant"),
    ("events 760162006200726307007101", "err UnexpectedVariant" + NONE),
    # CRC-16/KERMIT, high byte first and low byte first; then X25
    ("events 76016200620072630201710163acad00", CRC_WRONG),
    ("events 76016200620072630201710163adac00", CRC_WRONG),
    ("events 7601620062007263020171016373cc00", "close tid=x group=0 abort=0 sig=- | none"),
    ("events 00", "err InvalidTlf TlfLengthUnderflow" + NONE),
    ("events 7601620062007263020171016373cc0000", "close tid=x group=0 abort=0 sig=- | err InvalidTlf TlfLengthUnderflow" + NONE),
    ("push 8 b1b1b1b1b01010101010203ff1b1b1b1b1a015588", "20:payload 010203"),
    ("push 8 b1b" + B1, "-"),
    ("push 8 b1b1b1b1b010101011b1b1b1b02000000", "16:escape 02000000"),
    ("push 8 b1b1b1b1b010101011b1b1b1b03000000", "16:escape 03000000"),
    ("push 1 b1b1b1b1b010101011b00", "10:memory"),
    ("leaf opt_oct 8002", "x left 0"),
    ("leaf opt_u8 8002", "err TlfMismatch"),
    ("leaf opt_u8 8001", "err InvalidTlf TlfLengthUnderflow"),
    ("leaf oct 01", "x left 0"),
    ("leaf value 01", "oct: left 0"),
]
for command, ours, theirs in LENGTHS:
    # the comparison leaves out what differs, and nothing else
    assert over_32_bits(command) == (ours != theirs), command
ROWS, faults = NOISE + LISTS + [(c, o, t, t) for c, o, t in LENGTHS] + [(c, a, a, a) for c, a in FOLLOWED], 0
GIVEN = "\n".join(row[0] for row in ROWS).encode()


def held(name, words, column):
    global faults
    answers = subprocess.run(words, input=GIVEN, capture_output=True, check=True).stdout.decode().splitlines()
    for row, answer in zip(ROWS, answers + ["(nothing)"] * len(ROWS)):
        if answer != row[column]:
            faults += 1
            print(f"{name}: {row[0][:100]}\n  says   {answer}\n  stored {row[column]}")


held("bin/replay", ["bin/replay"], 1)
for checks, name, column in ("0", "oracle", 2), ("1", "checked", 3):
    built = subprocess.run(["sh", "oracle/build"], env={**os.environ, "CHECKED": checks}).returncode
    if built == 0:
        held("the crate, " + name, ["target/oracle/" + name], column)
    elif built == 3:
        print(f"skipped: the crate's own answers beyond the domain ({name})")
    else:
        faults += 1
print(f"{len(ROWS)} inputs of docs/DIFFERENCES.md, {sum(r[1] != r[2] for r in ROWS)} of them answered differently by the crate, {sum(r[3] == PANIC for r in ROWS)} with a panic where it checks for overflow; {faults} faults")
sys.exit(1 if faults else 0)

"""What the scripts here and the tests share: frames by document 01's rules, how a built program is run (scripts/programs.py), and the capacities that the oracle knows."""
import os, re, sys

HERE = os.path.dirname(os.path.abspath(__file__))
sys.dont_write_bytecode = True
sys.path.append(os.path.join(HERE, "..", "scripts"))
from programs import program
REPLAY = os.path.join(HERE, "..", "bin", "replay")
START, ESCAPE = bytes.fromhex("1b1b1b1b01010101"), bytes.fromhex("1b1b1b1b")


def crc(data):
    """CRC X25, bit by bit."""
    reg = 0xFFFF
    for b in data:
        reg ^= b
        for _ in range(8):
            reg = reg >> 1 ^ 0x8408 if reg & 1 else reg >> 1
    return reg ^ 0xFFFF


def escaped(payload):
    out, run = bytearray(), 0
    for b in payload:
        out.append(b)
        run = run + 1 if b == 0x1B else 0
        if run == 4:
            out += ESCAPE
            run = 0
    return bytes(out)


def closed(body, pads):
    """The bytes of a frame up to its end, and the end with the pad count and the right CRC."""
    body = body + ESCAPE + bytes([0x1A, pads])
    c = crc(body)
    return body + bytes([c & 0xFF, c >> 8])


def frame(payload, fill=b"\0\0\0"):
    pads = -len(payload) % 4
    return closed(START + escaped(payload) + fill[:pads], pads)


def hexed(data):
    return data.hex() or "-"


def capacities():
    """Those that at_capacity! of main.rs names, up to 4096: the large ones are for commands written by hand."""
    text = open(os.path.join(HERE, "main.rs"), encoding="utf-8").read()
    listed = re.search(r"with_capacity!\(\$n, \$f, \$a, \[([\d\s]+)\]\)", text).group(1)
    return sorted(c for c in map(int, listed.split()) if c <= 4096)


# kinds of `leaf` that crates numbers and octet_string read; those of crate value are KINDS of messages.py
KINDS = ["u8", "u16", "u32", "u64", "i8", "i16", "i32", "i64", "bool", "oct", "opt_oct"]

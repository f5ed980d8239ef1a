"""exhaustive.py PART..: every short input of a kind, as commands on standard output. Run it so: `python3 oracle/exhaustive.py PART > F; oracle/compare F`. By hand only: the larger parts are some hundred thousand commands.

payloads  all payloads up to 6 bytes over five letters: encode, stream, and the frame pushed
searches  all 9-byte searches over three letters, then finalize or reset
tails     a start and all tails up to 7 bytes over five letters at capacities 0 to 9, then finalize
ends      a start, up to 4 bytes over five letters and an end with pad count 0 to 4, 1a, 1b or 42 and the right CRC, at capacities 0 to 12, then finalize
leaves2   all inputs up to 2 bytes to each leaf
leaves4   all inputs of 3 and 4 bytes over sixteen letters to each leaf
"""
import itertools, sys
import messages
from sml import ESCAPE, KINDS, START, closed, frame, hexed

FIVE = bytes([0x1B, 0x1A, 0x01, 0x00, 0x42])
SIXTEEN = bytes.fromhex("000102074252626365728081" + "83c2e0ff")


def words(letters, sizes):
    for n in sizes:
        yield from map(bytes, itertools.product(letters, repeat=n))


def payloads():
    for p in words(FIVE, range(7)):
        yield "encode " + hexed(p)
        yield "stream " + hexed(p)
        yield "push 12 b%s,f" % frame(p).hex()


def searches():
    for s in words(bytes([0x1B, 0x01, 0x42]), [9]):
        yield "push 8 b%s,f" % s.hex()
        yield "push 8 b%s,r" % s.hex()


def tails():
    for t in words(FIVE, range(8)):
        for cap in range(10):
            yield "push %d b%s,f" % (cap, (START + t).hex())


def ends():
    for d in words(FIVE, range(5)):
        for pads in (*range(5), 0x1A, 0x1B, 0x42):
            for cap in range(13):
                yield "push %d b%s,f" % (cap, closed(START + d, pads).hex())


def leaves2():
    for k in KINDS + messages.KINDS:
        for s in words(bytes(range(256)), range(3)):
            yield "leaf %s %s" % (k, hexed(s))


def leaves4():
    for k in KINDS + messages.KINDS:
        for s in words(SIXTEEN, (3, 4)):
            yield "leaf %s %s" % (k, s.hex())


PARTS = {f.__name__: f for f in (payloads, searches, tails, ends, leaves2, leaves4)}
if __name__ == "__main__":
    for name in sys.argv[1:] or PARTS:
        sys.stdout.writelines(c + "\n" for c in PARTS[name]())

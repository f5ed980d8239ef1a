"""The push rules of document 01 in a few lines of Python, written from its text alone, and the second way of searching from document 02's: what the tests hold the programs to."""
START, ESCAPE = bytes.fromhex("1b1b1b1b01010101"), bytes.fromhex("1b1b1b1b")


def crc(data):
    """CRC X25: reflected, polynomial 1021 hex, start and final xor ffff."""
    reg = 0xFFFF
    for b in data:
        for k in range(8):
            low = (reg ^ b >> k) & 1
            reg = reg >> 1 ^ 0x8408 * low
    return reg ^ 0xFFFF


class Decoder:
    def __init__(self, capacity, way):
        self.capacity, self.way = capacity, way
        self.fresh()

    def fresh(self):
        self.state, self.matched, self.noise, self.raw, self.last = "search", 0, 0, 0, b""

    def begin(self):
        """A frame begins: its start sequence was read."""
        self.state, self.raw, self.waiting, self.stored, self.seen = "body", 8, 0, b"", START

    def refuse(self, event):
        self.fresh()
        return event

    def store(self, data):
        if len(self.stored) + len(data) > self.capacity:
            return False
        self.stored += data
        return True

    def push(self, b):
        """The event of a byte in words, or None."""
        if self.state == "done":
            self.fresh()
        self.raw += 1
        if self.state == "search":
            return self.search(b)
        self.seen += bytes([b])
        return self.body(b) if self.state == "body" else self.judged(b)

    def search(self, b):
        if self.way == 2:
            # the last eight bytes decide, and all before them are noise
            self.last = (self.last + bytes([b]))[-8:]
            self.matched, self.noise = (8, self.raw - 8) if self.last == START else (0, self.raw)
        elif b == (0x1B if self.matched < 4 else 0x01):
            self.matched += 1
        else:
            self.noise, self.matched = self.noise + self.matched + 1, 0
        if self.matched == 8:
            noise = self.noise
            self.begin()
            return "discarded %d" % noise if noise else None

    def body(self, b):
        if b == 0x1B:
            self.waiting += 1
            if self.waiting == 4:
                self.state, self.four = "escape", b""
            return None
        data = b"\x1b" * self.waiting + bytes([b])
        self.waiting = 0
        return None if self.store(data) else self.refuse("memory")

    def judged(self, b):
        if not self.store(bytes([b])):
            return self.refuse("memory")
        self.four += bytes([b])
        if len(self.four) < 4:
            return None
        missing = -len(self.stored) % 4
        if self.four == ESCAPE:
            self.state, self.waiting = "body", 0
        elif self.four == b"\1\1\1\1":
            lost = self.raw - 8
            self.begin()
            return "discarded %d" % lost
        elif self.four[0] == 0x1A:
            return self.end()
        elif missing and self.four[:missing] == b"\x1b" * missing and self.four[missing] == 0x1A:
            self.four = self.four[missing:]
        else:
            return self.refuse("escape " + self.four.hex())

    def end(self):
        pads, read, computed = self.four[1], self.four[2] + 256 * self.four[3], crc(self.seen[:-2])
        size = len(self.stored) - 4
        if read == computed and size % 4 == 0 and pads <= min(3, size):
            self.state = "done"
            return ("payload " + self.stored[: size - pads].hex()).strip()
        return self.refuse("invalid %04x %04x %s %d" % (read, computed, "misaligned" if size % 4 else "aligned", pads))

    def finalize(self):
        idle = self.state == "done" or (self.state == "search" and not self.noise and not self.matched)
        lost = self.raw
        self.fresh()
        return None if idle else "discarded %d" % lost

    def reset(self):
        lost = 0 if self.state == "done" else self.raw
        self.fresh()
        return "reset %d" % lost


def events(capacity, data, way=1):
    """The events of a capture to its end, finalize's with it."""
    d = Decoder(capacity, way)
    said = [d.push(b) for b in data] + [d.finalize()]
    return [e for e in said if e]


def answer(capacity, ops, way=1):
    """What bin/replay answers to `push`, or to `push2` in the second way, from a list of bytes, "f" and "r"."""
    d, said, index = Decoder(capacity, way), [], 0
    for op in ops:
        for e in map(d.push, op) if isinstance(op, bytes) else [d.finalize() if op == "f" else d.reset()]:
            index += 1
            if e:
                said.append("%d:%s" % (index, e))
    return ";".join(said) or "-"

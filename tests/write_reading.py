"""A writer for messages (document 02, Q-1), written from the document and from what was decided where it leaves room, not from the code: what tests/test_writer.py holds the program to. Fields go in, bytes or a refusal come out, for any place, any state of a list's writer, any spans and any output.

An event is a tuple in the order in which `events` of bin/replay prints its fields; a string is bytes, or a span of the lent strings; what is absent is None. WRONG has wrong writers, each with one thing changed, which a test must tell from the right one.

`python3 tests/write_reading.py` holds it, and each wrong writer, to the request's vectors.
"""
import collections, re, sys

sys.dont_write_bytecode = True
from places_reading import TABLE, Reading

STRING, BOOLEAN, INTEGER, UNSIGNED, LIST = 0, 4, 5, 6, 7
BAD, NUMBER, SPAN, SHORT = 4, 17, 16, 18
FRESH = 0xFFFF  # the CRC register before the first byte
WIDTHS = (1, 2, 4, 8)

Span = collections.namedtuple("Span", "start len")
Open = collections.namedtuple("Open", "tid group abort codepage client file server time version")
Close = collections.namedtuple("Close", "tid group abort sig")
List = collections.namedtuple("List", "tid group abort client server name time n")
Entry = collections.namedtuple("Entry", "name status time unit scaler value sig")
End = collections.namedtuple("End", "sig time")
# a list's writer: `left` is None where it has ended
Writing = collections.namedtuple("Writing", "place left crc")

# ---- events in words, as `events` of bin/replay prints them

# the letters of docs/REPLAY.md: S a string, O one that may be absent, T a time, U a status, V a value; B a byte, b one that may be absent, i a scaler, N a number
FORMS = {
    "open": (Open, "tid=S group=B abort=B codepage=O client=O file=S server=S time=T version=b"),
    "close": (Close, "tid=S group=B abort=B sig=O"),
    "list": (List, "tid=S group=B abort=B client=O server=S name=O time=T n=N"),
    "entry": (Entry, "name=S status=U time=T unit=b scaler=i value=V sig=O"),
    "end": (End, "sig=O time=T"),
}
WORDS = {form: word for word, (form, _) in FORMS.items()}


def field(letter, text):
    if text == "-":
        return None
    if letter in "SO":
        return bytes.fromhex(text[1:])
    if letter == "T":
        return int(text[4:])
    kind, _, rest = text.partition(":")
    if letter == "U":
        return kind, int(rest)
    if letter == "V":
        return kind, bytes.fromhex(rest) if kind == "oct" else int(rest.removeprefix("sec:"))
    return int(text)


def event(line):
    word, *fields = line.split(" ")
    form, letters = FORMS[word]
    return form(*(field(letter[-1], one.split("=", 1)[1]) for letter, one in zip(letters.split(" "), fields, strict=True)))


def shown(letter, x):
    if x is None:
        return "-"
    if letter in "SO":
        return "x" + x.hex()
    if letter == "T":
        return "sec:%d" % x
    if letter in "UV":
        kind, x = x
        return kind + (":" + x.hex() if kind == "oct" else ":sec:%d" % x if kind == "list" else ":%d" % x)
    return str(x)


def line(e):
    word = WORDS[type(e)]
    return " ".join([word] + ["%s=%s" % (f.split("=")[0], shown(f[-1], x)) for f, x in zip(FORMS[word][1].split(" "), e)])


def meaning(text):
    """Of a value or status the kind and number count, not the width."""
    return re.sub(r"(status|value)=([ui])\d+:", r"\1=\2:", text)


# ---- what is written


def register(reg, data):
    for b in data:
        reg = reg >> 8 ^ TABLE[(reg ^ b) & 0xFF]
    return reg


class Writer:
    """How each field is written. A wrong writer has one method changed."""

    def own(self, kind, n, k):
        """What k length bytes say: a length counts itself, but for a list."""
        return n if kind == LIST else n + k

    def head(self, kind, n):
        """Type and length: the shortest that counts itself."""
        k = 1
        while self.own(kind, n, k) >= 16**k:
            k += 1
        digits = [self.own(kind, n, k) >> 4 * d & 15 for d in reversed(range(k))]
        return bytes(d | 0x80 * (i + 1 < k) | (kind << 4) * (i == 0) for i, d in enumerate(digits))

    def fewest(self, x, signed, width):
        """How many bytes: the fewest that read back the same, at least one."""
        n = 1
        while not (-(256**n) // 2 <= x < 256**n // 2 if signed else x < 256**n):
            n += 1
        return n

    def unsigned(self, x, width=8):
        n = self.fewest(x, False, width)
        return self.head(UNSIGNED, n) + x.to_bytes(n, "big")

    def signed(self, x, width=8):
        n = self.fewest(x, True, width)
        return self.head(INTEGER, n) + (x % 256**n).to_bytes(n, "big")

    def string(self, s):
        return self.head(STRING, len(s)) + s

    def present_empty(self):
        return b"\x80\x02"

    def absent(self):
        return b"\x01"

    def optional(self, x, write):
        if x is None:
            return self.absent()
        return self.present_empty() if x == b"" else write(x)

    def opt_string(self, s):
        return self.optional(s, self.string)

    def time(self, seconds):
        return self.head(LIST, 2) + self.unsigned(1, 1) + self.unsigned(seconds, 4)

    def opt_time(self, t):
        return self.optional(t, self.time)

    def status(self, s):
        return self.unsigned(s[1], int(s[0][1:]) // 8)

    def list_time(self, seconds):
        return self.head(LIST, 2) + self.unsigned(1, 1) + self.time(seconds)

    def value(self, v):
        kind, x = v
        if kind == "bool":
            return self.head(BOOLEAN, 1) + bytes([x])
        if kind == "oct":
            return self.string(x)
        if kind == "list":
            return self.list_time(x)
        return (self.signed if kind[0] == "i" else self.unsigned)(x, int(kind[1:]) // 8)

    def byte(self, x):
        return self.unsigned(x, 1)

    def start(self, e):
        """A message up to what its end, or its entries, follow."""
        tag, n = {Open: (0x101, 6), Close: (0x201, 1), List: (0x701, 7)}[type(e)]
        out = self.head(LIST, 6) + self.string(e.tid) + self.byte(e.group) + self.byte(e.abort) + self.head(LIST, 2) + self.unsigned(tag, 4) + self.head(LIST, n)
        if type(e) is Open:
            return out + self.opt_string(e.codepage) + self.opt_string(e.client) + self.string(e.file) + self.string(e.server) + self.opt_time(e.time) + self.optional(e.version, self.byte)
        if type(e) is Close:
            return out + self.opt_string(e.sig)
        return out + self.opt_string(e.client) + self.string(e.server) + self.opt_string(e.name) + self.opt_time(e.time) + self.head(LIST, e.n)

    def entry(self, e):
        fields = self.optional(e.status, self.status) + self.opt_time(e.time) + self.optional(e.unit, self.byte) + self.optional(e.scaler, lambda x: self.signed(x, 1))
        return self.head(LIST, 7) + self.string(e.name) + fields + self.value(e.value) + self.opt_string(e.sig)

    def list_end(self, e):
        return self.opt_string(e.sig) + self.opt_time(e.time)

    def swapped(self, c):
        return c >> 8 | (c & 0xFF) << 8

    def end_byte(self):
        return b"\0"

    def sum_length(self, c):
        return self.unsigned(c, 2)

    def trailer(self, reg):
        """CRC, its bytes swapped, and end byte, behind the bytes that the register has seen."""
        return self.sum_length(self.swapped(reg ^ 0xFFFF)) + self.end_byte()

    # ---- calls

    def beyond(self, out, place):
        return place > len(out)

    def due(self, e, w):
        """An entry while some are left, an end when none is; a message's start always."""
        if type(e) is Entry:
            return w.left is not None and w.left > 0
        return type(e) is not End or w.left == 0

    def of_part(self, w):
        """The register that a part of a list goes on with."""
        return w.crc

    def part(self, e, w):
        """The bytes of a call, and the writer behind them."""
        if type(e) is Entry:
            b = self.entry(e)
            return b, Writing(w.place + len(b), None if w.left is None else w.left - 1, register(self.of_part(w), b))
        if type(e) is End:
            b = self.list_end(e)
            b += self.trailer(register(self.of_part(w), b))
            return b, Writing(w.place + len(b), None, 0)
        b = self.start(e)
        reg = register(FRESH, b)
        if type(e) is List:
            return b, Writing(w.place + len(b), e.n, reg)
        b += self.trailer(reg)
        return b, Writing(w.place + len(b), None, 0)

    ORDER = BAD, NUMBER, SPAN, SHORT

    def refusal(self, out, strings, e, w):
        """The first of the four that is true, or 0; `strings` is what the spans are of. Without good spans there are no bytes to find room for."""
        good = all(within(s, strings) for s in strings_of(e))
        true = {BAD: self.beyond(out, w.place), NUMBER: not self.due(e, w), SPAN: not good}
        true[SHORT] = good and len(self.part(bound(e, strings), w)[0]) > len(out) - w.place
        return next((number for number in self.ORDER if true[number]), 0)

    def refused(self, number, out, strings, e, w):
        """What a refusal leaves of the output."""
        return out

    def call(self, out, strings, e, w):
        """The answer, the output and the writer: a refusal leaves both."""
        number = self.refusal(out, strings, e, w)
        if number:
            return number, self.refused(number, out, strings, e, w), w
        b, after = self.part(bound(e, strings), w)
        return 0, out[: w.place] + b + out[w.place + len(b) :], after

    # ---- a whole file, and the command `rewrite`

    def file(self, events):
        """Messages one behind the other; each list has as many entries as it announces."""
        out, w = b"", Writing(0, None, 0)
        for e in events:
            assert self.due(e, w)
            b, w = self.part(e, w)
            out += b
        return out

    def rewrite(self, command):
        _, room, at, ops, data, *most = command.split(" ")
        data = unhex(data)
        read, strings, out = placed(data), data[: int(*most)] if most else data, b"\x5a" * int(room)
        place, listed, taken, said = int(at), Writing(int(at), None, 0), 0, []
        for op in ops:
            found = taken > 0 if op == "+" else taken < len(read)
            taken += found and op != "+"
            if op == "-":
                continue
            if not found:
                said.append("no event")
                continue
            e = read[taken - 1]
            of_list = type(e) in (Entry, End)
            number, out, after = self.call(out, strings, e, listed if of_list else Writing(place, None, 0))
            said.append("refused %d" % number if number else "to %d" % after.place)
            if not number:
                place = after.place
                listed = after if of_list or type(e) is List else listed
        return " | ".join(said + [out.hex() or "-"])


# ---- spans


def strings_of(e):
    fields = [*e, e.value[1]] if type(e) is Entry else e
    return [x for x in fields if isinstance(x, (bytes, Span))]


def within(s, strings):
    return isinstance(s, bytes) or s.start + s.len <= len(strings)


def bound(e, strings):
    """The event with the bytes that its spans mean."""
    part = lambda x: strings[x.start : x.start + x.len] if isinstance(x, Span) else x
    e = type(e)(*map(part, e))
    return e._replace(value=(e.value[0], part(e.value[1]))) if type(e) is Entry else e


class Spans(Reading):
    """The events of a file, with the spans of the strings of each, in their order."""

    def __init__(self, data):
        self.spans, self.strings = [], []
        super().__init__(data)

    def behind(self, n):
        self.strings.append(Span(self.at - n, n))

    def string(self):
        said = super().string()
        self.behind(len(said) // 2)
        return said

    def value(self):
        said = super().value()
        if said.startswith("oct:"):
            self.behind(len(said) // 2 - 2)
        return said

    def event(self, text, *fields):
        super().event(text, *fields)
        self.spans.append(self.strings)
        self.strings = []


def placed(data):
    """The events up to the first refusal, their strings as spans of the input."""
    read = Spans(data)
    out = []
    for text, spans in zip(read.events, read.spans, strict=True):
        spans = iter(spans)
        e = event(text)
        fields = {k: next(spans) if isinstance(x, bytes) else (x[0], next(spans)) if k == "value" and x[0] == "oct" else x for k, x in e._asdict().items()}
        assert next(spans, None) is None
        out.append(e._replace(**fields))
    return out


def unhex(text):
    return bytes.fromhex(text.replace("-", ""))


# ---- wrong writers: what is changed, by name


def wrong(**methods):
    return type("Wrong", (Writer,), methods)()


RIGHT = Writer()
WRONG = {
    "length_counts_what_follows": wrong(own=lambda self, kind, n, k: n),
    "two_length_bytes_one_counted": wrong(own=lambda self, kind, n, k: n if kind == LIST else n + 1),
    "list_length_counts_itself": wrong(own=lambda self, kind, n, k: n + k),
    "length_in_two_bytes_at_15": wrong(head=lambda self, kind, n: b"\x81\x01" if (kind, n) == (STRING, 14) else Writer.head(self, kind, n)),
    "present_and_empty_is_absent": wrong(present_empty=lambda self: b"\x01"),
    "absent_is_00": wrong(absent=lambda self: b"\0"),
    "mandatory_empty_is_80_02": wrong(string=lambda self, s: Writer.string(self, s) if s else b"\x80\x02"),
    "numbers_in_full_width": wrong(fewest=lambda self, x, signed, width: width),
    "zero_in_no_byte": wrong(fewest=lambda self, x, signed, width: Writer.fewest(self, x, signed, width) if x or signed else 0),
    "sign_bit_forgotten": wrong(fewest=lambda self, x, signed, width: Writer.fewest(self, abs(x), False, width)),
    "bare_time_written": wrong(time=lambda self, t: self.head(UNSIGNED, 4) + t.to_bytes(4, "big")),
    "list_time_as_time": wrong(list_time=lambda self, t: self.time(t)),
    "crc_not_swapped": wrong(swapped=lambda self, c: c),
    "crc_always_two_bytes": wrong(sum_length=lambda self, c: self.head(UNSIGNED, 2) + c.to_bytes(2, "big")),
    "end_byte_01": wrong(end_byte=lambda self: b"\1"),
    "entry_beyond_the_number": wrong(due=lambda self, e, w: w.left is not None if type(e) is Entry else Writer.due(self, e, w)),
    "end_before_the_number": wrong(due=lambda self, e, w: w.left is not None if type(e) is End else Writer.due(self, e, w)),
    "end_may_come_twice": wrong(due=lambda self, e, w: not w.left if type(e) is End else Writer.due(self, e, w)),
    "room_before_number": wrong(ORDER=(BAD, SHORT, NUMBER, SPAN)),
    "room_before_spans": wrong(refusal=lambda self, out, strings, e, w: SHORT if Writer.refusal(self, out, strings, e, w) == SPAN and len(self.part(bound(e, strings), w)[0]) > len(out) - w.place else Writer.refusal(self, out, strings, e, w)),
    "spans_before_number": wrong(ORDER=(BAD, SPAN, NUMBER, SHORT)),
    "number_before_place": wrong(ORDER=(NUMBER, BAD, SPAN, SHORT)),
    "place_at_the_end_is_beyond": wrong(beyond=lambda self, out, place: place >= len(out)),
    "written_up_to_the_end": wrong(refused=lambda self, number, out, strings, e, w: (out[: w.place] + self.part(bound(e, strings), w)[0])[: len(out)] if number == SHORT else out),
    "crc_of_the_last_part": wrong(of_part=lambda self, w: FRESH),
}

# ---- the request's vectors

NAMED = {
    "CLOSE": "7603dd4362006200726302017101630f5b00",
    "OPEN": "7603dd43620062007263010176010102660273010163a2bc00",
    "ONE": "7603dd4362006200726307017701027301017177026e010101016207010101632bfc00",
}
# fields, and the message that is written
FIELDS = """
close tid=xdd43 group=0 abort=0 sig=-
    CLOSE
close tid=xdd43 group=0 abort=0 sig=x
    7603dd43620062007263020171800263d2be00
close tid=x0075 group=0 abort=0 sig=-
    7603007562006200726302017101625b00
close tid=x00bdfb group=0 abort=0 sig=-
    760400bdfb62006200726302017101620000
open tid=x01 group=5 abort=255 codepage=x client=x63 file=x server=x737276 time=sec:1000000 version=1
    760201620562ff7263010176800202630104737276726201640f4240620163cd6000
open tid=x group=0 abort=0 codepage=- client=- file=x server=x time=- version=-
    760162006200726301017601010101010163c83f00
list tid=xdd43 group=0 abort=0 client=- server=x73 name=x time=sec:0 n=0 | end sig=x time=sec:65536
    7603dd43620062007263070177010273800272620162007080027262016401000063123e00
list tid=xdd43 group=0 abort=0 client=x server=x73 name=- time=- n=3 | entry name=x0100010800ff status=u32:256 time=- unit=30 scaler=-1 value=i64:-129 sig=- | entry name=x status=- time=sec:256 unit=- scaler=- value=bool:1 sig=x | entry name=x000102030405060708090a0b0c0d0e status=- time=- unit=0 scaler=0 value=list:sec:5 sig=- | end sig=- time=-
    7603dd436200620072630701778002027301017377070100010800ff63010001621e52ff53ff7f01770101726201630100010142018002778101000102030405060708090a0b0c0d0e010162005200726201726201620501010163c0e700
close tid=xdd43 group=0 abort=0 sig=x0000000000000000000000000000
    7603dd436200620072630201710f0000000000000000000000000000630fc500
close tid=xdd43 group=0 abort=0 sig=x000000000000000000000000000000
    7603dd436200620072630201718101000000000000000000000000000000636c3400
"""
# not the request's: a Boolean that is false, an empty string as a value, the numbers about each bound, an open as OPEN has it
MORE_FIELDS = """
open tid=xdd43 group=0 abort=0 codepage=- client=- file=x66 server=x73 time=- version=-
    OPEN
list tid=xdd43 group=0 abort=0 client=- server=x73 name=- time=- n=1 | entry name=x6e status=- time=- unit=- scaler=- value=u8:7 sig=- | end sig=- time=-
    ONE
"""
# calls and refusals; 5a*20 is twenty times 5a, and + puts one behind the other
CALLS = """
rewrite 35 0 ... ONE                to 19 | to 29 | to 35 | ONE
rewrite 38 2 ... ONE                to 21 | to 31 | to 37 | 5a*2+ONE+5a*1
rewrite 34 0 ... ONE                to 19 | to 29 | refused 18 | 7603dd4362006200726307017701027301017177026e01010101620701+5a*5
rewrite 35 0 .-. ONE                to 19 | refused 17 | 7603dd43620062007263070177010273010171+5a*16
rewrite 35 0 ..+. ONE               to 19 | to 29 | refused 17 | to 35 | ONE
rewrite 35 0 ...+ ONE               to 19 | to 29 | to 35 | refused 17 | ONE
rewrite 4 5 . CLOSE                 refused 4 | 5a*4
rewrite 4 4 . CLOSE                 refused 18 | 5a*4
rewrite 35 0 -. ONE                 refused 17 | 5a*35
rewrite 19 0 .-. ONE                to 19 | refused 17 | 7603dd43620062007263070177010273010171
rewrite 35 0 .. ONE 20              to 19 | refused 16 | 7603dd43620062007263070177010273010171+5a*16
rewrite 35 0 -. ONE 3               refused 17 | 5a*35
rewrite 17 0 . CLOSE 3              refused 16 | 5a*17
rewrite 0 0 . CLOSE 3               refused 16 | -
rewrite 33 0 ... 76030000620062007263070177010101017177010101010142a4010101629500    to 18 | to 27 | to 33 | 7603000062006200726307017701010101717701010101014201010101636a5900
rewrite 49 0 ... 7603dd436200620072630701770102730165000001007177026e65000000077262016500000005621e52ff59ffffffffffffff7f8002010163631600    to 24 | to 43 | to 49 | 7603dd43620062007263070177010273017262016301007177026e62077262016205621e52ff53ff7f80020101639b1100
rewrite 40 0 .. CLOSE+CLOSE         to 18 | to 36 | CLOSE+CLOSE+5a*4
rewrite 30 0 . f0068003abe00300e00305f0026500000201f0018003cde0041acb00    to 18 | 7602ab62006205726302017102cd63115e00+5a*12
"""
# not the request's: places beyond, no event, an open and a close between a list's calls, a second list, no strings at all, more strings than there are, an input that is refused
MORE_CALLS = """
rewrite 4 6 . CLOSE                       refused 4 | 5a*4
rewrite 0 18446744073709551615 . CLOSE    refused 4 | -
rewrite 0 18446744073709551615 -. ONE     refused 4 | -
rewrite 0 0 - CLOSE                       -
rewrite 2 0 +..+ -                        no event | no event | no event | no event | 5a*2
rewrite 18 0 ..+ CLOSE                    to 18 | no event | refused 18 | CLOSE
rewrite 53 0 .---.+ ONE+CLOSE             to 19 | no event | to 37 | 7603dd43620062007263070177010273010171+CLOSE+5a*16
rewrite 53 0 .--.+ ONE+CLOSE              to 19 | to 37 | refused 18 | 7603dd43620062007263070177010273010171+CLOSE+5a*16
rewrite 54 0 -.-.... CLOSE+ONE+OPEN       to 19 | refused 17 | to 44 | no event | no event | 7603dd43620062007263070177010273010171+OPEN+5a*10
rewrite 60 0 ..+--.. ONE+CLOSE            to 19 | to 29 | refused 17 | no event | no event | 7603dd4362006200726307017701027301017177026e01010101620701+5a*31
rewrite 77 0 ..--.+... ONE+OPEN+ONE       to 19 | to 29 | to 48 | to 67 | to 77 | refused 18 | no event | 7603dd4362006200726307017701027301017177026e010101016207017603dd436200620072630701770102730101717603dd4362006200726307017701027301017177026e01010101620701
rewrite 18 0 . CLOSE 18                   to 18 | CLOSE
rewrite 18 0 . CLOSE 19                   to 18 | CLOSE
rewrite 18 0 . CLOSE 0                    refused 16 | 5a*18
rewrite 20 0 .. 760101                    no event | no event | 5a*20
rewrite 20 0 .. CLOSE+00                  to 18 | no event | CLOSE+5a*2
"""


def spelled(text):
    """The names and the repeated bytes of a table, in hex."""
    for name, data in NAMED.items():
        text = re.sub(r"\b%s\b" % name, data, text)
    return re.sub(r"5a\*(\d+)", lambda m: "5a" * int(m[1]), text).replace("+5a", "5a")


def joined(text):
    """A sum of bytes is one; a step `+` stays."""
    return re.sub(r"(?<=[0-9a-fA-Z])\+(?=[0-9a-fA-Z])", "", text)


def fields_of(table):
    for given, wanted in re.findall(r"^(\w.*)\n    (.*)$", table, re.M):
        yield given.split(" | "), spelled(wanted)


def calls_of(table):
    for row in table.strip().split("\n"):
        yield tuple(joined(spelled(word)) for word in re.split("  +", row))


def disagreements(writer=RIGHT):
    """Where a writer does not say what a vector says."""
    faults = []
    for lines, wanted in [*fields_of(FIELDS), *fields_of(MORE_FIELDS)]:
        said = writer.file(map(event, lines)).hex()
        if said != wanted:
            faults.append(f"{' | '.join(lines)}\n  wanted   {wanted}\n  written  {said}")
    for command, wanted in [*calls_of(CALLS), *calls_of(MORE_CALLS)]:
        said = writer.rewrite(command)
        if said != wanted:
            faults.append(f"{command}\n  wanted   {wanted}\n  answered {said}")
    return faults


if __name__ == "__main__":
    faults = disagreements()
    faults += [f"{name}: says what every vector says" for name, writer in WRONG.items() if not disagreements(writer)]
    rows = len(list(fields_of(FIELDS))) + len(list(calls_of(CALLS)))
    print("\n".join([*faults[:8], f"{rows} vectors of the request; {len(WRONG)} wrong writers; {len(faults)} faults"]))
    sys.exit(1 if faults else 0)

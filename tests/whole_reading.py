"""One whole message in one call (document 02, Q-13), written from the documents and from what was decided where they leave room, not from the code:
what tests/test_whole.py holds the program to. Bytes, a place and a table of 32-bit numbers come in; an answer and the table that the call leaves come out.

What a message holds is a row of words here, one for each element, and one loop goes through them from the left. The rows of entries are collected up to the
end byte, and only then is the table looked at. WRONG has wrong readers, each with one thing changed, which a test must tell from the right one.

`python3 tests/whole_reading.py` holds it, and each wrong reader, to the request's vectors, to some more, and to the longest inputs.
"""
import collections, sys

sys.dont_write_bytecode = True
from places_reading import crc
from write_reading import NAMED, RIGHT as WRITER, Close, End, Entry, List, Open, line as in_words

STRING, BOOLEAN, INTEGER, UNSIGNED, LIST = 0, 4, 5, 6, 7
LIMIT = 1048576  # bytes of an input
TOP64 = 2**64 - 1
FILL = 0x77777777  # what the command `message` fills its table with
ROW = 4  # numbers of a row: the name's start and length, the entry's start and length

# what is accepted: the fields of the start and, of a list, of the end; how many rows; the place behind the end byte
Whole = collections.namedtuple("Whole", "start end rows next")
# a message as it was read, with its entries' fields beside their rows
Message = collections.namedtuple("Message", "start entries rows end next")


class Refused(Exception):
    """What is refused: the number; of 10 to 15 the place, of 11 the kind. `begun` is where a 10's element begins, which no answer tells."""

    def __init__(self, number, place=None, kind=None, begun=None):
        super().__init__(number, place, kind)
        self.number, self.place, self.kind, self.begun = number, place, kind, begun


# ---- elements

Element = collections.namedtuple("Element", "kind n content")  # its type, its length without the length bytes, and the place behind those


def element(s, at):
    """The element at a place, by its length bytes alone. A length over 32 bits is refused at the byte that makes it so, behind that byte's type (Q-2)."""
    if at >= len(s):
        raise Refused(10, len(s), begun=at)
    kind, length, behind = s[at] >> 4 & 7, s[at] & 15, at + 1
    if kind not in (STRING, BOOLEAN, INTEGER, UNSIGNED, LIST):
        raise Refused(11, at, "TlfInvalidTy")
    if kind == BOOLEAN and s[at] >> 7:
        raise Refused(11, at, "TlfReserved")
    while s[behind - 1] >> 7:
        if behind == len(s):
            raise Refused(10, len(s), begun=at)
        if s[behind] >> 4 & 7:
            raise Refused(11, at, "TlfNextByteTypeMismatch")
        length = 16 * length + s[behind] % 16
        if length >= 2**32:
            raise Refused(11, at, "TlfLengthOverflow")
        behind += 1
    if kind != LIST:
        length -= behind - at
    if length < 0:
        raise Refused(11, at, "TlfLengthUnderflow")
    return Element(kind, length, behind)


def number(kind, width):
    return lambda e: e.kind == kind and 1 <= e.n <= width


def list_of(n):
    return lambda e: (e.kind, e.n) == (LIST, n)


pair, bare, truth = list_of(2), lambda e: (e.kind, e.n) == (UNSIGNED, 4), lambda e: (e.kind, e.n) == (BOOLEAN, 1)
# what an element must be where a word stands; another is 12. A time may be bare, and a list of 2 a value, as in the crate
TAKES = {
    "string": lambda e: e.kind == STRING,
    "u8": number(UNSIGNED, 1),
    "u16": number(UNSIGNED, 2),
    "u32": number(UNSIGNED, 4),
    "i8": number(INTEGER, 1),
    "status": number(UNSIGNED, 8),
    "tag": number(UNSIGNED, 4),
    "one": number(UNSIGNED, 1),
    "time": lambda e: pair(e) or bare(e),
    "value": lambda e: pair(e) or truth(e) or e.kind == STRING or number(INTEGER, 8)(e) or number(UNSIGNED, 8)(e),
    "entries": lambda e: e.kind == LIST,
    **{"[%d" % n: list_of(n) for n in (1, 2, 6, 7)},
}
# what follows a list that stands for a field
INSIDE = {"time": ("one", "u32"), "value": ("one", "time")}
# the numbers that a word may be; another is 13
KNOWN = {"one": (1,), "tag": (0x101, 0x201, 0x701)}


def meant(word, kind, content):
    """What the bytes of an element say."""
    if kind == STRING:
        return ("oct", content) if word == "value" else content
    if kind == BOOLEAN:
        return "bool", int(any(content))
    x = int.from_bytes(content, "big", signed=kind == INTEGER)
    if word in ("value", "status"):
        width = next(w for w in (1, 2, 4, 8) if len(content) <= w)
        return "%s%d" % ("i" if kind == INTEGER else "u", 8 * width), x
    return x


# ---- fields

Field = collections.namedtuple("Field", "x place start len")  # what it says, its first length byte, and where its bytes stand

# `[n` is a list of n, which is no field itself; a word with ? may be absent
HEAD = "[6 string u8 u8 [2 tag".split()
BODY = {
    0x101: (Open, "[6 string? string? string string time? u8?".split()),
    0x201: (Close, "[1 string?".split()),
    0x701: (List, "[7 string? string string? time? entries".split()),
}
ENTRY = "[7 string status? time? u8? i8? value string?".split()
END = "string? time?".split()
SUM = ["u16"]


def fields(s, at, words):
    """The fields that a row of words names, and the place behind them."""
    found = []
    for word in words:
        if word[-1] == "?" and s[at : at + 1] == b"\x01":
            found.append(Field(None, at, at + 1, 0))
            at += 1
            continue
        word = word.rstrip("?")
        wanted, listed = [word], False
        while wanted:
            now, e = wanted.pop(0), element(s, at)
            if not TAKES[now](e):
                raise Refused(12, at)
            if e.kind == LIST:
                wanted += INSIDE.get(now, ())
                listed = listed or now == "value"
                field, at = Field(e.n, at, e.content, 0), e.content
                continue
            if e.n > len(s) - e.content:
                raise Refused(10, len(s), begun=at)
            x = meant(now, e.kind, s[e.content : e.content + e.n])
            if x not in KNOWN.get(now, (x,)):
                raise Refused(13, at)
            field, at = Field(("list", x) if listed else x, at, e.content, e.n), e.content + e.n
        if word[0] != "[":
            found.append(field)
    return found, at


def said(found):
    return [field.x for field in found]


# ---- a message, and the call


class Reader:
    """A whole message, then the room for its rows. A wrong reader has one method changed; those that do nothing are there for wrong ones."""

    def before(self, s, at):
        """What is judged before the first byte: 9, of the whole input, then 4."""
        if len(s) > LIMIT:
            raise Refused(9)
        if at > len(s):
            raise Refused(4)

    def begun(self, form, tag):
        """A message of any kind."""

    def announced(self, n, table):
        """So many entries are said to follow."""

    def row(self, at, name, behind):
        """The numbers of the entry between two places: its span begins at its own first length byte, its name's behind those."""
        return [name.start, name.len, at, behind - at]

    def met(self, rows, table):
        """One more entry is read."""

    def all_met(self, rows, table):
        """All entries and the end's fields are read."""

    def summed(self, s, start, at):
        """The CRC of the message up to its own length byte."""
        return crc(s[start:at])

    def trailer(self, s, start, at):
        """The place behind the end byte, which is judged before the CRC; the CRC's bytes are swapped."""
        (read,), behind = fields(s, at, SUM)
        if behind == len(s):
            raise Refused(10, len(s), begun=behind)
        if s[behind] != 0:
            raise Refused(15, behind)
        if read.x != int.from_bytes(self.summed(s, start, at).to_bytes(2, "little"), "big"):
            raise Refused(14, at)
        return behind + 1

    def message(self, s, start, table=()):
        """One message, from its first byte to its end byte."""
        (*head, tag), at = fields(s, start, HEAD)
        form, words = BODY[tag.x]
        self.begun(form, tag)
        body, at = fields(s, at, words)
        first, entries, rows, end = form(*said(head), *said(body)), [], [], None
        if form is List:
            self.announced(first.n, table)
            while len(rows) < first.n:
                entry, behind = fields(s, at, ENTRY)
                rows.append(self.row(at, entry[0], behind))
                entries.append(Entry(*said(entry)))
                at = behind
                self.met(rows, table)
            end, at = fields(s, at, END)
            end = End(*said(end))
        self.all_met(rows, table)
        return Message(first, entries, rows, end, self.trailer(s, start, at))

    def behind(self, s, m):
        """What stands behind the message is not looked at."""

    def placed(self, m, at):
        """Places are counted from the input's start."""
        return m

    def room(self, table):
        """How many whole rows a table holds."""
        return len(table) // ROW

    def too_many(self, rows, table):
        raise Refused(20)

    def fill(self, table, rows):
        """The rows from the first number on, and the rest as it was."""
        flat = [x for row in rows for x in row][: len(table)]
        table[: len(flat)] = flat

    def answer(self, s, at, table):
        self.before(s, at)
        m = self.placed(self.message(s, at, table), at)
        self.behind(s, m)
        if len(m.rows) > self.room(table):
            self.too_many(m.rows, table)
        self.fill(table, m.rows)
        return Whole(m.start, m.end, len(m.rows), m.next)

    def refusal(self, f, at):
        return f

    def read_message(self, s, at, table):
        """The answer, and the table that the call leaves."""
        table = list(table)
        try:
            return self.answer(s, at, table), table
        except Refused as f:
            return self.refusal(f, at), table


RIGHT = Reader()


def read_message(input, at, table):
    return RIGHT.read_message(input, at, table)


def message_at(input, at):
    """The message at a place with its entries' fields, whatever room there is; or what is refused."""
    try:
        RIGHT.before(input, at)
        return RIGHT.message(input, at)
    except Refused as f:
        return f


# ---- an answer in words, as the command `message N AT HEX` of bin/replay gives it


def in_numbers(table):
    return ",".join("_" if x == FILL else str(x) for x in table) or "-"


def line(answer, table):
    if isinstance(answer, Refused):
        kind, place = answer.kind and " " + answer.kind or "", "" if answer.place is None else " @%d" % answer.place
        parts = ["refused %d%s%s" % (answer.number, kind, place)]
    else:
        parts = [in_words(e) for e in (answer.start, answer.end) if e is not None] or ["none"]
        parts.append("rows %d next %d" % (answer.rows, answer.next))
    return " | ".join([*parts, in_numbers(table)])


def asked(room, at, data, reader=RIGHT):
    """What a reader answers to `message room at data`."""
    return line(*reader.read_message(data, at, [FILL] * room))


# ---- wrong readers: what is changed, by name


def wrong(**methods):
    return type("Wrong", (Reader,), methods)()


def refuse(number, place=None):
    raise Refused(number, place)


def before_by(*judged):
    """Numbers that are judged before the first byte, in this order, each by its test."""

    def before(self, s, at):
        for number, true in judged:
            if true(s, at):
                refuse(number, len(s) if number == 10 else None)

    return before


def no_message(self, s, at, table):
    return Whole(None, None, 0, at) if at == len(s) <= LIMIT else Reader.answer(self, s, at, table)


def next_begun(self, s, m):
    """As the event reader's call that judges a trailer begins the next message too."""
    if m.next < len(s):
        (*_, tag), at = fields(s, m.next, HEAD)
        fields(s, at, BODY[tag.x][1])


def trailer_taken(self, s, start, at):
    _, behind = fields(s, at, SUM)
    return behind + 1 if behind < len(s) else refuse(10, len(s))


def sum_not_judged(self, s, start, at):
    behind = trailer_taken(self, s, start, at)
    return behind if s[behind - 1] == 0 else refuse(15, behind - 1)


def sum_first(self, s, start, at):
    behind = trailer_taken(self, s, start, at)
    Reader.trailer(self, s[: behind - 1] + b"\0", start, at)
    return behind if s[behind - 1] == 0 else refuse(15, behind - 1)


def rows_moved(self, m, at):
    return m._replace(rows=[[a - at, b, c - at, d] for a, b, c, d in m.rows])


def next_moved(self, m, at):
    return m._replace(next=m.next - at)


def refusal_moved(self, f, at):
    return f if f.place is None else Refused(f.number, f.place - at, f.kind)


def if_room(self, rows, table):
    if len(rows) <= self.room(table):
        self.fill(table, rows)


def as_far_as_room(self, rows, table):
    self.fill(table, rows[: self.room(table)])
    refuse(20)


def rest_cleared(self, table, rows):
    Reader.fill(self, table, rows)
    table[ROW * len(rows) :] = [0] * (len(table) - ROW * len(rows))


TOO_LONG, BEYOND = (9, lambda s, at: len(s) > LIMIT), (4, lambda s, at: at > len(s))
# those that the longest inputs alone tell
WRONG_LENGTHS = {
    "place_before_length": wrong(before=before_by(BEYOND, TOO_LONG)),
    "length_of_the_rest": wrong(before=before_by((9, lambda s, at: len(s) - at > LIMIT), BEYOND)),
    "length_of_the_message": wrong(before=before_by(BEYOND), behind=lambda self, s, m: refuse(9) if m.next > LIMIT else None),
    "longest_is_too_long": wrong(before=before_by((9, lambda s, at: len(s) >= LIMIT), BEYOND)),
}
WRONG = {
    "room_before_reading": wrong(announced=lambda self, n, table: refuse(20) if n > self.room(table) else None),
    "room_before_the_trailer": wrong(all_met=lambda self, rows, table: refuse(20) if len(rows) > self.room(table) else None),
    "rows_filled_before_the_trailer": wrong(all_met=if_room),
    "rows_filled_as_they_are_read": wrong(met=if_room),
    "rows_filled_as_far_as_there_is_room": wrong(too_many=as_far_as_room),
    "more_bytes_refused": wrong(behind=lambda self, s, m: refuse(12, m.next) if m.next < len(s) else None),
    "next_message_begun": wrong(behind=next_begun),
    "empty_input_is_no_message": wrong(answer=no_message),
    "entry_without_its_list_byte": wrong(row=lambda self, at, name, behind: [name.start, name.len, at + 1, behind - at - 1]),
    "entry_without_its_list": wrong(row=lambda self, at, name, behind: [name.start, name.len, name.place, behind - name.place]),
    "entry_up_to_its_end": wrong(row=lambda self, at, name, behind: [name.start, name.len, at, behind]),
    "name_with_its_length_bytes": wrong(row=lambda self, at, name, behind: [name.place, name.len + name.start - name.place, at, behind - at]),
    "name_in_its_entry": wrong(row=lambda self, at, name, behind: [name.start - at, name.len, at, behind - at]),
    "entry_before_name": wrong(row=lambda self, at, name, behind: [at, behind - at, name.start, name.len]),
    "room_in_numbers": wrong(room=lambda self, table: len(table)),
    "half_row_is_room": wrong(room=lambda self, table: (len(table) + ROW // 2) // ROW),
    "part_of_a_row_is_room": wrong(room=lambda self, table: (len(table) + ROW - 1) // ROW),
    "last_row_is_no_room": wrong(room=lambda self, table: (len(table) - 1) // ROW),
    "one_row_of_any_table": wrong(room=lambda self, table: min(1, len(table) // ROW)),
    "rest_of_the_table_cleared": wrong(fill=rest_cleared),
    "trailer_not_judged": wrong(trailer=trailer_taken),
    "crc_not_judged": wrong(trailer=sum_not_judged),
    "crc_before_end_byte": wrong(trailer=sum_first),
    "crc_from_the_input_on": wrong(summed=lambda self, s, start, at: crc(s[:at])),
    "end_byte_not_counted": wrong(trailer=lambda self, s, start, at: Reader.trailer(self, s, start, at) - 1),
    "places_from_the_message": wrong(placed=lambda self, m, at: next_moved(self, rows_moved(self, m, at), at), refusal=refusal_moved),
    "rows_from_the_message": wrong(placed=rows_moved),
    "next_from_the_message": wrong(placed=next_moved),
    "refusals_from_the_message": wrong(refusal=refusal_moved),
    "end_of_input_where_its_element_begins": wrong(refusal=lambda self, f, at: f if f.begun is None else Refused(10, f.begun)),
    "kinds_without_entries_refused": wrong(begun=lambda self, form, tag: refuse(13, tag.place) if form is not List else None),
    "place_at_the_end_is_beyond": wrong(before=before_by(TOO_LONG, (4, lambda s, at: at >= len(s)))),
    "place_beyond_is_end_of_input": wrong(before=before_by(TOO_LONG, (10, lambda s, at: at > len(s)))),
} | WRONG_LENGTHS

# ---- the request's vectors: numbers of the table, place, bytes, and the answer

CLOSE, OPEN, ONE = (bytes.fromhex(NAMED[name]) for name in ("CLOSE", "OPEN", "ONE"))
TWO = bytes.fromhex("7603dd436200620072630701770102730101727702620101010162070177026101010101620801010163019300")
SIX = bytes.fromhex(
    "7603dd43620062007263070177010273010176770262010101016200017701010101016201017703616201010101620201"
    "7702800101010162030177026101010101620401770262010101016205010101633c5500"
)
TWO_SAID = "list tid=xdd43 group=0 abort=0 client=- server=x73 name=- time=- n=2 | end sig=- time=-"
OPEN_SAID = "open tid=xdd43 group=0 abort=0 codepage=- client=- file=x66 server=x73 time=- version=-"
CLOSE_SAID = "close tid=xdd43 group=0 abort=0 sig=-"


def with_(m, at, new):
    """A message with other bytes at a place."""
    new = bytes.fromhex(new)
    return m[:at] + new + m[at + len(new) :]


VECTORS = [
    (8, 0, TWO, TWO_SAID + " | rows 2 next 45 | 21,1,19,10,31,1,29,10"),
    (11, 0, TWO, TWO_SAID + " | rows 2 next 45 | 21,1,19,10,31,1,29,10,_,_,_"),
    (7, 0, TWO, "refused 20 | _,_,_,_,_,_,_"),
    (8, 0, TWO + b"\x76\xff", TWO_SAID + " | rows 2 next 45 | 21,1,19,10,31,1,29,10"),
    (8, 0, TWO[:-1], "refused 10 @44 | _,_,_,_,_,_,_,_"),
    (0, 0, with_(TWO, 42, "0192"), "refused 14 @41 | -"),
    (8, 0, with_(TWO, 44, "01"), "refused 15 @44 | _,_,_,_,_,_,_,_"),
    (8, 0, with_(TWO, 42, "019201"), "refused 15 @44 | _,_,_,_,_,_,_,_"),
    (0, 0, with_(TWO, 29, "76"), "refused 12 @29 | -"),
    (8, 0, b"", "refused 10 @0 | _,_,_,_,_,_,_,_"),
    (0, 0, OPEN, OPEN_SAID + " | rows 0 next 25 | -"),
    (8, 25, OPEN + TWO + CLOSE, TWO_SAID + " | rows 2 next 70 | 46,1,44,10,56,1,54,10"),
    (0, 18, CLOSE, "refused 10 @18 | -"),
    (0, 19, CLOSE, "refused 4 | -"),
    (0, 0, b"\x10", "refused 11 TlfInvalidTy @0 | -"),
    (0, 0, bytes.fromhex("7603dd436200620072630701770101010170017262016205637ff900"),
     "list tid=xdd43 group=0 abort=0 client=- server=x name=- time=- n=0 | end sig=- time=sec:5 | rows 0 next 28 | -"),
    (8, 0, bytes.fromhex("7603dd436200620072630701770102730101ff8f8f8f8f8f8f0f7701010101010101"), "refused 10 @34 | _,_,_,_,_,_,_,_"),
    (8, 0, with_(TWO, 9, "630700"), "refused 13 @9 | _,_,_,_,_,_,_,_"),
]

# ---- not the request's: other rooms; what stands behind; the trailer before the room; a second message; a CRC of one byte, lengths of more bytes than they
# need, bare times, an entry with two length bytes and a name with three; tags of a time and a list value; each kind of 11; places far beyond
WIDE = "f0068003abe00300e00305f0026500000201f0018003cde0041acb00"
BARE = "7603dd436200620072630701770102730165000001007177026e65000000077262016500000005621e52ff59ffffffffffffff7f8002010163631600"
ROW_OF_SIX = "21,1,19,10,31,0,29,9,40,2,38,11,51,1,49,10,61,1,59,10,71,1,69,10"
MORE = [
    (24, 0, SIX, TWO_SAID.replace("n=2", "n=6") + " | rows 6 next 85 | " + ROW_OF_SIX),
    (26, 0, SIX, TWO_SAID.replace("n=2", "n=6") + " | rows 6 next 85 | " + ROW_OF_SIX + ",_,_"),
    (23, 0, SIX, "refused 20 | " + ",".join("_" * 23)),
    (4, 0, TWO, "refused 20 | _,_,_,_"),
    (2, 0, TWO, "refused 20 | _,_"),
    (0, 0, TWO, "refused 20 | -"),
    (3, 0, ONE, "refused 20 | _,_,_"),
    (5, 0, ONE, TWO_SAID.replace("n=2", "n=1") + " | rows 1 next 35 | 21,1,19,10,_"),
    (4, 35, ONE + ONE, TWO_SAID.replace("n=2", "n=1") + " | rows 1 next 70 | 56,1,54,10"),
    (3, 0, CLOSE, CLOSE_SAID + " | rows 0 next 18 | _,_,_"),
    (0, 18, CLOSE + CLOSE, CLOSE_SAID + " | rows 0 next 36 | -"),
    (8, 0, TWO + with_(CLOSE, 12, "77"), TWO_SAID + " | rows 2 next 45 | 21,1,19,10,31,1,29,10"),
    (7, 0, with_(TWO, 42, "0192"), "refused 14 @41 | _,_,_,_,_,_,_"),
    (7, 0, TWO[:-1], "refused 10 @44 | _,_,_,_,_,_,_"),
    (8, 0, TWO[:42], "refused 10 @42 | _,_,_,_,_,_,_,_"),
    (8, 25, OPEN + with_(TWO, 42, "0192") + CLOSE, "refused 14 @66 | _,_,_,_,_,_,_,_"),
    (8, 25, OPEN + with_(TWO, 44, "01"), "refused 15 @69 | _,_,_,_,_,_,_,_"),
    (8, 25, OPEN + with_(TWO, 29, "76"), "refused 12 @54 | _,_,_,_,_,_,_,_"),
    (8, 25, OPEN + TWO[:33], "refused 10 @58 | _,_,_,_,_,_,_,_"),
    (0, 0, bytes.fromhex("7603007562006200726302017101625b00"), "close tid=x0075 group=0 abort=0 sig=- | rows 0 next 17 | -"),
    (0, 0, bytes.fromhex(WIDE), "close tid=xab group=0 abort=5 sig=xcd | rows 0 next 28 | -"),
    (4, 0, bytes.fromhex(BARE), "list tid=xdd43 group=0 abort=0 client=- server=x73 name=- time=sec:256 n=1 | end sig=- time=- | rows 1 next 60 | 25,1,23,31"),
    (4, 0, bytes.fromhex("76016200620072630701770101010171f0078080046e010101010101010163c37c00"),
     "list tid=x group=0 abort=0 client=- server=x name=- time=- n=1 | end sig=- time=- | rows 1 next 34 | 21,1,16,12"),
    (4, 0, bytes.fromhex("7603dd43620062007263070177010273010171770101010101726202"), "refused 13 @26 | _,_,_,_"),
    (4, 0, bytes.fromhex("7603dd436200620072630701770102730101717701017262026201"), "refused 13 @23 | _,_,_,_"),
    (1, 0, b"\0", "refused 11 TlfLengthUnderflow @0 | _"),
    (1, 0, b"\xc2\x01", "refused 11 TlfReserved @0 | _"),
    (1, 1, b"\0\xf6\x10", "refused 11 TlfNextByteTypeMismatch @1 | _"),
    (1, 0, bytes.fromhex("f18080808080808006"), "refused 11 TlfLengthOverflow @0 | _"),
    (1, 0, bytes.fromhex("f180808080808080"), "refused 10 @8 | _"),
    (1, 0, b"\x75", "refused 12 @0 | _"),
    (0, 0, b"", "refused 10 @0 | -"),
    (1, 1, b"", "refused 4 | _"),
    (1, TOP64, CLOSE, "refused 4 | _"),
    (1, 2**63, CLOSE, "refused 4 | _"),
    (1, 2**32, CLOSE, "refused 4 | _"),
]


def longest():
    """The longest inputs, which no line of bin/replay holds: 9 is of the whole input, also where the message is short or the place is beyond."""
    fits, over = CLOSE + bytes(LIMIT - len(CLOSE)), CLOSE + bytes(LIMIT + 1 - len(CLOSE))
    for at in 0, 18, LIMIT, LIMIT + 1, LIMIT + 2, TOP64:
        yield 2, at, over, "refused 9 | _,_"
    yield 2, 0, fits, CLOSE_SAID + " | rows 0 next 18 | _,_"
    yield 2, 18, fits, "refused 11 TlfLengthUnderflow @18 | _,_"
    yield 2, LIMIT, fits, "refused 10 @%d | _,_" % LIMIT
    yield 2, LIMIT + 1, fits, "refused 4 | _,_"
    yield 2, LIMIT - 18, bytes(LIMIT - 18) + CLOSE, CLOSE_SAID + " | rows 0 next %d | _,_" % LIMIT
    yield 2, LIMIT - 17, bytes(LIMIT - 17) + CLOSE, "refused 9 | _,_"
    # one message that is the whole input
    for n, wanted in (LIMIT - 20, "close tid=x group=0 abort=0 sig=x%s | rows 0 next %d | -" % ("00" * (LIMIT - 20), LIMIT)), (LIMIT - 19, "refused 9 | -"):
        m = WRITER.file([Close(b"", 0, 0, bytes(n))])
        assert len(m) == n + 20
        yield 0, 0, m, wanted
    # as many of the smallest entries as there may be
    n = 131068
    m = WRITER.start(List(b"", 0, 0, None, b"", None, None, n)) + n * bytes.fromhex("7701010101010101") + WRITER.list_end(End(None, None))
    m += WRITER.trailer(crc(m) ^ 0xFFFF)
    assert len(m) == LIMIT - 6
    rows = ",".join("%d,0,%d,8" % (at + 2, at) for at in range(20, 20 + 8 * n, 8))
    words = "list tid=x group=0 abort=0 client=- server=x name=- time=- n=%d | end sig=- time=- | rows %d next %d | " % (n, n, LIMIT - 6)
    yield ROW * n + 1, 0, m, words + rows + ",_"
    yield ROW * n - 1, 0, m, "refused 20 | " + ",".join("_" * (ROW * n - 1))


def tells(reader, cases):
    """How many of the cases, with their answers, a reader answers otherwise."""
    return sum(asked(room, at, data, reader) != wanted for room, at, data, wanted in cases)


if __name__ == "__main__":
    cases, long = VECTORS + MORE, list(longest())
    faults = ["message %d %d %s: %s, wanted %s" % (room, at, data.hex()[:200], asked(room, at, data)[:200], wanted[:200])
              for room, at, data, wanted in cases + long if asked(room, at, data) != wanted]
    told = {name: tells(reader, long[:-2] if name in WRONG_LENGTHS else cases) for name, reader in WRONG.items()}
    faults += [f"{name}: answers every vector as the right reader does" for name, n in told.items() if n == 0]
    for fault in faults[:8]:
        print(fault)
    print(f"{len(VECTORS)} vectors of the request, {len(MORE)} more, {len(long)} of the longest inputs; {len(WRONG)} wrong readers; {len(faults)} faults")
    sys.exit(1 if faults else 0)

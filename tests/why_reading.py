"""Why bytes of a recording were lost (document 02, Q-10), written from the documents and from what was decided where they leave room, not from the code: what
tests/test_why.py holds the program to. A recording, a way of searching and a capacity come in; its losses come out, each with its causes and its first and last
byte.

It is read twice. By events: a new decoder of document 01's push rules, with Q-7's second way, is given the recording and then finalize, and each refusal is told
as a loss. By the bytes alone, without a decoder: from the left, the recording falls into parts that are kept frames or lost pieces; every length of a part is tried,
and each cause by what it says of the piece and of what follows it. Where a part begins exactly one length may be true of anything, or the readings are unclear.
WRONG has wrong readings by events, WRONG_TRUTHS wrong readings of what a cause says, each with one thing changed, which a test must tell from the right ones.

`python3 tests/why_reading.py` holds both, and each wrong one, to the request's vectors and to some more.
"""
import binascii, collections, functools, itertools, re, sys

sys.dont_write_bytecode = True
LIMIT = 1048576  # the largest capacity
ESCAPE, ONES = b"\x1b" * 4, b"\1" * 4
START = ESCAPE + ONES
KEPT = ("kept",)  # of a frame whose payload was handed out, which is no loss
ENDS = "crc", "misaligned", "pads"  # the causes of an InvalidMessage, in this order
CAUSES = "noise", "unfinished", "hidden", "cut", "escape", "room", *ENDS
Part = collections.namedtuple("Part", "causes first last")
# 0 is a payload, the others are document 01's numbers; of a 6 what ran before it and its count, of an 8 its causes
Event = collections.namedtuple("Event", "number what count", defaults=(None, None))
REFLECTED = bytes(int(f"{b:08b}"[::-1], 2) for b in range(256))


def crc(data):
    """CRC X25 by its public parameters. Python's has the same polynomial and reflects nothing: so bytes and result are reflected here."""
    return int(f"{binascii.crc_hqx(data.translate(REFLECTED), 0xFFFF):016b}"[::-1], 2) ^ 0xFFFF


# ---- by events


class Why:
    """A new decoder, and what it tells of a recording. A wrong one has one thing changed; what does nothing here is there for wrong ones."""

    def __init__(self, way, capacity):
        self.way, self.capacity = way, capacity
        self.fresh()

    @staticmethod
    def refusal(way, capacity):
        return 4 if way not in (1, 2) else 5 if capacity > LIMIT else 0

    # ---- the push rules; a fresh search stands for the state behind a payload too, since nothing tells the two apart here

    def fresh(self):
        """`n` counts matched or waiting bytes, `since` holds the bytes since the search or frame began, `stored` the fill, `four` those that will be judged."""
        self.state, self.n, self.noise, self.raw, self.since, self.stored, self.four = "search", 0, 0, 0, bytearray(), b"", b""

    def begin(self):
        self.fresh()
        self.state, self.raw, self.since = "normal", 8, bytearray(START)

    def refuse(self, number):
        self.fresh()
        return Event(number)

    def push(self, b):
        self.raw += 1
        self.since.append(b)
        return getattr(self, self.state)(b)

    def first_way(self, b):
        if b == START[self.n]:
            self.n += 1
        else:
            self.noise, self.n = self.noise + self.n + 1, 0
        return self.n == 8

    def second_way(self, b):
        """Q-7's own sentence, over all bytes since the search began."""
        self.noise = len(self.since) - 8
        return self.since.endswith(START)

    def search(self, b):
        if not (self.first_way(b) if self.way == 1 else self.second_way(b)):
            return None
        noise = self.noise
        self.begin()
        return Event(6, "search", noise) if noise else None

    def normal(self, b):
        if b == 0x1B:
            self.n += 1
            if self.n == 4:
                self.state, self.n, self.four = "escape", 0, b""
            return None
        data, self.n = self.waited(b), 0
        return None if self.store(data) else self.refuse(3)

    def waited(self, b):
        return b"\x1b" * self.n + bytes([b])

    def store(self, data):
        if not self.fits(len(self.stored) + len(data)):
            return False
        self.stored += data
        return True

    def fits(self, fill):
        return fill <= self.capacity

    def escape(self, b):
        if not self.store(bytes([b])):
            return self.refuse(3)
        self.four += bytes([b])
        return self.judge(self.four, -len(self.stored) % 4) if len(self.four) == 4 else None

    def judge(self, four, missing):
        if four == ESCAPE:
            self.escaped()
        elif four == ONES:
            lost = self.raw - 8
            self.begin()
            return Event(6, "frame", lost)
        elif four[0] == 0x1A:
            return self.end(four[1], four[2] + 256 * four[3])
        elif self.early(four, missing):
            self.four = four[missing:]
        else:
            return self.refuse(7)
        return None

    def escaped(self):
        self.state = "normal"

    def early(self, four, missing):
        """The data's last bytes were taken for the escape's first: so many bytes of the end are still to come."""
        return missing > 0 and four[: missing + 1] == b"\x1b" * missing + b"\x1a"

    def end(self, pads, read):
        size = len(self.stored) - 4
        true = read != self.computed(), self.is_misaligned(size, pads), self.are_wrong(pads, size)
        causes = tuple(cause for cause, one in zip(ENDS, true) if one)
        self.fresh()
        return Event(8, causes) if causes else Event(0)

    def computed(self):
        return crc(bytes(self.since[:-2]))

    def is_misaligned(self, size, pads):
        return size % 4 != 0

    def are_wrong(self, pads, size):
        return pads > 3 or pads > size

    def finalize(self):
        return Event(6, "search" if self.state == "search" else "frame", self.raw) if self.raw else None

    # ---- what is told of the events

    def events(self, recording):
        """How many bytes were pushed, the event, and whether it is finalize's."""
        for n, b in enumerate(recording, 1):
            event = self.push(b)
            if event:
                yield n, event, False
        event = self.finalize()
        if event:
            yield len(recording), event, True

    def behind(self, n, event, ended, begun):
        """The place where the next search or frame begins: a new start's eight are the new frame's."""
        return n - 8 if event.number == 6 and not ended else n

    def looked_at(self, recording, begun, behind, n):
        """Where a whole start would be hidden."""
        return recording[begun:behind]

    def searched(self, piece):
        return "hidden" if START in piece else "noise"

    def of_six(self, what, piece, ended):
        if what == "search":
            return self.searched(piece)
        return "unfinished" if ended else "cut"

    def causes(self, event, piece, ended):
        if event.number == 6:
            return (self.of_six(event.what, piece, ended),)
        return event.what if event.number == 8 else {0: KEPT, 3: ("room",), 7: ("escape",)}[event.number]

    def shown(self, begun, behind, n, event):
        """First and last byte, counted from 1."""
        return begun + 1, behind

    def parts(self, recording):
        """Kept frames and losses in their order."""
        begun, parts = 0, []
        for n, event, ended in self.events(recording):
            behind = self.behind(n, event, ended, begun)
            causes = self.causes(event, self.looked_at(recording, begun, behind, n), ended)
            parts.append(Part(causes, *self.shown(begun, behind, n, event)))
            begun = behind
        return parts


def losses(parts):
    return [part for part in parts if part.causes != KEPT]


# ---- by the bytes alone

ANY = LIMIT  # no capacity is larger
REMEMBERED = 100000  # pieces
NOTHING, NEW, MORE_BYTES = "nothing", "start", "more"  # what follows a piece


def following(behind):
    return NOTHING if not behind else NEW if behind.startswith(START) else MORE_BYTES


def escaped(data):
    """Python takes the fours of a run from its left, as the frame rules do."""
    return data.replace(ESCAPE, ESCAPE + ESCAPE)


def unescaped(coded):
    """The data whose escaping these bytes are; None if they are none's."""
    data = coded.replace(ESCAPE + ESCAPE, ESCAPE)
    return data if escaped(data) == coded else None


def loose(data):
    """How many 1b stand at its end behind the last fourth one."""
    return (len(data) - len(data.rstrip(b"\x1b"))) % 4


def opens(data, more):
    """Whether an escape behind this data is one: else its four begin before the data's end. But the data's last 1b may fill it up to a frame's end."""
    return loose(data) == 0 or len(data) % 4 == 0 and more[:1] == b"\x1a"


@functools.lru_cache(REMEMBERED)
def data_of(w):
    """The data, in a list, of which w is the start and the escaping; none if it isn't."""
    data = unescaped(w[8:]) if w.startswith(START) else None
    return [] if data is None else [data]


@functools.lru_cache(REMEMBERED)
def opened(w):
    """All ways to read w as a start, escaped data, an escape and up to four bytes: data and these bytes."""
    places = [at for at in range(max(8, len(w) - 8), len(w) - 3) if w.startswith(START) and w.startswith(ESCAPE, at)]
    return [(data, w[at + 4 :]) for at in places if (data := unescaped(w[8:at])) is not None]


@functools.lru_cache(REMEMBERED)
def misses(w):
    """Whether w is blocks: some first bytes of the start sequence, none to seven, and a byte that doesn't go on. So the first way passes over it."""
    reached = {0}
    for at in range(len(w)):
        if at in reached:
            reached |= {at + n + 1 for n in range(8) if w[at : at + n] == START[:n] and w[at + n : at + n + 1] not in (b"", START[n : n + 1])}
    return len(w) in reached


class Truths:
    """What each cause says of a piece w, which isn't empty, with what follows it: the capacities of which it is true, as pairs of the least and the most."""

    def searched(self, w, follows, way):
        """A search ends with the recording, or before a start that its way finds."""
        return follows == NOTHING or follows == NEW and (way == 2 or misses(w))

    def noise(self, w, follows, way):
        if START not in w and self.searched(w, follows, way):
            yield 0, ANY

    def hidden(self, w, follows, way):
        if way == 1 and START in w and self.searched(w, follows, way):
            if any(w.endswith(START[:n]) and misses(w[: len(w) - n]) for n in range(8)):
                yield 0, ANY

    def cut(self, w, follows, way):
        for data in data_of(w):
            if follows == NEW and loose(data) == 0:
                yield len(data) + 4, ANY

    def unfinished(self, w, follows, way):
        if follows == NOTHING:
            yield from ((len(data) - loose(data), ANY) for data in data_of(w))
            yield from ((len(data) + len(more), ANY) for data, more in opened(w) if len(more) <= 3 and opens(data, more))

    def room(self, w, follows, way):
        for data in data_of(w):
            for fill in range(max(0, len(data) - 4), len(data)):
                if set(data[fill:-1]) <= {0x1B} and data[-1] != 0x1B and loose(data[:fill]) == 0:
                    yield fill, len(data) - 1
        for data, more in opened(w):
            if more and opens(data, more):
                yield len(data) + len(more) - 1, len(data) + len(more) - 1

    def escape(self, w, follows, way):
        for data, four in opened(w):
            missing = (4 - len(data) % 4) % 4
            meant = four in (ESCAPE, ONES) or four[:1] == b"\x1a" or missing > 0 and four[: missing + 1] == b"\x1b" * missing + b"\x1a"
            if len(four) == 4 and loose(data) == 0 and not meant:
                yield len(data) + 4, ANY

    def ended(self, w):
        """The data, pad count and CRC of a frame with its end."""
        for data, four in opened(w):
            if len(four) == 4 and four[0] == 0x1A and opens(data, four):
                yield data, four[1], four[2] + 256 * four[3]

    def crc(self, w, follows, way):
        yield from ((len(data) + 4, ANY) for data, _, read in self.ended(w) if read != crc(w[:-2]))

    def misaligned(self, w, follows, way):
        yield from ((len(data) + 4, ANY) for data, _, _ in self.ended(w) if len(data) % 4)

    def pads(self, w, follows, way):
        yield from ((len(data) + 4, ANY) for data, pads, _ in self.ended(w) if pads > 3 or pads > len(data))

    def kept(self, w, follows, way):
        """A sound frame, by document 01's frame rules."""
        for data, four in opened(w):
            right = len(four) == 4 and four[0] == 0x1A and four[2:] == crc(w[:-2]).to_bytes(2, "little")
            if right and len(data) % 4 == 0 and four[1] <= 3 and four[1] <= len(data):
                yield len(data) + 4, ANY

    def of(self, w, follows, way):
        """All that is true of a piece: the cause, or that it is kept, and the capacities."""
        return told(w, follows, way)

    def lengths(self, rest, way):
        """The same of every length that a part may have that begins here."""
        return [(n, *one) for n in range(1, len(rest) + 1) for one in self.of(rest[:n], following(rest[n:]), way)]


def says(truths, names, w, follows, way):
    return [(name, least, most) for name in names for least, most in getattr(truths, name)(w, follows, way)]


@functools.lru_cache(REMEMBERED)
def told(w, follows, way):
    return says(TRUE, (*CAUSES, *KEPT), w, follows, way)


class Unclear(Exception):
    """Where a part begins, no length or several may be true of it, or it is both kept and lost."""


TRUE = Truths()


def parts_at(rest, way, capacities, truths=TRUE):
    """For each capacity, what may begin here: causes by length, `kept` among them."""
    found, lengths = [], truths.lengths(rest, way)
    for capacity in capacities:
        true = {(n, name) for n, name, least, most in lengths if least <= capacity <= most}
        found.append({n: tuple(name for name in (*CAUSES, *KEPT) if (n, name) in true) for n, _ in true})
    return found


def part_at(rest, way, capacities, truths=TRUE):
    """For each capacity the length and the causes of the one part that begins here."""
    for capacity, true in zip(capacities, parts_at(rest, way, capacities, truths)):
        if len(true) != 1 or any("kept" in causes and causes != KEPT for causes in true.values()):
            raise Unclear(f"way {way}, capacity {capacity}, behind {rest.hex()}: {true or 'nothing is true'}")
        yield from true.items()


def accounts(recording, way, capacities, truths=TRUE):
    """The parts of a recording by its bytes alone, for each capacity."""
    given = {capacity: [] for capacity in capacities}
    begins = {0: list(capacities)}  # the capacities for which a part begins at a place
    for place in range(len(recording)):
        some = begins.pop(place, [])
        for capacity, (n, causes) in zip(some, part_at(recording[place:], way, some, truths) if some else ()):
            given[capacity].append(Part(causes, place + 1, place + n))
            begins.setdefault(place + n, []).append(capacity)
    return given


# ---- answers in words, as the command `why WAY CAP HEX` of bin/replay gives them


def command(way, capacity, data):
    return "why %d %d %s" % (way, capacity, data.hex() or "-")


def line(some):
    return " | ".join("%s %d %d" % ("+".join(causes), first, last) for causes, first, last in some) or "-"


def asked(way, capacity, data, why=Why):
    """What is answered to `why way capacity data`."""
    refusal = why.refusal(way, capacity)
    return "refused %d" % refusal if refusal else line(losses(why(way, capacity).parts(data)))


# ---- wrong readings by events: what is changed, by name


def wrong(**changed):
    return type("Wrong", (Why,), changed)


def from_ninth(self, begun, behind, n, event):
    in_frame = event.number not in (0, 6) or event.what == "frame"
    return begun + (9 if in_frame else 1), behind


def capacity_first(way, capacity):
    return 5 if capacity > LIMIT else Why.refusal(way, capacity)


def other_six(**words):
    """6s told otherwise: `noise`, `hidden`, `cut` or `unfinished` by another word."""
    return lambda self, what, piece, ended: words.get(cause := Why.of_six(self, what, piece, ended), cause)


def whole_six(self, event, piece, ended):
    """Whether a start is hidden is asked before whether a frame ran."""
    return ("hidden",) if event.number == 6 and START in piece else Why.causes(self, event, piece, ended)


def causes_put(put):
    return wrong(causes=lambda self, event, piece, ended: put(Why.causes(self, event, piece, ended)))


def behind_but(number, place):
    """Behind an event of this number the next search or frame begins elsewhere."""
    return wrong(behind=lambda self, n, event, ended, begun: place(n, begun) if event.number == number and not ended else Why.behind(self, n, event, ended, begun))


def shown_but(number, last):
    return wrong(shown=lambda self, begun, behind, n, event: (begun + 1, last(behind) if event.number == number else behind))


def goes_on(missed):
    """The first way with another number of matched bytes behind a byte that doesn't go on."""

    def first_way(self, b):
        n = self.n
        whole = Why.first_way(self, b)
        if self.n == 0:
            self.n = missed(n, b)
            self.noise -= self.n
        return whole

    return wrong(first_way=first_way)


def second_way_of(missed):
    """The second way by a count of matched bytes, wrong behind a byte that doesn't go on."""

    def second_way(self, b):
        self.n = self.n + 1 if b == START[self.n] else missed(self.n, b)
        self.noise = len(self.since) - 8
        return self.n == 8

    return wrong(second_way=second_way)


def search_by(way):
    def search(self, b):
        self.way = way
        return Why.search(self, b)

    return wrong(search=search)


def restart_without_room(self, b):
    """A new start inside a message is seen before its bytes are stored."""
    if self.since.endswith(ESCAPE + ONES) and len(self.four) == 3:
        lost = self.raw - 8
        self.begin()
        return Event(6, "frame", lost)
    return Why.escape(self, b)


def late_room(self, b):
    """The four are stored when they are judged."""
    self.four += bytes([b])
    if len(self.four) < 4:
        return None
    return self.judge(self.four, -len(self.stored) % 4) if self.store(self.four) else self.refuse(3)


def start_ends_it(self, b):
    """A whole start ends a message wherever it lies, escaped or not."""
    if self.since.endswith(START):
        lost = self.raw - 8
        self.begin()
        return Event(6, "frame", lost)
    return Why.normal(self, b)


def hidden_ever_after(self, piece):
    self.hid = START in piece or getattr(self, "hid", False)
    return "hidden" if self.hid else "noise"


def by_calls(begins, shown=lambda part, begun: part):
    """Losses one by one, each by a new decoder from behind the one before; wrong in where a call begins, or in where it counts from."""

    def parts(self, recording):
        at, parts = 0, []
        while some := losses(Why(self.way, self.capacity).parts(recording[at:])):
            parts.append(shown(some[0]._replace(first=some[0].first + at, last=some[0].last + at), at))
            at = begins(at + some[0].last)
        return parts

    return wrong(parts=parts)


def forgets_judged(self):
    self.state, self.stored = "normal", self.stored[:-4]


def still_waits(self):
    """The data's four 1b are the next escape's too."""
    self.state, self.four = "escape", b""


def new_start_noticed(self, b):
    if not (self.first_way(b) if self.way == 1 else self.second_way(b)):
        return None
    noise = self.noise
    self.begin()
    return Event(6, "search", noise)


def no_finalize(self):
    return None


def finalize_counts_frames(self):
    return Event(6, "frame", self.raw) if self.raw and self.state != "search" else None


def stored_crc(self):
    return crc(START + self.stored[:-4] + ESCAPE + self.stored[-4:-2])


WRONG = {
    # the request's
    "hidden_in_the_new_start": wrong(looked_at=lambda self, recording, begun, behind, n: recording[begun:n]),
    "frame_from_its_ninth_byte": wrong(shown=from_ninth),
    "last_with_the_new_start": wrong(shown=lambda self, begun, behind, n, event: (begun + 1, n)),
    "first_cause_only": causes_put(lambda causes: causes[:1]),
    "pads_over_three_only": wrong(are_wrong=lambda self, pads, size: pads > 3),
    "cut_told_as_noise": wrong(of_six=other_six(cut="noise")),
    "payload_not_passed": behind_but(0, lambda n, begun: begun),
    "bytes_from_zero": wrong(shown=lambda self, begun, behind, n, event: (begun, behind - 1)),
    "capacity_before_way": wrong(refusal=staticmethod(capacity_first)),
    "always_noise": causes_put(lambda causes: causes if causes == KEPT else ("noise",)),
    # names
    "noise_told_as_hidden": wrong(of_six=other_six(noise="hidden")),
    "hidden_told_as_noise": wrong(of_six=other_six(hidden="noise")),
    "cut_told_as_unfinished": wrong(of_six=other_six(cut="unfinished")),
    "unfinished_told_as_cut": wrong(of_six=other_six(unfinished="cut")),
    "unfinished_told_as_noise": wrong(of_six=other_six(unfinished="noise")),
    "last_search_is_unfinished": wrong(of_six=lambda self, what, piece, ended: "unfinished" if ended else Why.of_six(self, what, piece, ended)),
    "a_frame_with_its_start_is_hidden": wrong(causes=whole_six),
    "hidden_by_an_escape_alone": wrong(searched=lambda self, piece: "hidden" if ESCAPE in piece else "noise"),
    "hidden_by_any_1b": wrong(searched=lambda self, piece: "hidden" if b"\x1b" in piece else "noise"),
    "hidden_at_the_end_alone": wrong(searched=lambda self, piece: "hidden" if piece.endswith(START) else "noise"),
    "hidden_behind_one_1b_alone": wrong(searched=lambda self, piece: "hidden" if START in piece[:9] else "noise"),
    "hidden_once_alone": wrong(searched=lambda self, piece: "hidden" if piece.count(START) == 1 else "noise"),
    "last_cause_only": causes_put(lambda causes: causes[-1:]),
    "causes_from_the_last": causes_put(lambda causes: causes[::-1]),
    "hidden_ever_after": wrong(searched=hidden_ever_after),
    "invalid_is_always_crc": causes_put(lambda causes: ("crc", *causes) if causes[0] in ENDS[1:] else causes),
    "misaligned_hides_pads": causes_put(lambda causes: tuple(cause for cause in causes if cause != "pads" or "misaligned" not in causes)),
    "room_told_as_escape": causes_put(lambda causes: ("escape",) if causes == ("room",) else causes),
    # pieces
    "refusal_not_passed": behind_but(7, lambda n, begun: begun),
    "invalid_not_passed": behind_but(8, lambda n, begun: begun),
    "room_byte_begins_the_search": behind_but(3, lambda n, begun: n - 1),
    "next_behind_the_new_start": behind_but(6, lambda n, begun: n),
    "new_start_is_four_bytes": behind_but(6, lambda n, begun: n - 4),
    "escape_without_its_four": shown_but(7, lambda behind: behind - 4),
    "room_without_its_byte": shown_but(3, lambda behind: behind - 1),
    "end_without_its_crc": shown_but(8, lambda behind: behind - 2),
    "kept_frames_told": causes_put(lambda causes: ("unfinished",) if causes == KEPT else causes),
    "found_start_without_noise_told": wrong(search=new_start_noticed),
    "no_finalize": wrong(finalize=no_finalize),
    "finalize_in_frames_alone": wrong(finalize=finalize_counts_frames),
    "finalize_less_eight": wrong(behind=lambda self, n, event, ended, begun: n - 8 if event.number == 6 else n),
    "calls_one_byte_late": by_calls(lambda last: last + 1),
    "calls_behind_the_new_start": by_calls(lambda last: last + 8),
    "places_from_the_call": by_calls(lambda last: last, lambda part, begun: part._replace(first=part.first - begun, last=part.last - begun)),
    # searching
    "second_way_is_the_first": search_by(1),
    "first_way_is_the_second": search_by(2),
    "fifth_1b_keeps_four": goes_on(lambda n, b: 4 if n == 4 and b == 0x1B else 0),
    "missed_1b_is_the_next_first": goes_on(lambda n, b: 1 if n > 0 and b == 0x1B else 0),
    "fifth_1b_drops_four": second_way_of(lambda n, b: int(b == 0x1B)),
    "broken_start_keeps_none": second_way_of(lambda n, b: 4 if n == 4 and b == 0x1B else 0),
    "unknown_way_is_the_second": wrong(refusal=staticmethod(lambda way, capacity: 5 if capacity > LIMIT else 0)),
    "way_zero_is_the_first": wrong(refusal=staticmethod(lambda way, capacity: Why.refusal(way or 1, capacity))),
    # room
    "capacity_at_the_limit": wrong(refusal=staticmethod(lambda way, capacity: 4 if way not in (1, 2) else 5 if capacity >= LIMIT else 0)),
    "capacity_never_too_large": wrong(refusal=staticmethod(lambda way, capacity: 0 if way in (1, 2) else 4)),
    "one_byte_more": wrong(fits=lambda self, fill: fill <= self.capacity + 1),
    "one_byte_less": wrong(fits=lambda self, fill: fill < self.capacity),
    "end_needs_no_room": wrong(fits=lambda self, fill: fill <= self.capacity + 4 * (self.state == "escape")),
    "room_when_judged": wrong(escape=late_room),
    "new_start_needs_no_room": wrong(escape=restart_without_room),
    "waiting_is_not_stored": wrong(waited=lambda self, b: bytes([b])),
    "escaped_data_is_not_stored": wrong(escaped=forgets_judged),
    # escapes and ends
    "no_early_end": wrong(early=lambda self, four, missing: False),
    "early_end_without_1a": wrong(early=lambda self, four, missing: missing > 0 and four[:missing] == b"\x1b" * missing),
    "early_end_by_1a_alone": wrong(early=lambda self, four, missing: missing > 0 and four[missing] == 0x1A),
    "early_end_of_one_alone": wrong(early=lambda self, four, missing: missing == 1 and four[:2] == b"\x1b\x1a"),
    "escaped_data_opens_again": wrong(escaped=still_waits),
    "escaped_start_cuts": wrong(normal=start_ends_it),
    "pads_over_the_fill": wrong(are_wrong=lambda self, pads, size: pads > 3 or pads > size + 4),
    "pads_of_three_are_wrong": wrong(are_wrong=lambda self, pads, size: pads > 2 or pads > size),
    "pads_over_the_data_alone": wrong(are_wrong=lambda self, pads, size: pads > size),
    "pads_as_many_as_data": wrong(are_wrong=lambda self, pads, size: pads > 3 or pads >= size > 0),
    "payload_is_misaligned": wrong(is_misaligned=lambda self, size, pads: (size - pads) % 4 != 0),
    "never_misaligned": wrong(is_misaligned=lambda self, size, pads: False),
    "crc_of_stored_bytes": wrong(computed=stored_crc),
    "crc_without_the_start": wrong(computed=lambda self: crc(bytes(self.since[8:-2]))),
    "crc_without_the_end": wrong(computed=lambda self: crc(bytes(self.since[:-8]))),
}


# ---- wrong readings of what a cause says, by name


def wrong_truth(**changed):
    """Only what is changed is asked of it; the rest is remembered of the right one."""
    names = [name for one in changed for name in (ENDS if one == "ended" else [one])]

    def of(self, w, follows, way):
        return [one for one in told(w, follows, way) if one[0] not in names] + says(self, names, w, follows, way)

    return type("Wrong", (Truths,), changed | {"of": of})()


def always(true):
    """True of any capacity where something holds of the piece."""

    def says(self, w, follows, way):
        if true(w, follows, way):
            yield 0, ANY

    return says


def but_for(cause, least=None, most=None):
    """The same with other capacities."""

    def says(self, w, follows, way):
        for low, high in getattr(Truths, cause)(self, w, follows, way):
            yield (low if least is None else least(low)), (high if most is None else most(high))

    return says


def if_only(cause, true):
    """The same, but true of fewer pieces."""
    return lambda self, w, follows, way: getattr(Truths, cause)(self, w, follows, way) if true(w, follows, way) else ()


def cut_anywhere(self, w, follows, way):
    yield from ((len(data) + 4, ANY) for data in data_of(w) if follows == NEW)


def unfinished_by(least, opening):
    def says(self, w, follows, way):
        if follows == NOTHING:
            yield from ((least(data), ANY) for data in data_of(w))
            yield from ((len(data) + len(more), ANY) for data, more in opened(w) if len(more) <= 3 and opening(data, more))

    return says


def room_up_to_four(self, w, follows, way):
    """With any of the last four data bytes as the first that finds no room."""
    yield from ((max(0, len(data) - 4), len(data) - 1) for data in data_of(w) if data and data[-1] != 0x1B)
    yield from ((len(data) + len(more) - 1,) * 2 for data, more in opened(w) if more and opens(data, more))


def room_by(opening):
    def says(self, w, follows, way):
        yield from ((len(data) + len(more) - 1,) * 2 for data, more in opened(w) if more and opening(data, more))
        yield from ((least, most) for least, most in Truths.room(self, w, follows, way) if data_of(w))

    return says


def escape_by(opening, early):
    def says(self, w, follows, way):
        for data, four in opened(w):
            meant = four in (ESCAPE, ONES) or four[:1] == b"\x1a" or early and Why.early(None, four, -len(data) % 4)
            if len(four) == 4 and opening(data) and not meant:
                yield len(data) + 4, ANY

    return says


def ended_anyhow(true):
    def ended(self, w):
        yield from ((data, four[1], four[2] + 256 * four[3]) for data, four in opened(w) if len(four) == 4 and four[0] == 0x1A and true(data))

    return ended


WRONG_TRUTHS = {
    "noise_before_any_start": wrong_truth(noise=always(lambda w, follows, way: START not in w and follows != MORE_BYTES)),
    "noise_before_more": wrong_truth(noise=always(lambda w, follows, way: START not in w and (follows != NEW or way == 2 or misses(w)))),
    "noise_with_a_start": wrong_truth(noise=always(lambda w, follows, way: not w.startswith(START) and (follows == NOTHING or follows == NEW and (way == 2 or misses(w))))),
    "noise_is_passed_at_the_end_too": wrong_truth(noise=if_only("noise", lambda w, follows, way: misses(w))),
    "noise_in_the_second_way_is_passed": wrong_truth(noise=if_only("noise", lambda w, follows, way: follows == NOTHING or misses(w))),
    "hidden_anywhere": wrong_truth(hidden=always(lambda w, follows, way: way == 1 and START in w and follows != MORE_BYTES)),
    "hidden_unless_it_begins": wrong_truth(hidden=always(lambda w, follows, way: way == 1 and START in w[1:] and not w.startswith(START) and follows != MORE_BYTES)),
    "hidden_in_any_way": wrong_truth(hidden=always(lambda w, follows, way: START in w and follows == NOTHING and any(w.endswith(START[:n]) and misses(w[: len(w) - n]) for n in range(8)))),
    "hidden_in_blocks_alone": wrong_truth(hidden=if_only("hidden", lambda w, follows, way: misses(w))),
    "hidden_at_the_end_alone": wrong_truth(hidden=if_only("hidden", lambda w, follows, way: follows == NOTHING)),
    "cut_without_room": wrong_truth(cut=but_for("cut", least=lambda n: 0)),
    "cut_with_room_for_data": wrong_truth(cut=but_for("cut", least=lambda n: n - 4)),
    "cut_behind_loose_data": wrong_truth(cut=cut_anywhere),
    "cut_by_the_end": wrong_truth(cut=lambda self, w, follows, way: Truths.cut(self, w, NEW if follows == NOTHING else follows, way)),
    "unfinished_without_room": wrong_truth(unfinished=but_for("unfinished", least=lambda n: 0)),
    "unfinished_stores_what_waits": wrong_truth(unfinished=unfinished_by(len, opens)),
    "unfinished_with_any_escape": wrong_truth(unfinished=unfinished_by(lambda data: len(data) - loose(data), lambda data, more: True)),
    "unfinished_without_early_ends": wrong_truth(unfinished=unfinished_by(lambda data: len(data) - loose(data), lambda data, more: loose(data) == 0)),
    "unfinished_before_more": wrong_truth(unfinished=lambda self, w, follows, way: Truths.unfinished(self, w, NOTHING, way)),
    "room_up_to_four": wrong_truth(room=room_up_to_four),
    "room_for_one_byte_alone": wrong_truth(room=lambda self, w, follows, way: ((low, high) for low, high in Truths.room(self, w, follows, way) if low == high)),
    "room_for_any_more": wrong_truth(room=but_for("room", least=lambda n: 0)),
    "room_with_any_escape": wrong_truth(room=room_by(lambda data, more: True)),
    "room_without_early_ends": wrong_truth(room=room_by(lambda data, more: loose(data) == 0)),
    "escape_without_room": wrong_truth(escape=but_for("escape", least=lambda n: 0)),
    "escape_behind_loose_data": wrong_truth(escape=escape_by(lambda data: True, True)),
    "escape_by_an_early_end": wrong_truth(escape=escape_by(lambda data: loose(data) == 0, False)),
    "ends_behind_loose_data": wrong_truth(ended=ended_anyhow(lambda data: True)),
    "ends_without_early_ends": wrong_truth(ended=ended_anyhow(lambda data: loose(data) == 0)),
    "crc_without_room": wrong_truth(crc=but_for("crc", least=lambda n: 0)),
    "misaligned_without_room": wrong_truth(misaligned=but_for("misaligned", least=lambda n: 0)),
    "pads_with_room_for_data": wrong_truth(pads=but_for("pads", least=lambda n: n - 4)),
    "kept_without_room": wrong_truth(kept=but_for("kept", least=lambda n: 0)),
}


# ---- vectors: way, capacity, recording, answer. In a recording S is the start sequence and F the bench sheet's first frame; E and a pad count are the end that is
# right behind the last S, N and a pad count the same with another CRC

F = "1b1b1b1b01010101123456781b1b1b1b1a00b87b"


def spelled(text):
    front, letter, rest = re.match("([^EN]*)([EN]?)(.*)", text).groups()
    if not letter:
        return front.replace("S", START.hex()).replace("F", F)
    end = "1b1b1b1b1a" + rest[:2]
    right = crc(bytes.fromhex(spelled("S" + front.rpartition("S")[2]) + end)) ^ (letter == "N")
    return spelled(front + end + right.to_bytes(2, "little").hex() + rest[2:])


def rows(table):
    """Columns stand two blanks or more apart."""
    for row in filter(None, table.split("\n")):
        given, answer = row.split("  ", 1)
        way, capacity, text = given.split(" ")
        yield int(way), int(capacity), bytes.fromhex(spelled(text.strip("-"))), answer.strip()


VECTORS = list(rows("""
1 8 1bF                             hidden 1 21
2 8 1bF                             noise 1 1
1 8 00F                             noise 1 1
1 8 SaabbF                          cut 1 10
1 8 S1b1b1b1b02000000aaS123456      escape 1 16 | noise 17 17 | unfinished 18 28
1 7 F                               room 1 20
1 8 S123456781b1b1b1b1a00b87a       crc 1 20
1 8 F1b1bF00F                       hidden 21 43
1 12 S01020304051b1b1b1b1a04074f    crc+misaligned+pads 1 21
1 12 S1b1b1b1b1a014ff4              pads 1 16
1 12 S011b1b1b1b1a02161e            misaligned+pads 1 17
2 12 S0102031b1b1b1b1a03edf4        misaligned 1 19
1 8 SS1234                          cut 1 8 | unfinished 9 18
1 8 1b1b1b1b010101                  noise 1 7
1 8 F                               -
1 8 -                               -
1 0 SS                              room 1 13 | noise 14 16
2 8 1bS1b1b1b1b1b                   noise 1 1 | unfinished 2 14
3 1048577 -                         refused 4
2 1048577 -                         refused 5
"""))

# not the request's: searches; what a frame is cut by; room; escapes; ends, those read early too; refusals
MORE = list(rows("""
1 8 1b1b1b1b1bS                     noise 1 5 | unfinished 6 13
2 8 1b1b1b1b1bS                     noise 1 5 | unfinished 6 13
1 8 1b1b1b1b01S                     hidden 1 13
2 8 1b1b1b1b01S                     noise 1 5 | unfinished 6 13
1 8 1b1b1b1b0101011bF               noise 1 8
2 8 1b1b1b1b0101011bF               noise 1 8
1 8 1b1b1b1b1b1b1b1b01F             noise 1 9
1 8 1b1b1b1b1b1b1b1bF               hidden 1 28
1 8 1b1b1b1b1b1b1b1b1b1bF           noise 1 10
2 8 1b1b1b1b1b1b1b1bF               noise 1 8
1 8 1bFF                            hidden 1 21
1 8 1bFF00F                         hidden 1 21 | noise 42 42
1 8 1bF1bF                          hidden 1 42
2 8 1bF1bF                          noise 1 1 | noise 22 22
1 8 1bS00S                          hidden 1 10 | unfinished 11 18
1 8 001bSaaF                        hidden 1 11
1 8 1bS1b                           hidden 1 10
1 8 1b1b1b1b0100F                   noise 1 6
1 8 F1b                             noise 21 21
1 8 F1b1b1b1b                       noise 21 24
1 8 F00                             noise 21 21
1 8 FF                              -
1 8 FSF                             cut 21 28
1 8 S                               unfinished 1 8
1 8 SSS                             cut 1 8 | cut 9 16 | unfinished 17 24
1 8 00SF                            noise 1 1 | cut 2 9
1 8 S1bS00                          escape 1 16 | noise 17 18
1 3 SF                              room 1 16 | noise 17 28
1 4 SS                              cut 1 8 | unfinished 9 16
1 6 Saabb1b1b1b1b010101             unfinished 1 17
1 5 SaabbS                          room 1 18
1 6 SaabbS                          cut 1 10 | unfinished 11 18
1 0 S1b1b1b                         unfinished 1 11
1 0 S12                             room 1 9
1 0 S12F                            room 1 9 | room 10 18 | noise 19 29
1 1 S1212                           room 1 10
1 1 S1b1b00                         room 1 11
1 2 S1b1b00                         room 1 11
1 3 S1b1b00                         unfinished 1 11
1 4 S1b1b1b1b1b1b1b1b00             room 1 17
1 5 S1b1b1b1b1b1b1b1b00             unfinished 1 17
1 3 S1b1b1b1b1b1b1b1b               room 1 16
1 4 S1b1b1b1b1b1b1b1bE00            room 1 21 | noise 22 24
1 8 S1b1b1b1b1b1b1b1bE00            -
1 4 SE00                            -
1 3 SE00                            room 1 16
1 2 S001b1b1b1b1a                   unfinished 1 14
1 1 S001b1b1b1b1a00                 room 1 14 | noise 15 15
1 12 S1b1b1b1b1b1b1b1b01010101E00   -
1 12 S1b1b1b1b1b1b1b1b01010101N00   crc 1 28
1 8 S1b1b1b1b1b010101               escape 1 16
1 4 S1b1b1b1b02000000               escape 1 16
1 3 S1b1b1b1b02000000               room 1 16
1 8 S1b1b1b1b1b1b1b1a               escape 1 16
1 8 S1b1b1b1b01010100               escape 1 16
1 8 S0102031bE00                    -
1 8 S01021b1bE00                    -
1 8 S011b1b1bE00                    -
1 7 S011b1b1bE00                    room 1 20
1 4 S011b1b1bE00                    room 1 17 | noise 18 20
1 8 S0102031bN00                    crc 1 20
1 8 S0102031bE05                    pads 1 20
1 8 S0102031b1b1b1b1b1a00           unfinished 1 18
1 8 S0102031b1b1b1b1b1a00aa         unfinished 1 19
1 7 S12345678N00                    room 1 20
1 4 S12345678E05                    room 1 17 | noise 18 20
1 6 S010203E00                      room 1 19
1 8 S01021bE00                      escape 1 18 | noise 19 19
1 8 S011b1bE00                      escape 1 17 | noise 18 19
1 8 S0102031b1b1b1b1b001a00         escape 1 19
1 8 S0102001b1b1b1b1b1b1b1b         unfinished 1 19
1 8 S0102031b1b1b1b001aaabb         escape 1 19
1 12 S0102030405060708E03           -
1 12 S0102030405060708E04           pads 1 24
1 12 S0102030405060708N04           crc+pads 1 24
1 8 S01020304E03                    -
1 8 S010203E00                      misaligned 1 19
1 8 S010203N03                      crc+misaligned 1 19
1 12 S01E01                         misaligned 1 17
1 12 SE00SE03                       pads 17 32
1 12 SE02S                          pads 1 16 | unfinished 17 24
1 8 S1b1b1b1b1a0000aaFF             crc 1 16
1 8 1b1b1b1b1bF1b                   noise 1 5 | noise 26 26
1 1048576 1bF                       hidden 1 21
2 1048576 F                         -
0 8 F                               refused 4
3 8 1bF                             refused 4
255 8 F                             refused 4
0 1048577 F                         refused 4
1 1048577 1bF                       refused 5
"""))


def tells(why, cases, enough=None):
    """How many of the cases, with their answers, a reading by events answers otherwise; no more are looked at when there are enough."""
    told = (asked(way, capacity, data, why) != wanted for way, capacity, data, wanted in cases)
    return sum(itertools.islice(filter(None, told), enough))


def unlike(truths, cases, enough=None):
    """The same of a reading by the bytes alone; unclear is otherwise too. Refusals aren't its own."""
    told = (by_bytes(way, capacity, data, truths) != wanted for way, capacity, data, wanted in cases if not wanted.startswith("refused"))
    return sum(itertools.islice(filter(None, told), enough))


def by_bytes(way, capacity, data, truths=TRUE):
    try:
        return line(losses(accounts(data, way, [capacity], truths)[capacity]))
    except Unclear as unclear:
        return "unclear: %s" % unclear


def vector_faults():
    """Where a reading doesn't say what a vector does."""
    for way, capacity, data, wanted in VECTORS + MORE:
        said = [asked(way, capacity, data)] + [by_bytes(way, capacity, data)] * (not wanted.startswith("refused"))
        yield from ("%s\n  wanted   %s\n  answered %s" % (command(way, capacity, data), wanted, one) for one in said if one != wanted)


if __name__ == "__main__":
    faults = list(vector_faults())
    faults += [f"{name}: answers every vector as the right reading does" for name, why in WRONG.items() if not tells(why, VECTORS + MORE, 1)]
    faults += [f"{name}: is true of every vector as the right one is" for name, truths in WRONG_TRUTHS.items() if not unlike(truths, VECTORS + MORE, 1)]
    print("\n".join(faults[:8] + [f"{len(VECTORS)} vectors of the request, {len(MORE)} more; {len(WRONG)} wrong readings, {len(WRONG_TRUTHS)} wrong truths; {len(faults)} faults"]))
    sys.exit(1 if faults else 0)

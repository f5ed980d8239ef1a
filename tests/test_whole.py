"""One whole message in one call (document 02, Q-13), through `message` of bin/replay and the library's own call, which alone can be lent the longest
inputs: each held to tests/whole_reading.py, a second reading that was written from the request and not from the code.

The request's vectors; every field of a message bent in turn; random messages, right, bent, cut, or with a fault and the CRC that belongs to it, alone and
among others, read where they begin and anywhere, with tables about as long as their rows. Then the request's sentence, of the program's own answers and of
those of the readings: a message is accepted exactly if the event reader, lent no more than it, runs to its end without a refusal, and the table has room;
the fields are the events', and so is each entry, read at its row; the first refusal is the event reader's, place included; other bytes before and behind it,
or a longer table, change nothing. The event reader's calls are `places` and `events` of bin/replay, which begin at an input's start, so that it is lent the
bytes from the message's place on; in Python tests/places_reading.py and oracle/places.py; and where it is at hand the unchanged crate.
Each wrong reader of the reading must be seen: by the vectors, by the sentence alone, and by what is drawn.

`python3 tests/test_whole.py N` draws N cases, --all 30,000 and takes every bent field that is stored; the gate's 700 are the first of these. With --reading
no program of ours is asked: the readings are held to each other, and to the crate.
"""
import collections, os, random, re, subprocess, sys, tempfile

sys.dont_write_bytecode = True
os.chdir(os.path.join(os.path.dirname(os.path.abspath(__file__)), ".."))
sys.path += ["scripts", "oracle"]
import clink, messages, places
from message_vectors import bent as stored_bent, longer, placed
from messages import sealed
from places_reading import NAMES, Reading, crc
from programs import MAKING_READY
from sml import hexed
from whole_reading import FILL, MORE, RIGHT, ROW, TOP64, VECTORS, WRONG, WRONG_LENGTHS, Message, asked, longest, message_at, tells
from write_reading import RIGHT as WRITER, Close, End, Entry, List, Open, event, line

messages.crc = places.crc = crc  # the same by a table
SEED, GATE, ALL, BATCH, MOST_TOLD = 20251118, 700, 30000, 1000, 5000
LONGEST, ROOM = 70000, 1048577  # characters of a line, numbers of a table
KINDS = "TlfInvalidTy", "TlfReserved", "TlfNextByteTypeMismatch", "TlfLengthOverflow", "TlfLengthUnderflow"
STARTS = "open ", "close ", "list "
Case = collections.namedtuple("Case", "room at data")
faults, seen, questions = [], collections.Counter(), collections.Counter()


def fault(what, said, wanted):
    faults.append(f"{what[:600]}\n  wanted   {str(wanted)[:500]}\n  answered {str(said)[:500]}")


def held(what, said, wanted):
    if said != wanted:
        fault(what, said, wanted)


# ---- who is asked: a program, or the readings


def answers(words, lines):
    """A line for each."""
    run = subprocess.run(words, input="".join(one + "\n" for one in lines).encode(), capture_output=True)
    said = run.stdout.decode().split("\n")[:-1]
    told = [one for one in run.stderr.decode(errors="replace").splitlines() if not one.startswith(MAKING_READY)]
    if run.returncode or told or len(said) != len(lines):
        sys.exit(f"test_whole: {words[-1]}, status {run.returncode}, {len(lines)} lines in, {len(said)} out: {' '.join(told)[-300:]}")
    return said


def modelled(lines, reader=RIGHT):
    """`message` by the reading, or a wrong one; `places` and `events` by the reader of places_reading, which has the calls of the event reader."""
    for one in lines:
        word, *sizes, data = one.split(" ")
        data = bytes.fromhex(data.replace("-", ""))
        if word == "message":
            yield asked(*map(int, sizes), data, reader)
        else:
            said = Reading(data).line()
            yield said if word == "places" else no_places(said)


def no_places(said):
    return re.sub(r" \d+ @\d+", "", said)


def oracle():
    """The words that run the unchanged crate's driver, or None."""
    built = subprocess.run(["sh", "oracle/build"], stdout=subprocess.PIPE, text=True)
    if built.returncode == 3:
        print("skipped: what is read, read by the crate: " + built.stdout.strip())
        return None
    if built.returncode:
        sys.exit("test_whole: oracle/build, status %d" % built.returncode)
    return ["target/oracle/oracle"]


def command(c):
    return "message %d %d %s" % (c.room, c.at, hexed(c.data))


def events_of(data):
    return "places " + hexed(data)


def numbers(table):
    return ",".join(table) or "-"


# ---- messages that are drawn


def written(m):
    """A message as the writer writes what it says: the fewest bytes, times as lists."""
    return WRITER.file(map(event, Reading(m).events))


def right(r):
    """A message as it may be read, with lengths of more bytes than they need and bare times, or as it is written."""
    m = messages.message(r, 0)
    return m if r.random() < 0.6 else written(m)


def long_strings(r):
    """Strings of the lengths at which a length field grows, and one less."""
    n = r.choice((14, 15, 253, 254, 4092, 4093))
    text, short = r.randbytes(n), r.randbytes(3)
    entries = [Entry(text, None, None, None, None, ("u8", 7), None), Entry(short, None, None, None, None, ("oct", text), text)]
    whole = [List(short, 0, 0, None, text, None, None, 2), *entries, End(text, None)]
    return WRITER.file(r.choice((whole, [Close(text, 0, 0, short)], [Open(short, 0, 0, text, None, short, text, None, None)])))


SMALLEST = Entry(b"", None, None, None, None, ("oct", b""), None)


def listed(r, n=None, said=None):
    """A list of n entries that announces so many, with the right CRC."""
    n = r.choice((0, 1, 1, 2, 3, 5)) if n is None else n
    some = [SMALLEST, *(event(e) for m in (messages.message(r, 0) for _ in range(6)) for e in Reading(m).events if e.startswith("entry"))]
    start = List(r.randbytes(2), 0, 0, None, r.randbytes(1), None, None, n if said is None else said)
    return sealed(WRITER.start(start) + b"".join(map(WRITER.entry, r.choices(some, k=n))) + WRITER.list_end(End(None, None)))


def many(r):
    return listed(r, r.choice((15, 16, 17, 40, 255, 256, 257)))


def announced(r):
    """Another number of entries than there are."""
    n = r.randrange(5)
    return listed(r, n, r.choice((n + 1, max(0, n - 1), n + 3, 15, 16, 2**32 - 1, 2**32 - 3, r.getrandbits(32))))


def bent(r):
    """Some fields bent; the CRC is mostly that of what stands there."""
    return messages.message(r, r.choice((0.03, 0.1, 0.3)))


def fault_inside(r):
    """Some bytes changed, and the CRC that belongs to them."""
    return sealed(messages.mutated(r, r.choice((messages.body(r, 0), listed(r)[:-4]))))


def other_tag(r):
    """Another tag, of a message, a time or a list value, and the CRC that belongs to it."""
    m = bytearray(listed(r)[:-4] if r.random() < 0.5 else messages.body(r, 0))
    tags = [tag.end() - 1 for tag in re.finditer(rb"\x72(?:\x62|\x63.|\x65...)\x01", m, re.S)]
    m[r.choice(tags or [0])] = r.choice((0, 2, 3, 0x81, 255))
    return sealed(bytes(m))


def other_trailer(r):
    m = r.choice((messages.body(r, 0), listed(r)[:-4]))
    return m + messages.trailer(r, 1, m)


def cut(r):
    m = right(r)
    return m[: r.choice((r.randrange(len(m)), len(m) - 1, max(0, len(m) - r.randint(1, 6))))]


def changed(r):
    return messages.mutated(r, right(r))


def few(r):
    """Some bytes, of all or of those that lengths are made of."""
    n = r.choice((0, 1, 1, 2, 3, 6, 9))
    return r.choice((r.randbytes(n), bytes(r.choices(b"\x76\x72\x62\x65\x01\x00\x80\x81\x8f\xf0\xf7\xc1\x41\xff", k=n))))


WAYS = {right: 24, listed: 22, long_strings: 3, many: 2, announced: 5, bent: 14, fault_inside: 14, other_tag: 5, other_trailer: 14, cut: 9, changed: 9, few: 4}


def table_of(r, m):
    """A table about as long as the rows of a message, mostly with room for them; or a short one."""
    rows = len(m.rows) if isinstance(m, Message) else r.randrange(4)
    sizes = {ROW * rows + r.choice((0, 0, 1, 2, 3, 4, 9)): 10, ROW * rows - r.choice((1, 1, 2, 3, 4)): 4, rows + r.randrange(2): 1, r.randrange(20): 3, 0: 2}
    return max(0, r.choices(list(sizes), list(sizes.values()))[0])


def drawn(r):
    """An input and a place: mostly where a message begins, with others or any bytes before and behind it."""
    way = r.choices(list(WAYS), list(WAYS.values()))[0]
    before = [r.choice((right, right, few, bent))(r) for _ in range(r.choice((0, 0, 0, 1, 1, 2)))]
    behind = [r.choice((right, few, few, cut, bent, fault_inside))(r) for _ in range(r.choice((0, 0, 1, 1, 2)))]
    data, at = b"".join([*before, way(r), *behind]), sum(map(len, before))
    if r.random() < 0.03:  # what a meter sends: three messages
        way, data, at = "of a meter", r.choice(list(messages.payloads())), 0
        for _ in range(r.randrange(3)):
            at = message_at(data, at).next
    where = r.random()
    if where < 0.06:
        at = r.choice((len(data), len(data), len(data) + 1, len(data) + 1, 2**32 + at, 2**63, TOP64))
    elif where < 0.12:
        at = r.randint(0, len(data))
    c = Case(table_of(r, message_at(data, at)), at, data)
    if len(command(c)) > LONGEST - 200:  # some bytes may be put before and behind it
        return drawn(r)
    seen["way", way] += 1
    return c


def stored(r, every):
    """The inputs of oracle/message_vectors.py, at the message that is refused, or the last: each field bent in turn, with the number and place that are
    told there, and lengths of more bytes than they need."""
    given = [*placed(), *list(stored_bent())[::every]]
    for one in list(longer())[::every]:
        data = bytes.fromhex(one.split(" ")[1])
        given.append((data, *(places.refusal(data) or (None, None))))
    for data, number, place in given:
        at, m = 0, message_at(data, 0)
        while isinstance(m, Message) and m.next < len(data):
            at, m = m.next, message_at(data, m.next)
        held(f"oracle/message_vectors.py: message 0 {at} {data.hex()}", (None, None) if isinstance(m, Message) else m.args[:2], (number, place))
        yield Case(table_of(r, m), at, data)


# ---- the request's sentence, of whoever answers


class Said:
    """An answer of `message` in its parts; ValueError where it has another form."""

    def __init__(self, text):
        *parts, table = text.split(" | ")
        self.text, self.words, self.table = text, " | ".join(parts), [] if table == "-" else table.split(",")
        refusal = re.fullmatch(r"refused (\d+)(?: (Tlf\w+))?(?: @(\d+))?", self.words)
        self.number, self.kind, self.place = (int(refusal[1]), refusal[2], refusal[3] and int(refusal[3])) if refusal else (0, None, None)
        if refusal:
            return
        counts = re.fullmatch(r"rows (\d+) next (\d+)", parts[-1] if parts else "")
        if not counts or len(parts) != 2 + parts[0].startswith("list "):
            raise ValueError(text)
        self.start, self.end, self.rows, self.next = parts[0], parts[1:-1], int(counts[1]), int(counts[2])
        self.entries = list(zip(*[map(int, self.table[: ROW * self.rows])] * ROW))


def whole(parts):
    """Whether answers of `places` are those of exactly one message, read to its end."""
    if parts[-1] != "none" or len(parts) < 2:
        return False
    n = re.search(r" n=(\d+)$", parts[0]) if parts[0].startswith("list ") else None
    if n:
        return len(parts) == int(n[1]) + 3 and parts[-2].startswith("end ") and all(e.startswith("entry ") for e in parts[1:-2])
    return len(parts) == 2 and parts[0].startswith(("open ", "close "))


def not_whole(text):
    return not whole(text.split(" | "))


def moved(said, n):
    """A test for the same answer with all its places so much greater."""

    def same(text):
        other = Said(text)
        rows = [(name + n, a, start + n, b) for name, a, start, b in said.entries]
        return other.number == 0 and (other.start, other.end, other.entries, other.next) == (said.start, said.end, rows, said.next + n)

    return same


# a list of one entry around the bytes of any, so that they are read alone
BEFORE_ENTRY, BEHIND_ENTRY = bytes.fromhex("76016200620072630701770101010171"), b"\x01\x01"
ONE_ENTRY = "list tid=x group=0 abort=0 client=- server=x name=- time=- n=1 | %s | end sig=- time=- | none"


def accepted(r, c, said, rest):
    """What must be so of a message that is accepted, given what the event reader says from its place on. Gives what is to be asked then, with the answer
    or a test of it."""
    n = said.rows
    said.events = [*rest[: 2 + n if said.end else 1], "none"]
    held(f"{command(c)}: the fields", [said.start, *said.end], [*said.events[:1], *said.events[1 + n : -1]])
    held(f"{command(c)}: the table", (len(said.entries), said.table[ROW * n :]), (n, ["_"] * (c.room - ROW * n)))
    if not whole(said.events) or not c.at < said.next <= len(c.data) or n > c.room // ROW:
        return fault(command(c), said.text, "one whole message, within the input, and room for its rows")
    alone = c.data[c.at : said.next]
    yield "the message alone", events_of(alone), " | ".join(said.events)
    for k in {len(alone) - 1, r.randrange(len(alone))}:
        yield "the message cut", events_of(alone[:k]), not_whole
        yield "the message cut", command(c._replace(data=c.data[: c.at + k])), "refused 10 @%d | %s" % (c.at + k, numbers(["_"] * c.room))
    for tail in b"", b"\xff", few(r):
        yield "other bytes behind", command(c._replace(data=c.data[: said.next] + tail)), said.text
    more = r.randbytes(r.randint(1, 4))
    yield "other bytes before", command(c._replace(data=r.randbytes(c.at) + c.data[c.at :])), said.text
    yield "more bytes before", command(c._replace(at=c.at + len(more), data=more + c.data)), moved(said, len(more))
    for room in {ROW * n, ROW * n + 3, ROW * n + r.randrange(9)}:
        table = said.table[: ROW * n] + ["_"] * (room - ROW * n)
        yield "another table with room", command(c._replace(room=room)), said.words + " | " + numbers(table)
    for room in {ROW * n - 1, r.randrange(ROW * n), n} if n else ():
        yield "a table without room", command(c._replace(room=room)), "refused 20 | " + numbers(["_"] * room)
    behind = said.entries[0][2] if n else 0
    for (name, name_len, start, length), e in zip(said.entries, said.events[1:]):
        held(f"{command(c)}: the name at a row", "name=x" + c.data[name : name + name_len].hex(), e.split(" ")[1])
        held(f"{command(c)}: rows without a gap", start, behind)
        behind = start + length
    for k in range(n) if n <= 8 else {0, n - 1, r.randrange(n)}:
        entry = c.data[said.entries[k][2] :][: said.entries[k][3]]
        yield "the entry at a row", "events " + sealed(BEFORE_ENTRY + entry + BEHIND_ENTRY).hex(), ONE_ENTRY % said.events[1 + k]


def refused(r, c, said, rest):
    """The same of what is refused."""
    held(f"{command(c)}: the table", said.table, ["_"] * c.room)
    if c.at > len(c.data) or said.number == 4:
        return held(f"{command(c)}: a place beyond", (said.words, c.at > len(c.data)), ("refused 4", True))
    if said.number == 20:
        n = re.search(r"^list .* n=(\d+)$", rest[0])
        n = int(n[1]) if n else 0
        if said.words != "refused 20" or n <= c.room // ROW or len(rest) <= n + 2:
            return fault(command(c), said.text, "20 for a message that the event reader runs through, with more rows than there is room for")
        begun = " | ".join([rest[0], rest[1 + n], "rows %d next " % n])
        yield "with more room", command(c._replace(room=ROW * n)), lambda text: Said(text).words.startswith(begun)
        return
    if c.at == len(c.data):
        held(f"{command(c)}: at the input's end", (said.words, rest), ("refused 10 @%d" % len(c.data), ["none"]))
    else:
        first = next((k for k, e in enumerate(rest) if e.startswith("err ")), None)
        name = " ".join([NAMES.get(said.number, "?")] + [said.kind] * (said.kind is not None))
        said_so = "err %s %d @%d" % (name, said.number, (said.place or 0) - c.at)
        held(f"{command(c)}: the first refusal", said_so, None if first is None else rest[first])
        held(f"{command(c)}: where the event reader refuses first", sum(e.startswith(STARTS) for e in rest[:first]) <= 1, True)
    for room in {0, c.room + 1, ROW * 40}:
        yield "another table", command(c._replace(room=room)), said.words + " | " + numbers(["_"] * room)
    for k in {len(c.data), r.randint(c.at, len(c.data)), r.randint(c.at, len(c.data))}:
        yield "no whole message", events_of(c.data[c.at : k]), not_whole


def is_so(wanted, text):
    try:
        return wanted(text) if callable(wanted) else text == wanted
    except ValueError:
        return False


def sentence(who, ask, cases, r):
    """The sentence of some cases, of one that answers. Gives the answers, what the event reader says from each place on, and the cases that are accepted."""
    said, rest = ask([command(c) for c in cases]), ask([events_of(c.data[c.at :]) for c in cases])
    more, good, known = [], [], len(faults)
    for c, text, events in zip(cases, said, rest):
        try:
            one = Said(text)
        except ValueError:
            fault(command(c), text, "an answer of `message`")
            continue
        more += (refused if one.number else accepted)(r, c, one, events.split(" | "))
        good += [(c, one)] * (one.number == 0)
    for (what, asked_, wanted), text in zip(more, ask([one[1] for one in more])):
        questions[who, what] += 1
        if not is_so(wanted, text):
            fault(f"{what}: {asked_}", text, "what the sentence says of it" if callable(wanted) else wanted)
    faults[known:] = [f"{who}: {one}" for one in faults[known:]]
    return said, rest, good


# ---- a batch of cases


def counted(c, m):
    good = isinstance(m, Message)
    if good and len(m.rows) <= c.room // ROW:
        seen["accepted", type(m.start).__name__] += 1
        seen["rows"] += len(m.rows)
        seen["behind others"] += c.at > 0
        seen["before others"] += m.next < len(c.data)
        seen["not the fewest bytes"] += c.data[c.at : m.next] != WRITER.file([m.start, *m.entries, *[m.end] * (m.end is not None)])
        return
    number = 20 if good else m.number
    seen["refused", number] += 1
    seen["refused behind others", number] += 0 < c.at <= len(c.data)
    seen["kind", None if good else m.kind] += 1


def readings(c, m):
    """The reading beside both readers of events, that of oracle/places.py begun at the same place: the place behind the message, each refusal, every field."""
    if c.at <= len(c.data):
        i = places.Input(c.data)
        i.at = c.at
        try:
            places.message(i)
            said = i.at
        except places.Refused as f:
            said = (*f.args, None)[:3]
        held(f"oracle/places.py: {command(c)}", m.next if isinstance(m, Message) else m.args, said)
    if isinstance(m, Message):
        fields = [line(e) for e in (m.start, *m.entries, *[m.end] * (m.end is not None))]
        held(f"places_reading: {command(c)}", fields, Reading(c.data[c.at : m.next]).events)


def crate_agrees(crate, cases, rest, good):
    """The unchanged crate gives the same events from each place on, but for lengths and lists beyond the domain, and of each message that is accepted."""
    lines = [("events " + hexed(c.data[c.at :]), no_places(said)) for c, said in zip(cases, rest) if not messages.BEYOND.search(c.data[c.at :])]
    lines = [one for one in lines if not places.over_32_bits(one[0])]
    lines += [("events " + c.data[c.at : said.next].hex(), " | ".join(said.events)) for c, said in good]
    for (one, wanted), said in zip(lines, answers(crate, [one for one, _ in lines])):
        held(f"the crate: {one}", said, wanted)
    questions["the crate", "events"] += len(lines)


def batch(cases, seed, program, crate):
    for c in cases:
        m = message_at(c.data, c.at)
        counted(c, m)
        readings(c, m)
    wanted, rest, good = sentence("the readings", lambda lines: list(modelled(lines)), cases, random.Random(seed))
    if program:
        said, rest, good = sentence("bin/replay", lambda lines: answers(program, lines), cases, random.Random(seed))
        for c, one, other in zip(cases, said, wanted):
            held(command(c), one, other)
    if crate:
        crate_agrees(crate, cases, rest, good)
    return [(*c, one) for c, one in zip(cases, wanted)]


def missing():
    """What must be among the cases, and how often at least."""
    floors = {("accepted", "Open"): 25, ("accepted", "Close"): 25, ("accepted", "List"): 60, "rows": 250}
    floors |= {"behind others": 50, "before others": 50, "not the fewest bytes": 40}
    floors |= {("refused", n): 9 for n in (4, 10, 11, 12, 13, 14, 15, 20)} | {("refused behind others", n): 4 for n in (10, 11, 12, 13, 14, 15, 20)}
    floors |= {("kind", kind): 1 for kind in KINDS} | {("way", way): 4 for way in [*WAYS, "of a meter"]}
    return [f"{what}: {seen[what]}, and {n} are wanted" for what, n in floors.items() if seen[what] < n]


# ---- what is asked of bin/replay alone, and of the library's call

NO_COMMANDS = ["", " 1", " 1 0", " 1 0 ", " 1 0 0", "  1 0 -", " 1  0 -", " 1 0  -", " 1 0 - ", " 1 0 - 1", " -1 0 -", " 1 -1 -", " x 0 -", " 1 x -"]
NO_COMMANDS = ["message" + one for one in [*NO_COMMANDS, " 1 0 AB", " 1 0 0g", f" 1 {TOP64 + 1} -", f" {ROOM + 1} 0 -", f" {TOP64 + 1} 0 -"]]


def long_lines():
    """As many entries as a line of bin/replay holds, and the longest table."""
    n = (LONGEST - len("message 99999 0 ")) // 2 // 8 - 4
    m = WRITER.file([List(b"", 0, 0, None, b"", None, None, n)] + [SMALLEST] * n + [End(None, None)])
    return [Case(room, 0, m) for room in (ROW * n, ROW * n + 2, ROW * n - 1, ROOM)]


PROGRAM = """
#include <inttypes.h>
#include <stdio.h>
#include <stdlib.h>
#include <sartrogheo.h>

static char line[2 * SGH_LIMIT + 100];
static uint8_t bytes[SGH_LIMIT + 1];
static uint32_t table[SGH_LIMIT];
static uint64_t more[16][128];

static unsigned digit(char c)
{
    return c <= '9' ? (unsigned)(c - '0') : (unsigned)(c - 'a' + 10);
}

/* A line is N AT HEX; the answer is the call's number, then the table as it leaves it. */
int main(void)
{
    while (fgets(line, sizeof line, stdin) != NULL) {
        char *s;
        size_t n = strtoul(line, &s, 10), at = strtoul(s, &s, 10), len = 0;

        for (s++; *s != '\\n' && *s != '-'; s += 2)
            bytes[len++] = (uint8_t)(digit(s[0]) << 4 | digit(s[1]));
        for (size_t i = 0; i < n; i++)
            table[i] = FILL;
        more[0][0] = CALL;
        printf("%" PRIu64 " ", more[0][0]);
        for (size_t i = 0; i < n; i++)
            printf("%s%" PRIu32, i > 0 ? "," : "", table[i]);
        printf("%s\\n", n > 0 ? "" : "-");
    }
    return 0;
}
"""
NAME, HEADER = "sgh_read_message", "include/sartrogheo.h"


def call():
    """The library's call, lent what its prototype asks for: bytes and table, each with its length, the place, and other memory for whatever else it writes."""
    header = re.sub(r"/\*.*?\*/", "", open(HEADER, encoding="utf-8").read(), flags=re.S)
    found = re.search(r"^uint32_t %s\(([^)]*)\);" % NAME, header, re.M)
    if not found:
        sys.exit(f"test_whole: {HEADER} has no {NAME}")
    words = []
    for k, one in enumerate(re.split(r",\s*", found[1]), 1):
        if "*" in one or "[" in one:
            words.append("bytes" if "const uint8_t *" in one else "table" if "uint32_t *" in one else f"(void *)more[{k}]")
        else:
            words.append({"bytes": "len", "table": "n"}.get((words or [""])[-1], "at"))
    held(f"what {NAME} is lent", [w for w in words if w[0] != "("], ["bytes", "len", "at", "table", "n"])
    return f"{NAME}({', '.join(words)})"


def called(rows):
    """The vectors and the longest inputs by the library's call: its number, and the table."""
    with tempfile.TemporaryDirectory() as folder:
        source = os.path.join(folder, "whole.c")
        with open(source, "w", encoding="utf-8") as f:
            f.write(PROGRAM.replace("FILL", str(FILL)).replace("CALL", call()))
        program = clink.built(source, os.path.join(folder, "whole"))
        said = answers(program, ["%d %d %s" % (room, at, hexed(data)) for room, at, data, _ in rows])
    for (room, at, data, wanted), one in zip(rows, said):
        words, _, table = wanted.rpartition(" | ")
        number = re.match(r"refused (\d+)", words)
        wanted = (number[1] if number else "0") + " " + table.replace("_", str(FILL))
        held(f"{NAME}: {room} numbers, place {at}, {len(data):,} bytes {data.hex()[:200]}", one, wanted)


def asked_alone(program, vectors, long):
    for (*case, wanted), said in zip(vectors, answers(["bin/replay"], [command(Case(*row[:3])) for row in vectors])):
        held(f"a vector: {command(Case(*case))}", said, wanted)
    lines = long_lines()
    for c, said in zip(lines, answers(program, [command(c) for c in lines])):
        held(f"as much as a line holds: {command(c)[:50]}", said, asked(*c))
    held("no commands", answers(program, NO_COMMANDS), ["bad command"] * len(NO_COMMANDS))
    called(vectors + long)


# ---- wrong readers


def broken(reader, cases):
    """How many faults the sentence alone finds with a reader."""
    known, before = len(faults), questions.copy()
    sentence("wrong", lambda lines: list(modelled(lines, reader)), cases, random.Random(SEED))
    found = len(faults) - known
    del faults[known:]
    questions.clear()
    questions.update(before)
    return found


def wrong_readers(vectors, long, cases, enough):
    """Each must be told by a vector and, but for those about the longest inputs, by a case that was drawn and by the sentence of the vectors' inputs alone.
    Gives how many vectors and cases tell it."""
    told = {}
    for name, reader in WRONG.items():
        about_length = name in WRONG_LENGTHS
        told[name] = tells(reader, long[:-2] if about_length else vectors), 0 if about_length else tells(reader, cases)
        if not told[name][0]:
            faults.append(f"{name}: no vector tells it from the right reader")
        if not about_length and not told[name][1] and enough:
            faults.append(f"{name}: no case that was drawn tells it from the right reader")
        if not about_length and not broken(reader, [Case(*row[:3]) for row in vectors]):
            faults.append(f"{name}: the sentence is true of it")
    return told


def main():
    given = [int(w) for w in sys.argv[1:] if w.isdigit()]
    if set(sys.argv[1:]) - {"--all", "--reading"} - set(map(str, given)):
        sys.exit("test_whole.py [N | --all] [--reading]")
    everything, n = "--all" in sys.argv, ALL if "--all" in sys.argv else (given + [GATE])[0]
    crate, program = oracle(), None if "--reading" in sys.argv else clink.replay()
    vectors, long = VECTORS + MORE, list(longest())
    held("vectors of the request", len(VECTORS), 18)
    for room, at, data, wanted in vectors + long:
        held(f"the reading: {room} numbers, place {at}, {len(data):,} bytes {data.hex()[:200]}", asked(room, at, data), wanted)
    if program:
        asked_alone(program, vectors, long)
    batch([Case(*row[:3]) for row in vectors], SEED, program, crate)
    fields = list(stored(random.Random(SEED), 1 if everything else 12))
    batch(fields, SEED, program, crate)
    seen.clear()
    r, done, some = random.Random(SEED), 0, []
    while done < n:
        cases = batch([drawn(r) for _ in range(min(BATCH, n - done))], SEED + done, program, crate)
        done += len(cases)
        some += cases[: MOST_TOLD - len(some)]
    told = wrong_readers(vectors, long, some, n >= GATE)
    faults.extend(missing() if n >= GATE else [])
    for one in sorted(faults, key=len)[:8]:
        print(one)
    if faults:
        sys.exit(f"{len(faults)} faults")
    kinds = {kind: seen["accepted", kind] for kind in ("Open", "Close", "List")}
    asked_more = sum(k for (who, _), k in questions.items() if who == "bin/replay")
    print("wrong readers, and how many vectors and cases tell each: " + ", ".join(f"{name} {a} {b}" for name, (a, b) in told.items()))
    print(f"whole: {len(VECTORS)} vectors of the request, {len(MORE)} more, {len(long)} of the longest inputs; {len(fields):,} bent fields; {done:,} cases, "
          f"{sum(kinds.values()):,} accepted ({', '.join(f'{kind} {k:,}' for kind, k in kinds.items())}; {seen['rows']:,} rows), "
          f"refused {', '.join(f'{k}: {seen[what, k]:,}' for what, k in sorted(key for key in seen if key[0] == 'refused'))}; "
          f"{asked_more:,} more questions to bin/replay, {questions['the crate', 'events']:,} to the crate; {len(WRONG)} wrong readers seen")


main()

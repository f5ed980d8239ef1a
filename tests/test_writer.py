"""A writer for messages (document 02, Q-1), through `rewrite` of bin/replay, bin/smlmeter and the library's own call (tests/writer.c), each held to tests/write_reading.py, a second reading that was written from the request and not from the code.

The request's vectors; every open, close, list, end and entry over a few values a field; random files, among them strings about the lengths at which a length takes one byte more; random calls of `rewrite`, over messages as they are written, as they may be read, and broken;
random calls with any writer, any spans and any output, and with words that no event has. What is written is read back by `events` of bin/replay and, where it is at hand, by the unchanged crate: the same fields, of a value or status the kind and number. Each wrong writer of the reading must be seen by the vectors,
and by what is drawn. Then bin/smlmeter as its user meets it: examples/meter.txt, what it can't read, line by line, the longest line and the longest frame, and how it ends.

`python3 tests/test_writer.py N` runs N files, calls of `rewrite` and calls; --all 20,000 of each, where the gate has 400.
"""
import collections, itertools, os, random, re, select, subprocess, sys, tempfile

sys.dont_write_bytecode = True
os.chdir(os.path.join(os.path.dirname(os.path.abspath(__file__)), ".."))
sys.path += ["scripts", "oracle"]
import clink, messages, sml
from places_reading import crc
from programs import MAKING_READY
from write_reading import BAD, CALLS, FIELDS, FORMS, MORE_CALLS, MORE_FIELDS, RIGHT, WORDS, WRONG, Close, End, Entry, List, Open, Span, Writing, bound, calls_of, disagreements, event, fields_of, line, meaning, strings_of

sml.crc = crc  # the same by a table: frames of a megabyte are made of it
SEED, GATE, ALL, BATCH = 20251117, 400, 20000, 2000
LIMIT, LONGEST = 1048576, 70000  # bytes of messages in a frame, characters of a line
READ_BACK = (LONGEST - len("events ")) // 2  # what one command of bin/replay holds
TOP32, TOP64 = 2**32 - 1, 2**64 - 1
LENGTHS = (14, 15, 253, 254, 4092, 4093)  # of strings: the last that a length of one byte, two or three holds, and the next
KINDS = ["bool", "oct", "list"] + [letter + bits for letter in "iu" for bits in ("8", "16", "32", "64")]
faults, seen = [], collections.Counter()


def held(what, said, wanted):
    if said != wanted:
        faults.append(f"{what}\n  wanted   {str(wanted)[:500]}\n  answered {str(said)[:500]}")


def told(errors):
    """What is left on standard error beside what is said while a command makes ready."""
    return b"".join(one for one in errors.splitlines(keepends=True) if not one.startswith(tuple(map(str.encode, MAKING_READY))))


def answers(words, lines):
    """A line for each."""
    run = subprocess.run(words, input="".join(one + "\n" for one in lines).encode(), capture_output=True)
    said = run.stdout.decode().split("\n")[:-1]
    if run.returncode or told(run.stderr) or len(said) != len(lines):
        sys.exit(f"test_writer: {words[-1]}, status {run.returncode}, {len(lines)} lines in, {len(said)} out: {run.stderr.decode(errors='replace')[-300:]}")
    return said


# ---- what is counted, so that nothing is missing unseen


def counted(e):
    for s in strings_of(e):
        seen["string of", len(s)] += 1
    for name, x in e._asdict().items():
        if x is None or x == b"":
            seen[WORDS[type(e)], name, "absent" if x is None else "empty"] += 1
    if type(e) is Entry:
        seen["value", e.value[0]] += 1
        seen["status", e.status and e.status[0]] += 1
    if type(e) is List:
        seen["entries", e.n] += 1


def missing():
    """What must be among all that was written and asked, and how often at least."""
    floors = {("string of", n): 15 for n in LENGTHS} | {("value", kind): 50 for kind in KINDS} | {("status", kind): 50 for kind in (None, "u8", "u16", "u32", "u64")}
    floors |= {("entries", n): 2 for n in (0, 1, 15, 16, 255, 256, 257)} | {("refused", n): 30 for n in (4, 16, 17, 18)} | {("call", n): 30 for n in (0, 4, 16, 17, 18)}
    floors |= {(word, letter.split("=")[0], "absent"): 20 for word, (_, letters) in FORMS.items() for letter in letters.split(" ") if letter[-1] in "OTUbi"}
    floors |= {(word, letter.split("=")[0], "empty"): 20 for word, (_, letters) in FORMS.items() for letter in letters.split(" ") if letter[-1] in "OS"}
    floors |= {("CRC of one byte",): 5, ("no event",): 20, ("broken",): 20, ("as it may be read",): 20, ("words that no event has",): 30}
    return [f"{' '.join(map(str, key))}: {seen[key]}, and {n} are wanted" for key, n in floors.items() if seen[key] < n]


# ---- fields that are drawn


def near(r, bits, signed=False):
    """A number of so many bits, mostly about a power of two."""
    low, high = (-(2 ** (bits - 1)), 2 ** (bits - 1) - 1) if signed else (0, 2**bits - 1)
    x = r.choice((2 ** r.randint(0, bits) + r.randint(-1, 1), r.getrandbits(r.randint(1, bits)), r.randrange(3)))
    return min(high, max(low, r.choice((x, -x)) if signed else x))


def string(r, long=0.05):
    n = r.choice(LENGTHS + LENGTHS[:4] * 3) if r.random() < long else r.choice((0, 1, 2, 3, 4, 6, 6, 10, 13, 14, 15, 16, 48))
    return r.choice((r.randbytes(n), bytes(n), b"\x1b" * n))


def maybe(r, x):
    return x if r.random() < 0.6 else None


def value(r, long):
    kind = r.choice(KINDS)
    return kind, r.randrange(2) if kind == "bool" else string(r, long) if kind == "oct" else near(r, 32) if kind == "list" else near(r, int(kind[1:]), kind[0] == "i")


def drawn(r, form, long=0.05, n=0):
    """An event of this form."""
    text, time, byte = lambda: string(r, long), lambda: near(r, 32), lambda: near(r, 8)
    head = (text(), byte(), byte())
    if form is Open:
        return Open(*head, maybe(r, text()), maybe(r, text()), text(), text(), maybe(r, time()), maybe(r, byte()))
    if form is Close:
        return Close(*head, maybe(r, text()))
    if form is List:
        return List(*head, maybe(r, text()), text(), maybe(r, text()), maybe(r, time()), n)
    if form is End:
        return End(maybe(r, text()), maybe(r, time()))
    bits = r.choice((8, 16, 32, 64))
    return Entry(text(), maybe(r, ("u%d" % bits, near(r, bits))), maybe(r, time()), maybe(r, byte()), maybe(r, near(r, 8, True)), value(r, long), maybe(r, text()))


def message(r):
    form = r.choice((Open, Close, List, List))
    if form is not List:
        return [drawn(r, form)]
    n = r.choice((0, 1, 1, 2, 3, 5) * 8 + (15, 16, 255, 256, 257))
    long = 0 if n > 16 else 0.05
    return [drawn(r, List, long, n), *(drawn(r, Entry, long) for _ in range(n)), drawn(r, End, long)]


def file(r):
    """Messages of one payload that a command of bin/replay holds."""
    while True:
        parts = [message(r) for _ in range(r.choice((1, 1, 2, 3)))]
        if len(RIGHT.file(sum(parts, []))) <= READ_BACK:
            return parts


# ---- all small cases


def small():
    """Every event over a few values a field, in messages of a payload each."""
    text, opt, some = (b"", b"a"), (None, b"", b"a"), (None, 0, 256)
    numbers = [("i8", x) for x in (0, -1, 127, -128)] + [("i16", x) for x in (128, -129)] + [("u8", 0), ("u8", 255), ("u64", 256)]
    values = [("bool", 0), ("bool", 1), ("oct", b""), ("oct", b"a"), ("list", 0), *numbers]
    opens = [Open(*x) for x in itertools.product(text, (0, 255), (0, 1), opt, opt, text, text, some, (None, 0, 255))]
    closes = [Close(*x) for x in itertools.product(text, (0, 1, 255), (0, 1, 255), opt)]
    entries = [Entry(*x) for x in itertools.product(text, (None, ("u8", 0), ("u32", 255), ("u64", 256)), some, (None, 0, 255), (None, 0, -128, 127), values, opt)]
    lists = [[List(*x, 0), End(*y)] for x in itertools.product(text[:1], (0, 255), (1,), opt, text, opt, some) for y in itertools.product(opt, some)]
    for n in range(0, len(opens), 600):
        yield [[e] for e in opens[n : n + 600]]
    yield [[e] for e in closes]
    for n in range(0, len(lists), 400):
        yield lists[n : n + 400]
    for n in range(0, len(entries), 900):
        part = entries[n : n + 900]
        yield [[List(b"", 0, 0, None, b"", None, None, len(part)), *part, End(None, None)]]


def by_length():
    """Every string of an event with each length at which a length field grows."""
    r = random.Random(SEED)
    for form in Open, Close, List, Entry, End:
        whole = Entry(b"n", None, None, None, None, ("oct", b"v"), b"s") if form is Entry else form(*(b"s" if one[-1] in "SO" else 0 for one in FORMS[WORDS[form]][1].split(" ")))
        for name in (name for name, x in whole._asdict().items() if isinstance(x, (bytes, tuple))):
            parts = []
            for n in LENGTHS:
                text = r.randbytes(n)
                one = whole._replace(**{name: ("oct", text) if name == "value" else text})
                around = List(b"", 0, 0, None, b"", None, None, int(form is Entry)), End(None, None)
                parts.append([one] if form in (Open, Close) else [one, around[1]] if form is List else [around[0], one] if form is End else [around[0], one, around[1]])
            yield parts


# ---- written by bin/smlmeter, read back


def one_byte_sum(m):
    c = crc(m[:-3])
    return m[-3:] == bytes([0x62, c >> 8, 0]) and c & 0xFF == 0


def meter(words, files):
    """Each file as a frame: what the program writes, and the payload by the reading."""
    payloads = []
    for parts in files:
        payloads.append(b"")
        for part in parts:
            one = RIGHT.file(part)
            payloads[-1] += one
            seen["CRC of one byte",] += one_byte_sum(one)
            for e in part:
                counted(e)
    given = "\n".join("".join(line(e) + "\n" for part in parts for e in part) for parts in files)
    run = subprocess.run(words, input=given.encode(), capture_output=True)
    held("smlmeter: status and standard error", (run.returncode, run.stderr[:300]), (0, b""))
    wanted = [sml.frame(p) for p in payloads]
    if run.stdout != b"".join(wanted):
        at = 0
        for parts, f in zip(files, wanted):
            held(f"smlmeter: {line(parts[0][0])[:200]} ...", run.stdout[at : at + len(f)].hex(), f.hex())
            at += len(f)
    return payloads


def reads_back(who, words, files, payloads):
    lines = ["events " + sml.hexed(p) for p in payloads]
    for parts, said in zip(files, answers(words, lines)):
        wanted = " | ".join([line(e) for part in parts for e in part] + ["none"])
        if meaning(said) != meaning(wanted):
            held(f"read back by {who}", meaning(said), meaning(wanted))


def oracle():
    """The unchanged crate's driver, or None."""
    built = subprocess.run(["sh", "oracle/build"], stdout=subprocess.PIPE, text=True)
    if built.returncode == 3:
        print("skipped: what is written, read back by the crate: " + built.stdout.strip())
        return None
    if built.returncode:
        sys.exit("test_writer: oracle/build, status %d" % built.returncode)
    return ["target/oracle/oracle"]


# ---- calls of `rewrite`


def rewriting(r):
    """Messages as they are written, as they may be read (lengths of more bytes than they need, bare times), or broken; an output about as long as it takes."""
    sort = r.random()
    while True:
        data = RIGHT.file(sum((message(r) for _ in range(r.choice((1, 1, 2, 3)))), [])) if sort < 0.5 else b"".join(messages.message(r, 0) for _ in range(r.choice((1, 1, 2)))) if sort < 0.8 else messages.file(r)
        if len(data) < 8000:
            break
    seen["broken" if sort >= 0.8 else "as it may be read" if sort >= 0.5 else "as it is written",] += 1
    steps = r.choice((len(data) // 9 + 2, 3, 6))
    ops = "".join(r.choices(".-+", (r.choice((90, 8)), 2, 2), k=r.randint(1, min(steps, 300))))
    at = r.choice((0, 0, 0, 0, r.randint(0, 9)))
    room = max(0, r.choice((at + len(data), at + len(data) + r.randint(-9, 9), r.randint(0, at + len(data) + 9))))
    at = at if r.random() < 0.9 else r.choice((room, room + 1, max(0, room - 1), r.randint(0, TOP64), TOP64))
    most = [] if r.random() < 0.7 else [str(r.choice((r.randint(0, len(data)), max(0, len(data) - r.randint(0, 30)), len(data) + 1)))]
    return " ".join(["rewrite", str(room), str(at), ops, sml.hexed(data), *most])


def rewrites(r, n):
    lines = [rewriting(r) for _ in range(n)]
    for command, said in zip(lines, answers(clink.replay(), lines)):
        held(command[:300], said, RIGHT.rewrite(command))
        for word in said.split(" | ")[:-1]:
            seen[("refused", int(word[8:])) if word.startswith("refused") else (word.split(" ")[0] if word != "no event" else word,)] += 1
    return list(zip(lines, (RIGHT.rewrite(command) for command in lines[:200])))


# ---- calls of the library, with any writer, spans and output


def words_of(e):
    """An event in 24 words, as include/sartrogheo.h has them; its strings are spans."""
    opt = lambda x: [0, 0, 0] if x is None else [1, *x]
    number = lambda x: [0, 0] if x is None else [1, x % 2**64]
    if type(e) is Entry:
        kind, x = e.value
        status = [0, 0, 0] if e.status is None else [1, int(e.status[0][1:]) // 8, e.status[1]]
        plain = {"bool": 1, "oct": 2, "list": 5}.get(kind) or (3 if kind[0] == "i" else 4)
        said = [plain, 0 if plain in (1, 2, 5) else int(kind[1:]) // 8, *([0, *x] if kind == "oct" else [x % 2**64, 0, 0])]
        out = [3, *e.name, *status, *number(e.time), *number(e.unit), *number(e.scaler), *said, *opt(e.sig)]
    elif type(e) is End:
        out = [2, *opt(e.sig), *number(e.time)]
    else:
        out = [1, *e.tid, e.group, e.abort]
        if type(e) is Open:
            out += [1, *opt(e.codepage), *opt(e.client), *e.file, *e.server, *number(e.time), *number(e.version)]
        elif type(e) is Close:
            out += [2, *opt(e.sig)]
        else:
            out += [3, *opt(e.client), *e.server, *opt(e.name), *number(e.time), e.n]
    return out + [0] * (24 - len(out))


def span(r, strings, bad):
    """A part of the strings, the empty one behind their last byte with it; or one that is none, such as one whose end passes 64 bits."""
    start = r.randint(0, len(strings))
    if not bad:
        return Span(start, r.choice((0, len(strings) - start, r.randint(0, len(strings) - start))))
    return r.choice((Span(start, len(strings) - start + 1), Span(len(strings) + 1, 0), Span(TOP64, 1), Span(TOP64, 2), Span(1, TOP64), Span(start, TOP64), Span(2**63, 2**63), Span(2**32, 0), Span(start, 2**32 + r.randint(0, 9))))


def forged(r):
    """An event with spans, strings, an output and a list's writer."""
    strings, e = r.randbytes(r.choice((0, 1, 9, 20, 300))), drawn(r, r.choice((Open, Close, List, Entry, Entry, End)), 0, near(r, 32))
    bad = r.choice((None,) * 3 + tuple(range(6)))
    spans = iter([span(r, strings, k == bad) for k in range(6)])
    e = type(e)(*(next(spans) if isinstance(x, bytes) else (x[0], next(spans)) if name == "value" and x[0] == "oct" else x for name, x in e._asdict().items()))
    good = all(isinstance(s, Span) and s.start + s.len <= len(strings) for s in strings_of(e))
    size = len(RIGHT.part(bound(e, strings), Writing(0, 0, 0))[0]) if good else 20
    place = r.choice((0, 0, r.randint(0, 20)))
    out = r.randbytes(max(0, place + size + r.choice((0, 0, 1, -1, r.randint(-size, 20)))))
    if r.random() < 0.1:
        place = r.choice((len(out), len(out) + 1, TOP64, 2**63, 2**32 + place))
    left = r.choice((1, 2, TOP32, near(r, 32))) if type(e) is Entry and r.random() < 0.7 else r.choice((0, 0, 0, 1, TOP32, None))
    return out, strings, e, Writing(place, left, 0 if left is None else r.getrandbits(16))


def written_words(w):
    return [w.place, 0, 0, 0] if w.left is None else [w.place, 1, w.left, w.crc]


def asked(out, strings, words, writer):
    return " ".join([sml.hexed(out), sml.hexed(strings), *map(str, words), *map(str, writer)])


def no_events(r):
    """Words that no event has: of events that would be written each word changed to what its field can't be."""
    whole = Entry(Span(0, 1), ("u8", 1), 1, 1, 1, ("u8", 1), Span(0, 1))
    e, o, c, l, x = (words_of(y) for y in (whole, Open(Span(0, 1), 1, 1, Span(0, 1), Span(0, 1), Span(0, 1), Span(0, 1), 1, 1), Close(Span(0, 1), 1, 1, Span(0, 1)), List(Span(0, 1), 1, 1, Span(0, 1), Span(0, 1), Span(0, 1), 1, 1), End(Span(0, 1), 1)))
    wide, minus = 2**32, TOP64 - 128
    changes = [(e, {0: k}) for k in (0, 4, 5, 6, TOP64)] + [(c, {5: k}) for k in (0, 4, TOP64)]
    changes += [(o, {3: 256}), (o, {4: 256}), (o, {6: 2}), (o, {9: TOP64}), (o, {16: 2}), (o, {17: wide}), (o, {18: 2}), (o, {19: 256}), (c, {6: 2}), (l, {6: 2}), (l, {11: 2}), (l, {14: 2}), (l, {15: wide}), (l, {16: wide}), (x, {1: 2}), (x, {4: 2}), (x, {5: wide})]
    changes += [(e, {3: 2}), (e, {4: 0}), (e, {4: 3}), (e, {4: 9}), (e, {5: 256}), (e, {4: 2, 5: 65536}), (e, {4: 4, 5: wide}), (e, {6: 2}), (e, {7: wide}), (e, {8: 2}), (e, {9: 256}), (e, {10: 2}), (e, {11: 128}), (e, {11: minus}), (e, {17: 2})]
    changes += [(e, {12: 0}), (e, {12: 6}), (e, {13: 0}), (e, {13: 3}), (e, {13: 16}), (e, {14: 256}), (e, {13: 4, 14: wide}), (e, {12: 3, 14: 128}), (e, {12: 3, 14: minus}), (e, {12: 1, 13: 0, 14: 2}), (e, {12: 5, 13: 0, 14: wide})]
    # what an event doesn't use is 0
    changes += [(o, {20: 1}), (c, {9: 1}), (l, {17: 1}), (x, {6: 1}), (e, {23: 1}), (c, {6: 0}), (e, {3: 0}), (e, {8: 0}), (e, {15: 1}), (e, {12: 1})]
    for words, change in changes:
        yield [change.get(k, word) for k, word in enumerate(words)]


def calls(program, r, n):
    given = [forged(r) for _ in range(n)]
    wrong = list(no_events(r))
    lines = [asked(out, strings, words_of(e), written_words(w)) for out, strings, e, w in given] + [asked(bytes(99), b"abc", words, [0, 1, int(words[0] == 3), 9]) for words in wrong]
    said = answers(program, lines)
    for (out, strings, e, w), one, command in zip(given, said, lines):
        number, after, writer = RIGHT.call(out, strings, e, w)
        held(f"sgh_write_event, {WORDS[type(e)]}: {command[:300]}", one, " ".join([str(number), sml.hexed(after), *map(str, written_words(writer))]))
        seen["call", number] += 1
    for words, one in zip(wrong, said[n:]):
        held(f"sgh_write_event, words that no event has: {words}", one, " ".join([str(BAD), bytes(99).hex(), "0", "1", str(int(words[0] == 3)), "9"]))
        seen["words that no event has",] += 1


# ---- bin/smlmeter as its user meets it

GOOD = "close tid=xdd43 group=0 abort=0 sig=-"
LIST_OF = "list tid=x group=0 abort=0 client=- server=x name=- time=- n=%d"
ENTRY = "entry name=x status=- time=- unit=- scaler=- value=u8:7 sig=-"
# what is no event: the line, and what is told of it
NO_EVENTS = [
    ("hello", "no event: it begins with none of open, close, list, entry and end"),
    (" " + GOOD, "no event: it begins with none of open, close, list, entry and end"),
    (" ", "no event: it begins with none of open, close, list, entry and end"),
    ("none", "no event: it begins with none of open, close, list, entry and end"),
    ("close", "tid: this field must stand here"),
    ("close ", "tid: this field must stand here"),
    (GOOD.replace(" group", "  group"), "group: this field must stand here"),
    (GOOD.replace("tid", "id"), "tid: this field must stand here"),
    (GOOD.replace("group=0 abort=0", "abort=0 group=0"), "group: this field must stand here"),
    (GOOD.replace("sig=", "sig"), "sig: this field must stand here"),
    (GOOD + " ", "more stands behind the last field"),
    (GOOD + " sig=-", "more stands behind the last field"),
    (GOOD + "-", "sig: no string: x and hex, or -"),
    (GOOD[:-1], "sig: no string: x and hex, or -"),
    (GOOD[:-1] + "x0", "sig: half a byte of hex"),
    (GOOD[:-1] + "xAB", "sig: no hex in lower case"),
    (GOOD[:-1] + "x0g", "sig: no hex in lower case"),
    (GOOD.replace("xdd43", "-"), "tid: no string: x and hex"),
    (GOOD.replace("xdd43", "dd43"), "tid: no string: x and hex"),
    (GOOD.replace("group=0", "group="), "group: no number"),
    (GOOD.replace("group=0", "group=-"), "group: no number"),
    (GOOD.replace("group=0", "group=+1"), "group: no number"),
    (GOOD.replace("group=0", "group=a"), "group: no number"),
    (GOOD.replace("group=0", "group=256"), "group: a number out of range"),
    (GOOD.replace("abort=0", "abort=99999999999999999999"), "abort: a number out of range"),
    (LIST_OF % 4294967296, "n: a number out of range"),
    (LIST_OF.replace("time=-", "time=5") % 0, "time: no time: sec: and a number"),
    (LIST_OF.replace("time=-", "time=sec:4294967296") % 0, "time: a number out of range"),
    (LIST_OF.replace("time=-", "time=sec:") % 0, "time: no number"),
] + [
    (ENTRY.replace(old, new), fault)
    for old, new, fault in [
        ("status=-", "status=5", "status: no status: u8:, u16:, u32: or u64: and a number"),
        ("status=-", "status=u8", "status: no status: u8:, u16:, u32: or u64: and a number"),
        ("status=-", "status=i8:5", "status: no status: u8:, u16:, u32: or u64: and a number"),
        ("status=-", "status=u24:5", "status: no status: u8:, u16:, u32: or u64: and a number"),
        ("status=-", "status=u8:256", "status: a number out of range"),
        ("status=-", "status=u16:65536", "status: a number out of range"),
        ("status=-", "status=u32:4294967296", "status: a number out of range"),
        ("status=-", "status=u64:18446744073709551616", "status: a number out of range"),
        ("unit=-", "unit=256", "unit: a number out of range"),
        ("unit=-", "unit=-1", "unit: no number"),
        ("scaler=-", "scaler=128", "scaler: a number out of range"),
        ("scaler=-", "scaler=-129", "scaler: a number out of range"),
        ("scaler=-", "scaler=--1", "scaler: no number"),
        ("u8:7", "-", "value: no value: bool:, oct:, list:sec:, i8: to i64: or u8: to u64:"),
        ("u8:7", "7", "value: no value: bool:, oct:, list:sec:, i8: to i64: or u8: to u64:"),
        ("u8:7", "oct", "value: no value: bool:, oct:, list:sec:, i8: to i64: or u8: to u64:"),
        ("u8:7", "u7:7", "value: no value: bool:, oct:, list:sec:, i8: to i64: or u8: to u64:"),
        ("u8:7", "u8:256", "value: a number out of range"),
        ("u8:7", "u8:-1", "value: no number"),
        ("u8:7", "i8:128", "value: a number out of range"),
        ("u8:7", "i8:-129", "value: a number out of range"),
        ("u8:7", "i64:9223372036854775808", "value: a number out of range"),
        ("u8:7", "i64:-9223372036854775809", "value: a number out of range"),
        ("u8:7", "i8:-", "value: no number"),
        ("u8:7", "bool:2", "value: a number out of range"),
        ("u8:7", "oct:x00", "value: half a byte of hex"),
        ("u8:7", "oct:-", "value: half a byte of hex"),
        ("u8:7", "list:5", "value: no time: sec: and a number"),
    ]
]
# events that are out of place: the frame's lines, the line that is refused, counted from 1, and what is told of it; the frame's end is the line behind its last
OUT_OF_PLACE = [
    ([ENTRY], 1, "refused 17 WrongNumber: no list is begun"),
    (["end sig=- time=-"], 1, "refused 17 WrongNumber: no list is begun"),
    ([GOOD, ENTRY], 2, "refused 17 WrongNumber: no list is begun"),
    ([LIST_OF % 1, ENTRY, ENTRY, "hello"], 3, "refused 17 WrongNumber: the list of line %d has 0 of its entries to come, then its end"),
    ([LIST_OF % 2, ENTRY, "end sig=- time=-", "hello"], 3, "refused 17 WrongNumber: the list of line %d has 1 of its entries to come, then its end"),
    ([LIST_OF % 0, "end sig=- time=-", "end sig=- time=-"], 3, "refused 17 WrongNumber: no list is begun"),
    ([LIST_OF % 1], 2, "the frame ends, and the list of line %d has 1 of its entries to come, then its end"),
    (["# a list", LIST_OF % 1, ENTRY], 4, "the frame ends, and the list of line %d has 0 of its entries to come, then its end"),
    ([LIST_OF % 3, ENTRY, GOOD, ENTRY], 3, "a message begins, and the list of line %d has 2 of its entries to come, then its end"),
    ([LIST_OF % 0, LIST_OF % 0], 2, "a message begins, and the list of line %d has 0 of its entries to come, then its end"),
]


def of_lines(lines):
    return sml.frame(RIGHT.file(event(one) for one in lines if one[0] != "#"))


def refused(words):
    """Frames that are refused between good ones: each is told in one line, nothing of it is written, and the next is."""
    given, wanted, written = [GOOD, ""], [], of_lines([GOOD])
    for lines, at, fault in [([one], 1, fault) for one, fault in NO_EVENTS] + [([GOOD, one, "hello"], 2, fault) for one, fault in NO_EVENTS if one.split(" ")[0] not in ("entry", "end")] + OUT_OF_PLACE:
        listed = next((k for k, one in enumerate(lines, 1) if one.startswith("list")), 0)
        wanted.append("smlmeter: line %d: %s\n" % (len(given) + at, fault % (len(given) + listed) if "%d" in fault else fault))
        given += lines + [""]
        if len(wanted) % 5 == 0:
            given += [GOOD, GOOD, "", ""]
            written += of_lines([GOOD, GOOD])
    run = subprocess.run(words, input="".join(one + "\n" for one in given).encode(), capture_output=True)
    for one, other in zip(run.stderr.decode().splitlines(True) + [""] * len(wanted), wanted):
        held("smlmeter: what is told", one, other)
    held("smlmeter: how many lines are told", run.stderr.count(b"\n"), len(wanted))
    held("smlmeter, refused frames between good ones", (run.returncode, run.stdout), (1, written))
    return len(wanted)


def bounds(words):
    """What stands at the bounds is taken."""
    lines = [LIST_OF % 0, "end sig=x time=sec:4294967295", GOOD.replace("0", "255", 1), "open tid=x00 group=000 abort=255 codepage=x client=- file=x server=x time=sec:0 version=255"]
    entries = [("status=-", x) for x in ("status=u8:255", "status=u16:65535", "status=u32:4294967295", "status=u64:18446744073709551615")] + [("unit=-", "unit=255"), ("scaler=-", "scaler=-128"), ("scaler=-", "scaler=127"), ("scaler=-", "scaler=-0")]
    entries += [("u8:7", x) for x in ("bool:0", "bool:1", "oct:", "i8:-128", "i8:127", "i16:-32768", "i32:2147483647", "i64:-9223372036854775808", "i64:9223372036854775807", "u64:18446744073709551615", "u8:007", "list:sec:4294967295")]
    lines += [LIST_OF % len(entries), *(ENTRY.replace(old, new) for old, new in entries), "end sig=- time=-"]
    held("smlmeter, the bounds", ran(words, "\n".join(lines)), (0, of_lines(lines), b""))


def long_close(n):
    return "close tid=x group=0 abort=0 sig=x" + "1b" * n


def filled(most):
    """Closes that make so many bytes together."""
    lines, size, each = [], 0, len(RIGHT.file([event(long_close(34900))]))
    while most - size > 2 * each:
        lines.append(long_close(34900))
        size += each
    for n in ((most - size) // 2, None):
        n = most - size - 19 if n is None else n
        while size + len(RIGHT.file([event(long_close(n))])) > most:
            n -= 1
        lines.append(long_close(n))
        size += len(RIGHT.file([event(long_close(n))]))
    return lines, size


def ran(words, given, *more):
    run = subprocess.run([*words, *more], input=given.encode() if isinstance(given, str) else given, capture_output=True)
    return run.returncode, run.stdout, told(run.stderr)


def longest(words):
    """The longest line and the longest frame, and one more."""
    fits = long_close((LONGEST - len(long_close(0))) // 2)
    fits = fits.replace("group=0", "group=0" + "0" * (LONGEST - len(fits)))
    over = fits.replace("group=0", "group=00")
    held("the longest line", (len(fits), len(over)), (LONGEST, LONGEST + 1))
    long = "smlmeter: line %d: a line of more than 70000 characters\n"
    for end in "\n", "\r\n":
        given = end.join([fits, "", over, "", "#" + over, fits, "", "x" * 300000, GOOD, "", GOOD])
        held(f"smlmeter, long lines, {end!r}", ran(words, given), (1, 2 * of_lines([fits]) + of_lines([GOOD]), (long % 3 + long % 8).encode()))
    held("smlmeter, a long line with a return in it", ran(words, over[:-1] + "\r" + "00"), (1, b"", (long % 1).encode()))
    lines, size = filled(LIMIT)
    held("bytes of the longest frame", size, LIMIT)
    more = "smlmeter: line %d: refused 18 OutputTooShort: a frame has at most 1048576 bytes of messages\n" % (2 * len(lines) + 2)
    held("smlmeter, the longest frame, and one more message", ran(words, "\n".join(lines + [""] + lines + [GOOD, "", GOOD])), (1, of_lines(lines) + of_lines([GOOD]), more.encode()))


def used():
    """bin/smlmeter by its words, files and pipes."""
    start, frame = ["bin/smlmeter"], of_lines([GOOD])
    for given, n in [("", 0), ("\n\n\r\n", 0), ("# nothing\n\n#\n", 0), (GOOD, 1), (GOOD + "\n", 1), (GOOD + "\r\n", 1), (GOOD + "\r", 1), (f"\n\n#\n{GOOD}\n#\n\n\n\n{GOOD}\n\n\n", 2), (f"{GOOD}\r\n\r\n\r\n{GOOD}\r\n", 2)]:
        held(f"smlmeter {given!r}", ran(clink.smlmeter(), given), (0, n * frame, b""))
    held("smlmeter, two messages in a frame", ran(clink.smlmeter(), f"{GOOD}\n#\n{GOOD}"), (0, of_lines([GOOD] * 2), b""))
    with tempfile.NamedTemporaryFile("w") as f:
        f.write(GOOD + "\nhello\n\n" + GOOD)
        f.flush()
        fault = b"smlmeter: line 2: no event: it begins with none of open, close, list, entry and end\n"
        held("smlmeter FILE", ran(start, "", f.name), (1, frame, fault))
        held("smlmeter -", ran(start, GOOD, "-"), (0, frame, b""))
    status, out, said = ran(start, "", "-h")
    held("smlmeter -h", (status, out.split(b":")[0], said), (0, b"smlmeter [FILE]", b""))
    for word in "1,048,576", "70,000", "Status: 0 ", "docs/REPLAY.md":
        held(f"smlmeter -h has {word}", word.encode() in out, True)
    for words in ["-x"], ["a", "b"], ["captures/bare-times.bin", "-h"]:
        status, out, said = ran(start, "", *words)
        held(f"smlmeter {words}", (status, out, said.split(b":")[0]), (2, b"", b"smlmeter [FILE]"))
    held("smlmeter, no such file", ran(start, "", "target/no-such-file"), (2, b"", b"smlmeter: target/no-such-file: No such file or directory\n"))
    held("smlmeter, a folder", ran(start, "", "captures"), (2, b"", b"smlmeter: captures: Is a directory\n"))
    for words, said in ["bin/smlmeter >/dev/full", b"smlmeter: output: No space left on device\n"], ["bin/smlmeter >&-", b"smlmeter: output: Bad file descriptor\n"], ["bin/smlmeter <&-", b"smlmeter: input: Bad file descriptor\n"]:
        held(words, ran(["sh", "-c", words], GOOD), (2, b"", said))
    held("smlmeter, nobody reads", ran(["sh", "-c", f"yes '{GOOD}\n' | head -n 20000 | bin/smlmeter | head -c 1"], "")[2], b"")
    live(start, [(GOOD + "\n\n", frame), ("hello\n\n", b""), ("\n", b""), (GOOD + "\n" + GOOD + "\n\n", of_lines([GOOD] * 2)), (GOOD, b"")], frame)


def live(start, parts, last):
    """Each frame comes before the next line is written."""
    run = subprocess.Popen(start, stdin=subprocess.PIPE, stdout=subprocess.PIPE, stderr=subprocess.DEVNULL, bufsize=0)
    for part, wanted in parts:
        run.stdin.write(part.encode())
        heard = b""
        while len(heard) < len(wanted) and select.select([run.stdout], [], [], 60)[0]:
            more = run.stdout.read(len(wanted) - len(heard))
            heard += more
            if not more:
                break
        held(f"smlmeter, live, {part!r}", heard, wanted)
    run.stdin.close()
    held("smlmeter, a live pipe ends", (run.stdout.read(), run.wait(60)), (last, 1))


def example(stored):
    """examples/meter.txt: what is stored, what the reading says, and that it has every kind of value and field."""
    text = open("examples/meter.txt", encoding="utf-8").read()
    frames = [[one for one in part.split("\n") if one and one[0] != "#"] for part in text.split("\n\n")]
    frames = [[event(one) for one in lines] for lines in frames if lines]
    held("frames of the example", len(frames), 2)
    said = ran(["sh", "-c", "bin/smlmeter examples/meter.txt | bin/smlcat"], "")
    held("the example", said, (0, open(stored, "rb").read(), b""))
    held("the example, by the reading", said[1].decode(), "".join("payload %s\n" % RIGHT.file(lines).hex() for lines in frames))
    entries = [e for lines in frames for e in lines if type(e) is Entry]
    held("kinds of value in the example", sorted({e.value[0] for e in entries}), sorted(KINDS))
    held("a key of 48 bytes, an empty signature, a scaler below 0", [any(e.value[0] == "oct" and len(e.value[1]) == 48 for e in entries), any(e.sig == b"" for e in entries), any(e.scaler == -1 for e in entries)], [True] * 3)


# ---- the vectors, and all of it


def vectors(words):
    """The program's answers to the vectors; each wrong writer must say something else, of them and of some that were drawn."""
    faults.extend(disagreements())
    rows = [*calls_of(CALLS), *calls_of(MORE_CALLS)]
    for (command, wanted), said in zip(rows, answers(["bin/replay"], [command for command, _ in rows])):
        held(command, said, wanted)
    given = [*fields_of(FIELDS), *fields_of(MORE_FIELDS)]
    out = ran(words, "\n\n".join("\n".join(lines) for lines, _ in given))
    held("smlmeter, the vectors", out, (0, b"".join(sml.frame(bytes.fromhex(wanted)) for _, wanted in given), b""))
    no_commands = ["rewrite", "rewrite 1", "rewrite 1 0 .", "rewrite 1 0  -", "rewrite 1 0 . ", "rewrite 1 0 . 0", "rewrite 1 0 x -", "rewrite 1 0 . - ", "rewrite 1 0 . - x", "rewrite 1 0 . - 1 1", "rewrite 1048578 0 . -", "rewrite -1 0 . -", "rewrite 1 -1 . -", "rewrite 1 18446744073709551616 . -", "rewrite 1 0 ., -", "rewrite 1 0 . -  1"]
    held("no commands", answers(clink.replay(), no_commands), ["bad command"] * len(no_commands))
    return len(rows) + len(given)


def wrong_writers(some):
    for name, writer in WRONG.items():
        if not disagreements(writer):
            faults.append(f"{name}: the vectors don't tell it from the right writer")
        if some and not any(writer.rewrite(command) != said for command, said in some):
            faults.append(f"{name}: no call that was drawn tells it from the right writer")


def main():
    numbers = [int(w) for w in sys.argv[1:] if w.isdigit()]
    if set(sys.argv[1:]) - {"--all"} - set(map(str, numbers)):
        sys.exit("test_writer.py [N | --all]")
    n = ALL if "--all" in sys.argv else (numbers + [GATE])[0]
    words, crate = clink.smlmeter(), oracle()
    rows, files, some, bytes_written = vectors(words), 0, [], 0
    r = [random.Random(SEED + k) for k in range(3)]
    batches = [[*small(), *by_length()]]
    small_cases = sum(len(part) for parts in batches[0] for part in parts)
    with tempfile.TemporaryDirectory() as folder:
        program = clink.built("tests/writer.c", os.path.join(folder, "writer"))
        for at in range(0, n, BATCH):
            some += rewrites(r[1], min(BATCH, n - at))[: 0 if some else None]
            calls(program, r[2], min(BATCH, n - at))
    for batch in batches + [None] * ((n + BATCH - 1) // BATCH):
        batch = batch or [file(r[0]) for _ in range(min(BATCH, n - files))]
        files += len(batch) if batch is not batches[0] else 0
        payloads = meter(words, batch)
        bytes_written += sum(map(len, payloads))
        reads_back("bin/replay", clink.replay(), batch, payloads)
        if crate:
            reads_back("the crate", crate, batch, payloads)
    wrong_writers(some if n >= GATE else [])
    example("tests/expected/meter.txt")
    told_lines = refused(words)
    bounds(words)
    longest(words)
    used()
    faults.extend(missing() if n >= GATE else [])
    for fault in sorted(faults, key=len)[:8]:
        print(fault)
    if faults:
        sys.exit(f"{len(faults)} faults")
    print(f"writer: {rows} vectors; {small_cases:,} small events and {files:,} random files, {bytes_written:,} bytes, read back by bin/replay{' and the crate' if crate else ''}, {seen['CRC of one byte',]} CRCs of one byte; "
          f"{n:,} calls of rewrite, {sum(seen['refused', k] for k in (4, 16, 17, 18)):,} steps refused; {n:,} calls with any writer; {len(WRONG)} wrong writers seen; {told_lines} refused frames told by bin/smlmeter")


main()

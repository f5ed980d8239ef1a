"""A walk over any message content (document 02, Q-4), through `walk` and `item` of bin/replay: held to tests/walk_reading.py, a second reading that was written
from the request and not from the code. The longest inputs, which no line holds, are walked by the reading alone; its `longest` has them for who asks the library.

The request's vectors; inputs of the fewest bytes; random bytes; random trees of end marks, leaves and lists, with any number of length bytes and down to
more than sixteen lists; messages; each of these bent, cut and among others, walked where an element begins and anywhere. Then the request's sentences, of the
program's own answers and of those of the reading: an answer is what the length bytes say and the answers at the element's parts; 19 is given exactly where a
list opens inside sixteen open ones; what follows isn't looked at, and every shorter cut is 10; up to a refusal's place nothing was wrong but that the input
ended, and behind the judged bytes nothing is looked at; bytes before move the places alone; lists may be put around an element until sixteen are open; and
where `message` accepts a message, the walk over it ends at the same place. What `message` answers is held to its request by tests/test_whole.py.
Each wrong walk of the reading must be seen: by the vectors, by the sentences alone, and by what is drawn.

`python3 tests/test_walk.py N` draws N cases, --all 60,000 and takes more of the fewest bytes; the gate's 1,500 are the first of these. With --reading no
program of ours is asked.
"""
import collections, functools, itertools, os, random, re, subprocess, sys

sys.dont_write_bytecode = True
os.chdir(os.path.join(os.path.dirname(os.path.abspath(__file__)), ".."))
sys.path += ["scripts", "oracle"]
import clink, messages
from places_reading import crc, length_field
from programs import MAKING_READY
from walk_reading import BOOLEAN, DEEPEST, INTEGER, ITEMS, LARGEST, LIST, MORE, RIGHT, STRING, TOP64, UNSIGNED, VECTORS, WRONG, WRONG_LENGTHS
from walk_reading import EndMark, Leaf, List, asked, asked_item, command as command_of, hexed, item, line, longest, outline, tells
from whole_reading import Message, message_at

messages.crc = crc  # the same by a table
SEED, GATE, ALL, BATCH, MOST_TOLD, ENOUGH = 20260113, 1500, 60000, 1500, 6000, 9
LONGEST, SHORT = 70000, 40  # characters of a line; bytes of an input that is asked for at every place
KINDS = "TlfInvalidTy", "TlfReserved", "TlfNextByteTypeMismatch", "TlfLengthOverflow", "TlfLengthUnderflow"
Case = collections.namedtuple("Case", "at data")
faults, seen, questions = [], collections.Counter(), collections.Counter()


def fault(what, said, wanted):
    faults.append(f"{what[:600]}\n  wanted   {str(wanted)[:500]}\n  answered {str(said)[:500]}")


def held(what, said, wanted):
    if said != wanted:
        fault(what, said, wanted)


# ---- who is asked: a program, or the readings


def answers(words, lines):
    """A line for each."""
    run = subprocess.run(words, input="".join(one + "\n" for one in lines).encode(), capture_output=True)
    said = run.stdout.decode().split("\n")[:-1]
    told = [one for one in run.stderr.decode(errors="replace").splitlines() if not one.startswith(MAKING_READY)]
    if run.returncode or told or len(said) != len(lines):
        sys.exit(f"test_walk: {words[-1]}, status {run.returncode}, {len(lines)} lines in, {len(said)} out: {' '.join(told)[-300:]}")
    return said


class Program:
    """The program behind bin/replay."""

    def __init__(self, words):
        self.words = words

    def walks(self, cases):
        return answers(self.words, [command(c) for c in cases])

    def items(self, cases):
        """What begins at each place, held to the reading."""
        for c, said in zip(cases, answers(self.words, [command(c, "item") for c in cases])):
            held(command(c, "item"), said, asked_item(*c))
        questions["bin/replay", "items"] += len(cases)

    def messages(self, cases):
        """The place behind the message at each place, or None where none is accepted; the table has room for all that an input may hold."""
        said = answers(self.words, ["message %d %d %s" % (len(c.data) // 2, c.at, hexed(c.data)) for c in cases])
        found = [re.search(r" \| rows \d+ next (\d+) \| ", one) for one in said]
        return [one and int(one[1]) for one in found]


class Modelled:
    """The reading, or a wrong one; messages by the reading of whole messages."""

    def __init__(self, walk=RIGHT):
        self.walk = walk

    def walks(self, cases):
        return [asked(c.at, c.data, self.walk) for c in cases]

    def messages(self, cases):
        return [read_message(c) for c in cases]


@functools.lru_cache(2000)
def read_message(c):
    m = message_at(c.data, c.at)
    return m.next if isinstance(m, Message) else None


def command(c, word="walk"):
    return command_of(*c, word)


# ---- elements that are drawn


def some_bytes(r, n):
    """Any bytes, or such as length bytes are."""
    return r.choice((r.randbytes(n), bytes(n), b"\x71" * n, bytes(r.choices(b"\x00\x01\x70\x71\x72\x76\x80\x82\xf1\xff", k=n))))


def leaf(r):
    """An end mark, what is absent, or a leaf of any type and width."""
    what = r.random()
    if what < 0.3:
        return b"\0" if what < 0.2 else b"\x01"
    n = r.choice((0, 0, 1, 1, 2, 4, 8, 9, 13, 14, r.randrange(40)))
    if what < 0.4:
        return messages.element(BOOLEAN, some_bytes(r, min(n, 14)))
    return messages.element(r.choice((STRING, STRING, INTEGER, UNSIGNED)), some_bytes(r, n), messages.more(r))


def list_of(r, elements):
    return messages.length(LIST, len(elements), messages.more(r)) + b"".join(elements)


def tree(r, deep=4):
    """An element with lists at most so deep inside one another."""
    if r.random() < (1 if deep == 0 else 0.15 if deep == 4 else 0.5):
        return leaf(r)
    return list_of(r, [tree(r, deep - 1) for _ in range(r.choice((0, 0, 1, 1, 2, 2, 3, 5)))])


def beside(r):
    return [tree(r, r.choice((0, 0, 1, 2))) for _ in range(r.choice((0, 0, 0, 0, 1, 2)))]


def nested(r, innermost=None):
    """Lists about as deep inside one another as they may be, with others beside them."""
    s = r.choice((leaf(r), list_of(r, []))) if innermost is None else innermost
    for _ in range(r.choice((2, 9, 14, 15, 15, 16, 16, 16, 16, 17, 18))):
        s = list_of(r, [*beside(r), s, *beside(r)])
    return s


def bare(r):
    """The same with one or two elements a list, and no length byte more."""
    n, s = r.choice((14, 15, 15, 16, 16, 16, 17, 18)), r.choice((leaf(r), list_of(r, []), list_of(r, [b"\0"]), b""))
    return r.choice((b"\x71" * n + s, b"\x72\0" * n + s, b"\x72" * n + s + b"\0" * n))


def long(r):
    """Many elements."""
    return list_of(r, [r.choice((b"\0", b"\x01", b"\x70", b"\x71\0", leaf(r))) for _ in range(r.choice((15, 16, 17, 31, 255, 256, 257, 300)))])


def far(r):
    """Length bytes of a length about the largest, over it, or of few bytes with many length bytes; the last may say that more follow, or have a type."""
    few = r.randint(0, 12)
    n = r.choice((LARGEST, LARGEST + r.randint(-9, 12), LARGEST + r.randint(1, 12), 2**28 + r.randint(-2, 2), r.getrandbits(r.choice((33, 36, 40))), few))
    s = bytearray(0x80 | int(h, 16) for h in "0" * r.choice((0, 0, 1, 5, 9)) + "%x" % n)
    s[0] |= r.choice((STRING, INTEGER, UNSIGNED, LIST, LIST)) << 4
    s[-1] ^= r.choice((0x80, 0x80, 0x80, 0, 0, 0x90, 0x70))
    return bytes(s[: r.choice((len(s), len(s), len(s), r.randint(1, len(s))))])


FAULTS = [bytes.fromhex(text) for text in "10 2f 3101 9002 c201 c0 40 50 60 8000 8000 8001 8112 f171 f010 81 f1 f080".split()]


def fault_inside(r):
    """Something that is refused or is not whole, alone, among others, in a list of too many, or inside about as many lists as may be."""
    wrong = r.choice((r.choice(FAULTS), r.choice(FAULTS), far(r), far(r), far(r), messages.over(r, leaf(r)), messages.over(r, b"\x71")))
    among = list_of(r, [*beside(r), wrong, *beside(r)])
    return r.choice((wrong, among, among, b"\x7f" + wrong, b"\x71" * r.choice((15, 16, 16, 17)) + wrong, nested(r, wrong), nested(r, wrong)))


def announced(r):
    """Another number of elements than there are."""
    some = [tree(r, r.choice((0, 1, 2))) for _ in range(r.randrange(5))]
    n = r.choice((len(some) + 1, max(0, len(some) - 1), len(some) + 3, 15, 16, LARGEST, r.getrandbits(32)))
    return messages.length(LIST, n, 0 if n > 1 << 27 else messages.more(r)) + b"".join(some)


def whole(r):
    """A message as it may be read."""
    return messages.message(r, 0)


def bent_message(r):
    return messages.message(r, r.choice((0.03, 0.1, 0.3)))


def sound(r):
    return r.choice((tree, tree, nested, whole))(r)


def bent(r):
    return messages.mutated(r, sound(r))


def cut(r):
    s = sound(r)
    return s[: r.choice((r.randrange(len(s) + 1), len(s) - 1, max(0, len(s) - r.randint(1, 6))))]


def few(r):
    """Some bytes, of all or of those that length bytes are."""
    return some_bytes(r, r.choice((0, 1, 1, 2, 3, 6, 9, 20)))


WAYS = {tree: 22, nested: 20, bare: 6, long: 4, fault_inside: 18, announced: 6, whole: 14, bent_message: 5, bent: 9, cut: 8, few: 9}


def drawn(r):
    """An input and a place: mostly where an element begins, with others or any bytes before and behind it."""
    way = r.choices(list(WAYS), list(WAYS.values()))[0]
    before = [r.choice((tree, whole, few, few))(r) for _ in range(r.choice((0, 0, 0, 1, 1, 2)))]
    behind = [r.choice((tree, few, few, whole, cut))(r) for _ in range(r.choice((0, 0, 0, 1, 1, 2)))]
    data, at = b"".join([*before, way(r), *behind]), sum(map(len, before))
    if r.random() < 0.03:  # what a meter sends: three messages
        way, data, at = "of a meter", r.choice(list(messages.payloads())), 0
        for _ in range(r.randrange(3)):
            at = read_message(Case(at, data))
    where = r.random()
    if where < 0.05:
        at = r.choice((len(data), len(data), len(data) + 1, len(data) + 1, 2**32 + at, 2**63, TOP64))
    elif where < 0.12:
        at = r.randint(0, len(data))
    c = Case(at, data)
    if len(command(c)) > LONGEST - 200:  # some bytes may be put before and behind it
        return drawn(r)
    seen["way", way] += 1
    return c


LETTERS = bytes.fromhex("000102034041425051606162707172737f808182838fc0f0f1f2f8ff1020309ac1")


def smallest(everything):
    """All inputs of one byte; of two, all or those of a second byte that says most; of more such bytes, alone and inside as many lists as may be, or one less."""
    for some in itertools.chain([()], itertools.product(range(256)), itertools.product(range(256), range(256) if everything else LETTERS)):
        yield Case(0, bytes(some))
    for lists in 0, DEEPEST - 1, DEEPEST:
        for some in itertools.product(LETTERS, repeat=3 if everything else 2):
            yield Case(0, b"\x71" * lists + bytes(some))
    for some in itertools.product(LETTERS[:24:2], repeat=5 if everything else 3):
        yield Case(0, bytes(some))


# ---- the request's sentences, of whoever answers

SAID = re.compile(r"bytes (\d+) leaves (\d+)|err (UnexpectedEOF|InvalidTlf|TooDeep)(?: (Tlf\w+))? (\d+) @(\d+)")
ENDS, IS, DEEP = "err UnexpectedEOF 10 @%d", "bytes %d leaves %d", "err TooDeep 19 @%d"
NUMBERS = {("UnexpectedEOF", "10"), ("InvalidTlf", "11"), ("TooDeep", "19")}


class Said:
    """An answer of `walk` in its parts; ValueError where it has another form."""

    def __init__(self, text):
        found = SAID.fullmatch(text)
        if not found or found[3] and ((found[3], found[5]) not in NUMBERS or (found[4] in KINDS) != (found[5] == "11")):
            raise ValueError(text)
        self.text, self.number = text, int(found[5] or 0)
        self.bytes, self.leaves, self.place = (int(found[k] or 0) for k in (1, 2, 6))


def moved(text, n):
    """The same answer with its place so much greater."""
    return re.sub(r"@(\d+)$", lambda place: "@%d" % (int(place[1]) + n), text)


def field(data, at):
    """Type, number and the place behind the length bytes at a place, or None where there are no sound ones."""
    found = re.fullmatch(r"(\d) (\d+) next (\d+)", length_field(data[at:]))
    return found and (int(found[1]), int(found[2]), at + int(found[3]))


class Parts:
    """The answers at every place of an input, from one on."""

    def __init__(self, data, first, texts):
        self.data, self.said = data, {first + k: Said(text) for k, text in enumerate(texts)}

    def at(self, place):
        if place not in self.said:
            raise ValueError(place)
        return self.said[place]

    def inside(self, at):
        """The places of a list's elements, up to one that is refused, and whether none is; the place behind them all, or that of the refused one."""
        (_, n, place), some = field(self.data, at), []
        while len(some) < n and self.at(place).number == 0:
            some.append(place)
            place += max(1, self.at(place).bytes)
        return some, place, len(some) == n

    def wanted(self, at):
        """What the length bytes at a place say and the answers at the parts, however deep they are."""
        if self.data[at : at + 1] == b"\0":
            return IS % (1, 1)
        found = field(self.data, at)
        if found is None:
            return moved(length_field(self.data[at:]), at)
        kind, n, place = found
        if kind != LIST:
            return IS % (place + n - at, 1) if place + n <= len(self.data) else ENDS % len(self.data)
        some, place, whole_ = self.inside(at)
        return IS % (place - at, sum(self.at(one).leaves for one in some)) if whole_ else self.at(place).text

    def is_list(self, at):
        found = field(self.data, at) if self.data[at : at + 1] != b"\0" else None
        return bool(found) and found[0] == LIST

    def around(self, at, place):
        """How many lists of the element at a place are open around another place, at which an element must begin."""
        lists = 0
        while at != place:
            if at > place or not self.is_list(at):
                raise ValueError(place)
            some, last, whole_ = self.inside(at)
            lists, at = lists + 1, max((one for one in some + [last] * (not whole_) if one <= place), default=place + 1)
        return lists

    def depth(self, at):
        """How many lists stand inside one another in an element that is accepted."""
        return 1 + max(map(self.depth, self.inside(at)[0]), default=0) if self.is_list(at) else 0

    def judge(self, at):
        """What must be so of the answer at a place; None if it is."""
        one, wanted = self.at(at), self.wanted(at)
        if one.number != 19:
            return wanted if one.text != wanted else "19" if one.number == 0 and self.depth(at) > DEEPEST else None
        right = self.is_list(one.place) and self.around(at, one.place) == DEEPEST and (wanted.startswith("bytes") or Said(wanted).place >= one.place)
        return None if right else "19 for a list inside sixteen open ones, and what comes first"


def parts_judged(data, first):
    def judge(texts):
        parts = Parts(data, first, texts)
        return next((f"at {at}: {wanted}" for at in parts.said if (wanted := parts.judge(at))), None)

    return judge


def exactly(*wanted):
    return lambda texts: None if texts == list(wanted) else wanted


def put_around(is_list, n, leaves, lists):
    """So many lists around an element, one inside the other: as long as no more than sixteen are open the answer grows by their length bytes."""

    def judge(texts):
        good = [IS % (n + k, leaves) for k in lists]
        within = [text == one for text, one in zip(texts, good)]
        deep = [Said(text).number == 19 for text in texts]
        right = within == sorted(within, reverse=True) and all(a != b for a, b in zip(within, deep)) and texts[-1] == DEEP % DEEPEST
        return None if right and within[-2] == (not is_list) else f"{good} as long as sixteen lists are open, then 19"

    return judge


def beside_others(n, leaves):
    """An element alone in a list, between others, twice."""

    def judge(texts):
        if Said(texts[0]).number:
            return None if all(Said(text).number == 19 for text in texts) else "19 for all, as for the first"
        return exactly(IS % (n + 1, leaves), IS % (n + 3, leaves + 2), IS % (2 * n + 2, 2 * leaves))(texts)

    return judge


def some_cuts(r, low, high):
    """Places from one up to another, which is left out; all, if these are few."""
    return range(low, high) if high - low <= 8 else sorted({low, high - 1, r.randrange(low, high), r.randrange(low, high)})


def about(r, c, said):
    """What must be so of an answer. Gives what is to be asked then: a word, the cases, and a test of their answers."""
    size = len(c.data)
    if c.at >= size:
        held(f"{command(c)}: at the input's end or beyond", said.text, ENDS % size)
        return
    end = said.place if said.number else c.at + said.bytes
    right = (end == size) == (said.number == 10) if said.number else said.leaves <= said.bytes > 0
    if not right or not c.at <= end <= size:
        fault(command(c), said.text, "an element within the input, with no more leaves than bytes; or a refusal in it, 10 at its end alone")
        return
    cuts = some_cuts(r, c.at, end + (said.number > 10))
    yield "cut before its end", [Case(c.at, c.data[:k]) for k in cuts], exactly(*(ENDS % k for k in cuts))
    yield "other bytes before", [Case(c.at, r.randbytes(c.at) + c.data[c.at :])], exactly(said.text)
    more = r.randbytes(r.randint(1, 4))
    yield "more bytes before", [Case(c.at + len(more), more + c.data)], exactly(moved(said.text, len(more)))
    if said.number == 0:
        e, lists = c.data[c.at : end], (1, r.randint(2, 14), 15, 16, 17)
        yield "other bytes behind", [Case(c.at, c.data[:end] + tail) for tail in (b"", b"\xff", b"\0", few(r))], exactly(*[said.text] * 4)
        yield "lists around it", [Case(0, b"\x71" * k + e) for k in lists], put_around(e[0] >> 4 & 7 == LIST, len(e), said.leaves, lists)
        yield "beside others", [Case(0, s) for s in (b"\x71" + e, b"\x73\0" + e + b"\x01", b"\xf0\x02" + e + e)], beside_others(len(e), said.leaves)
    elif said.number > 10:
        judged = next((k for k in range(end, size + 1) if not length_field(c.data[end:k]).startswith("err UnexpectedEOF")), size)
        yield "cut behind what is judged", [Case(c.at, c.data[:judged] + tail) for tail in (b"", few(r))], exactly(said.text, said.text)
        yield "cut in what is judged", [Case(c.at, c.data[: judged - 1])], exactly(ENDS % (judged - 1))
    if said.number == 11:
        yield "what is wrong, alone", [Case(end, c.data)], exactly(said.text)
    if size - c.at <= SHORT:
        yield "by its parts", [Case(at, c.data) for at in range(c.at, size + 1)], parts_judged(c.data, c.at)


def agrees(c, text, behind):
    """Where a message is accepted, the walk over it ends at the same place."""
    if behind is not None and not text.startswith("bytes %d " % (behind - c.at)):
        fault(f"{command(c)}: a message", text, "bytes %d" % (behind - c.at))


def sentences(who, asked_, cases, r):
    """The sentences of some cases, of one that answers. Gives the answers."""
    known, texts, more = len(faults), asked_.walks(cases), []
    for c, text, behind in zip(cases, texts, asked_.messages(cases)):
        agrees(c, text, behind)
        questions[who, "messages"] += behind is not None
        try:
            more += about(r, c, Said(text))
        except ValueError:
            fault(command(c), text, "an answer of `walk`")
    said = iter(asked_.walks([c for _, some, _ in more for c in some]))
    for what, some, judge in more:
        theirs = [next(said) for _ in some]
        questions[who, what] += len(some)
        try:
            wanted = judge(theirs)
        except ValueError:
            wanted = "what the sentence says of it"
        if wanted is not None:
            fault(f"{what}: {' '.join(map(command, some))}", theirs, wanted)
    faults[known:] = [f"{who}: {one}" for one in faults[known:]]
    return texts


# ---- a batch of cases


def outlined(c, text):
    """The elements up to the end of the one at a place, or to a refusal, which must be the walk's; places are counted from there."""
    s, said = c.data[c.at :], Said(text)
    some = list(itertools.takewhile(lambda one: said.number or one[1] < said.bytes, outline(s))) if s else []
    if said.number and s:
        *some, (_, _, last) = some
        held(f"{command(c)}: outline", line(last), moved(text, -c.at))
    for _, place, one in some:
        held(f"{command(c)}: the item at {place}", item(s, place), one)
    if not said.number:
        held(f"{command(c)}: leaves of the outline", sum(not isinstance(one, List) for _, _, one in some), said.leaves)
    return some


def counted(c, text):
    said, some = Said(text), outlined(c, text)
    if said.number:
        seen["refused", said.number] += 1
        seen["refused behind others", said.number] += 0 < c.at < len(c.data)
        seen["kind", *re.findall(r"Tlf[A-Z]\w+", text)] += 1
        return
    items = [one for _, _, one in some]
    seen["accepted"] += 1
    seen["leaves"] += said.leaves
    seen["behind others"] += c.at > 0
    seen["before others"] += c.at + said.bytes < len(c.data)
    seen["sixteen open"] += any(depth == DEEPEST for depth, _, _ in some)
    seen["a list of none"] += any(isinstance(one, List) and one.count == 0 for one in items)
    seen["an end mark in a list"] += any(isinstance(one, EndMark) and depth > 0 for depth, _, one in some)
    seen["a Boolean of no byte"] += any(isinstance(one, Leaf) and (one.kind, one.len) == (BOOLEAN, 0) for one in items)
    seen["more length bytes"] += any(not isinstance(one, EndMark) and (one.start if isinstance(one, Leaf) else one.next) - place > 1 for _, place, one in some)


def batch(cases, seed, program):
    wanted = sentences("the reading", Modelled(), cases, random.Random(seed))
    for c, text in zip(cases, wanted):
        counted(c, text)
    if program:
        said = sentences("bin/replay", Program(program), cases, random.Random(seed))
        for c, one, other in zip(cases, said, wanted):
            held(command(c), one, other)
        Program(program).items(cases)
    return [(*c, text) for c, text in zip(cases, wanted)]


def in_batches(cases, n):
    cases = iter(cases)
    while some := list(itertools.islice(cases, n)):
        yield some


def compared(cases, program):
    """The program beside the reading; how many."""
    done = 0
    for some in in_batches(cases, 50 * BATCH):
        wanted = Modelled().walks(some)
        for c, one, other in zip(some, Program(program).walks(some) if program else wanted, wanted):
            held(command(c), one, other)
        if program:
            Program(program).items(some)
        done += len(some)
    return done


def missing():
    """What must be among the cases, and how often at least."""
    floors = {"accepted": 300, "leaves": 1500, "behind others": 100, "before others": 100, "sixteen open": 30, "a list of none": 60, "an end mark in a list": 100}
    floors |= {"a Boolean of no byte": 10, "more length bytes": 80, ("refused", 10): 80, ("refused", 11): 80, ("refused", 19): 60}
    floors |= {("refused behind others", n): 20 for n in (10, 11, 19)} | {("kind", kind): 4 for kind in KINDS} | {("way", way): 5 for way in [*WAYS, "of a meter"]}
    floors |= {"messages": 60}
    seen["messages"] += questions["the reading", "messages"]
    return [f"{what}: {seen[what]}, and {n} are wanted" for what, n in floors.items() if seen[what] < n]


# ---- what is asked of bin/replay alone

NO_COMMANDS = ["", " ", " 0", " 0 ", " -", " - -", " 0 0", " 00", "  0 -", " 0  -", " 0 - ", " 0 - -", " 0 - 0", " 0 0 -", " -1 -", " x -", " 0x0 -"]
NO_COMMANDS += [" 0 AB", " 0 0g", f" {TOP64 + 1} -", " 100 " + "00" * 34996]
NO_COMMANDS = [word + one for one in NO_COMMANDS for word in ("walk", "item")]


def long_lines():
    """As much as a line of bin/replay holds: one leaf, many elements, one too many, lists inside one another as far as it goes."""
    before = bytes(10)
    n = (LONGEST - len("walk 10 ")) // 2 - len(before)
    for one in b"\0", b"\x01", b"\x70", b"\x10", b"\x71\0":
        many = (n - 4) // len(one)
        yield Case(10, before + messages.length(LIST, many) + one * many)
        yield Case(10, before + messages.length(LIST, many + 1) + one * many)
    yield Case(10, before + messages.element(STRING, bytes(n - 4)))
    yield Case(10, before + messages.length(STRING, n - 3) + bytes(n - 4))
    yield Case(10, before + b"\x71" * n)
    yield Case(10, before + b"\x71" * 16 + messages.element(STRING, bytes(n - 20)))


def asked_alone(program, vectors):
    lines = [(command_of(at, data, word), wanted) for word, some in (("walk", vectors), ("item", ITEMS)) for at, data, wanted in some]
    for (one, wanted), said in zip(lines, answers(["bin/replay"], [one for one, _ in lines])):
        held(f"a vector: {one}", said, wanted)
    lines = list(long_lines())
    held("lines as long as they may be", {len(command(c)) for c in lines}, {LONGEST})
    for c, said in zip(lines, Program(program).walks(lines)):
        held(f"as much as a line holds: {command(c)[:50]}", said, asked(*c))
    Program(program).items(lines)
    held("no commands", answers(program, NO_COMMANDS), ["bad command"] * len(NO_COMMANDS))


# ---- wrong walks


def broken(walk, cases):
    """Whether the sentences alone find a fault with a walk."""
    known, before, found = len(faults), questions.copy(), False
    for some in in_batches(cases, 10):
        sentences("wrong", Modelled(walk), some, random.Random(SEED))
        found = len(faults) > known
        if found:
            break
    del faults[known:]
    questions.clear()
    questions.update(before)
    return found


def wrong_walks(vectors, long_, cases, enough):
    """Each must be told by a vector and, but for those about the longest inputs, by a case that was drawn and by the sentences of the vectors' inputs alone.
    Gives how many vectors and cases tell it, and no more than some."""
    told = {}
    for name, walk in WRONG.items():
        about_length = name in WRONG_LENGTHS
        told[name] = tells(walk, long_ if about_length else vectors, ENOUGH), 0 if about_length else tells(walk, cases, ENOUGH)
        if not told[name][0]:
            faults.append(f"{name}: no vector tells it from the right walk")
        if not about_length and not told[name][1] and enough:
            faults.append(f"{name}: no case that was drawn tells it from the right walk")
        if not about_length and not broken(walk, [Case(at, data) for at, data, _ in vectors]):
            faults.append(f"{name}: the sentences are true of it")
    return told


def main():
    given = [int(w) for w in sys.argv[1:] if w.isdigit()]
    if set(sys.argv[1:]) - {"--all", "--reading"} - set(map(str, given)):
        sys.exit("test_walk.py [N | --all] [--reading]")
    everything, n = "--all" in sys.argv, ALL if "--all" in sys.argv else (given + [GATE])[0]
    program = None if "--reading" in sys.argv else clink.replay()
    vectors, long_ = VECTORS + MORE, list(longest(everything))
    held("vectors of the request", len(VECTORS), 16)
    for at, data, wanted in vectors + long_:
        held(f"the reading: place {at}, {len(data):,} bytes {data.hex()[:200]}", asked(at, data), wanted)
    for at, data, wanted in ITEMS:
        held(f"the reading: {command_of(at, data, 'item')}", asked_item(at, data), wanted)
    if program:
        asked_alone(program, vectors)
    batch([Case(at, data) for at, data, _ in vectors], SEED, program)
    small = compared(smallest(everything), program)
    seen.clear()
    r, done, some = random.Random(SEED), 0, []
    while done < n:
        cases = batch([drawn(r) for _ in range(min(BATCH, n - done))], SEED + done, program)
        done += len(cases)
        some += cases[: MOST_TOLD - len(some)]
    if program:
        held("messages that bin/replay accepts", questions["bin/replay", "messages"], questions["the reading", "messages"])
    # but those of the most elements, which take long to walk
    told = wrong_walks(vectors, long_[: len(list(longest()))], some, n >= GATE)
    faults.extend(missing() if n >= GATE else [])
    for one in sorted(faults, key=len)[:8]:
        print(one)
    if faults:
        sys.exit(f"{len(faults)} faults")
    asked_more = sum(k for (who, what), k in questions.items() if who == "bin/replay" and what not in ("messages", "items"))
    print(f"wrong walks, and how many vectors and cases tell each, counted up to {ENOUGH}: " + ", ".join(f"{name} {a} {b}" for name, (a, b) in told.items()))
    print(f"walk: {len(VECTORS)} vectors of the request, {len(MORE)} more, {len(ITEMS)} of items, {len(long_)} of the longest inputs by the reading; "
          f"{small:,} of the fewest bytes; "
          f"{done:,} cases: {seen['accepted']:,} accepted ({seen['leaves']:,} leaves, {seen['sixteen open']:,} with sixteen open lists), "
          f"refused {', '.join(f'{k}: {seen[what, k]:,}' for what, k in sorted(key for key in seen if key[0] == 'refused'))}; "
          f"{questions['the reading', 'messages']:,} messages, over which the walk ends where they do; "
          f"{asked_more:,} questions of the sentences and {questions['bin/replay', 'items']:,} items to bin/replay; {len(WRONG)} wrong walks seen")


main()

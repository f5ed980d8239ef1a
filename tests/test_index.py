"""An index of entries and lookups in it (document 02, Q-6), through `index` and `lookup` of bin/replay and the library's own calls, which alone can be lent
the longest inputs: each held to tests/index_reading.py, a second reading that was written from the request and not from the code.

The request's vectors; random messages, right, bent and cut, alone and among others, of few names with few letters, so that equal names, beginnings and the
empty name are common, with tables about as long as their rows; lookups in tables that were built, in the same bent, and in small ones over short inputs; all
tables of the fewest numbers. Then the request's sentences, of the program's own answers and of those of the reading: an index has the rows of `message`, each
once and strictly in order, with the rest and every refusal the same; a name that is looked up in it gives the first entry of the message with exactly that
name, or none exactly if no entry has it; in any table 16 is given exactly for a part of a row, a row outside the input or one not strictly before the next,
and otherwise the first row of that name, or none exactly if no row has it. What `message` answers is held to its request by tests/test_whole.py.
Each wrong index of the reading must be seen: by the vectors, by the sentences alone, and by what is drawn.
Last, what sorting costs is counted with 100, 1,000 and 10,000 entries: it must not grow as a square does, nor faster than the rows where these stand in order.

`python3 tests/test_index.py N` draws N cases, --all 30,000 and takes more of the smallest tables; the gate's 1,000 are the first of these. With --reading
no program of ours is asked.
"""
import collections, functools, itertools, os, random, re, shutil, subprocess, sys, tempfile

sys.dont_write_bytecode = True
os.chdir(os.path.join(os.path.dirname(os.path.abspath(__file__)), ".."))
sys.path += ["scripts", "oracle"]
import clink, messages
from index_reading import MORE, OF_MESSAGES, RIGHT, TOP32, VECTORS, WRONG, WRONG_BUILDING, WRONG_FINDING, WRONG_LENGTHS
from index_reading import Build, Find, Row, build_index, call_of, command, longest, parted, said, told_by, whole_rows
from messages import sealed
from places_reading import crc
from programs import MAKING_READY
from whole_reading import FILL, ROW, TOP64, Message, asked as whole_asked, message_at
from write_reading import RIGHT as WRITER, List

messages.crc = crc  # the same by a table
SEED, GATE, ALL, BATCH, MOST_TOLD, ENOUGH = 20251209, 1000, 30000, 1000, 5000, 9
LONGEST, ROOM = 70000, 1048577  # characters of a line, numbers of a table
faults, seen, questions = [], collections.Counter(), collections.Counter()


def fault(what, said, wanted):
    faults.append(f"{what[:600]}\n  wanted   {str(wanted)[:500]}\n  answered {str(said)[:500]}")


def held(what, said, wanted):
    if said != wanted:
        fault(what, said, wanted)


# ---- who is asked: a program, or the readings


def answers(words, lines):
    """A line for each."""
    run = subprocess.run(words, input="".join(one + "\n" for one in lines).encode(), capture_output=True)
    said = run.stdout.decode().split("\n")[:-1]
    told = [one for one in run.stderr.decode(errors="replace").splitlines() if not one.startswith(MAKING_READY)]
    if run.returncode or told or len(said) != len(lines):
        sys.exit(f"test_index: {words[-1]}, status {run.returncode}, {len(lines)} lines in, {len(said)} out: {' '.join(told)[-300:]}")
    return said


class Program:
    """The program behind bin/replay."""

    def __init__(self, words):
        self.words = words

    def calls(self, calls):
        return answers(self.words, map_list(command, calls))

    def messages(self, builds):
        return answers(self.words, map_list(message_command, builds))


class Modelled:
    """The reading, or a wrong one; `message` by the reading of whole messages."""

    def __init__(self, builder=RIGHT, finder=RIGHT):
        self.builder, self.finder = builder, finder

    def calls(self, calls):
        return [self.built(c) if isinstance(c, Build) else said(c, self.finder) for c in calls]

    def built(self, c):
        return read_right(c) if self.builder is RIGHT else said(c, self.builder)

    def messages(self, builds):
        return map_list(read_message, builds)


@functools.lru_cache(1000)
def read_right(c):
    return said(c)


@functools.lru_cache(1000)
def read_message(c):
    return whole_asked(*c)


def map_list(f, some):
    return [f(one) for one in some]


def message_command(c):
    return "message" + command(c).removeprefix("index")


# ---- names and messages that are drawn

LETTERS = b"\x00ab\x7f\x80\xff"


def some_names(r):
    """A few names of few letters; at times long ones that differ late."""
    letters = r.sample(LETTERS, r.choice((1, 2, 2, 3)))
    names = [bytes(r.choices(letters, k=r.choice((0, 0, 1, 1, 2, 2, 3)))) for _ in range(r.choice((1, 2, 3, 3, 4, 5)))]
    if r.random() < 0.2:
        long = bytes(r.choices(letters, k=r.choice((5, 6, 6, 13, 14, 15))))
        names += [long, long + bytes(r.choices(letters, k=1)), long + bytes(r.choices(letters, k=1))]
    return names


def entry(r, name):
    """An entry of a name, mostly the shortest; at times with length bytes that it doesn't need and any fields."""
    if r.random() < 0.6:
        return b"\x77" + WRITER.string(name) + b"\x01\x01\x01\x01\x62" + r.randbytes(1) + b"\x01"
    rest = messages.optional(r, messages.status(r, 0)) + messages.optional(r, messages.time(r, 0)) + messages.optional(r, messages.number(r))
    rest += messages.optional(r, messages.number(r, messages.INT)) + messages.value(r, 0) + messages.optional(r, WRITER.string(r.randbytes(2)))
    return messages.length(messages.LIST, 7, r.choice((0, 0, 1, 2))) + messages.element(messages.OCT, name, r.choice((0, 0, 1, 2))) + rest


def body(r, n=None, said=None):
    """A list of n entries that announces so many, up to its CRC."""
    n, names = r.choice((0, 1, 2, 3, 4, 5, 6, 9)) if n is None else n, some_names(r)
    start = WRITER.start(List(r.randbytes(2), 0, 0, None, r.randbytes(1), None, None, n if said is None else said))
    return start + b"".join(entry(r, r.choice(names)) for _ in range(n)) + b"\x01\x01"


def listed(r):
    return sealed(body(r))


def many(r):
    return sealed(body(r, r.choice((15, 16, 17, 31, 32, 33, 64, 100))))


def other(r):
    """A message of any kind, with any strings."""
    return messages.message(r, 0)


def announced(r):
    """Another number of entries than there are."""
    n = r.randrange(5)
    return sealed(body(r, n, r.choice((n + 1, max(0, n - 1), n + 3, 15, 16, TOP32, TOP32 - 2, r.getrandbits(32)))))


def bent(r):
    return messages.message(r, r.choice((0.03, 0.1, 0.3)))


def fault_inside(r):
    """Some bytes changed, and the CRC that belongs to them."""
    return sealed(messages.mutated(r, body(r)))


def other_tag(r):
    """Another tag, of a message, a time or a list value, and the CRC that belongs to it."""
    m = bytearray(body(r))
    tags = [tag.end() - 1 for tag in re.finditer(rb"\x72(?:\x62|\x63.|\x65...)\x01", m, re.S)]
    m[r.choice(tags or [0])] = r.choice((0, 2, 3, 0x81, 255))
    return sealed(bytes(m))


def other_trailer(r):
    m = body(r)
    return m + messages.trailer(r, 1, m)


def cut(r):
    m = listed(r)
    return m[: r.choice((r.randrange(len(m)), len(m) - 1, max(0, len(m) - r.randint(1, 6))))]


def changed(r):
    return messages.mutated(r, listed(r))


def few(r):
    """Some bytes, of all or of those that lengths are made of."""
    n = r.choice((0, 1, 1, 2, 3, 6, 9))
    return r.choice((r.randbytes(n), bytes(r.choices(b"\x76\x72\x62\x65\x01\x00\x80\x81\x8f\xf0\xf7\xc1\x41\xff", k=n))))


WAYS = {listed: 46, many: 3, other: 14, announced: 5, bent: 9, fault_inside: 12, other_tag: 6, other_trailer: 11, cut: 8, changed: 7, few: 4}


def room_of(r, m):
    """Numbers of a table about as long as the rows of a message, mostly with room for them; or of a short one."""
    rows = len(m.rows) if isinstance(m, Message) else r.randrange(4)
    sizes = {ROW * rows + r.choice((0, 0, 1, 2, 3, 4, 9)): 12, ROW * rows - r.choice((1, 1, 2, 3, 4)): 3, rows + r.randrange(2): 1, r.randrange(20): 2, 0: 1}
    return max(0, r.choices(list(sizes), list(sizes.values()))[0])


def drawn_message(r):
    """An input and a place: mostly where a message begins, with others or any bytes before and behind it."""
    way = r.choices(list(WAYS), list(WAYS.values()))[0]
    before = [r.choice((listed, other, few, bent))(r) for _ in range(r.choice((0, 0, 0, 1, 1, 2)))]
    behind = [r.choice((listed, few, few, cut, bent))(r) for _ in range(r.choice((0, 0, 1, 1, 2)))]
    data, at = b"".join([*before, way(r), *behind]), sum(map(len, before))
    if r.random() < 0.03:  # what a meter sends: three messages, the list the second
        way, data = "of a meter", r.choice(list(messages.payloads()))
        at = message_at(data, 0).next
    where = r.random()
    if where < 0.05:
        at = r.choice((len(data), len(data), len(data) + 1, len(data) + 1, 2**32 + at, 2**63, TOP64))
    elif where < 0.09:
        at = r.randint(0, len(data))
    c = Build(room_of(r, message_at(data, at)), at, data)
    if len(command(c)) > LONGEST - 200:
        return drawn_message(r)
    seen["way", way] += 1
    return c


# ---- tables that are drawn


def built_table(r):
    """A message, maybe among others, and the table of its rows; mostly several."""
    before, m = r.choice((b"", b"", listed(r))), sealed(body(r, r.choice((0, 1, 2, 3, 4, 6, 9))))
    data = before + m + r.choice((b"", few(r)))
    answer, table = build_index(data, len(before), [FILL] * (len(m) // 2))
    return data, table[: ROW * answer.rows]


def odd(r, n):
    """A number about an input's end, or one at which a sum of two passes 32 bits."""
    return max(0, r.choice((0, 1, n - 1, n, n + 1, r.randint(0, n + 1), 2**31 - 1, 2**31, TOP32 - n, TOP32 - 1, TOP32, TOP32, FILL, 0x100000, 0x100001)))


def some_numbers(r, data, table):
    """Some numbers, each another, or one more or less."""
    for _ in range(r.choice((1, 1, 2))):
        k = r.randrange(len(table))
        table[k] = r.choice((odd(r, len(data)), odd(r, len(data)), (table[k] + 1) % 2**32, (table[k] - 1) % 2**32))
    return data, table


def to_the_edge(r, data, table):
    """A span up to the input's end, or one byte beyond; an empty one there; one that wraps to a place inside."""
    k, n = 2 * r.randrange(len(table) // 2), len(data)
    end = n - min(n, table[k])
    beyond = [n, 1], [n + 1, 0], [table[k], end + 1], [0, n + 1], [TOP32, 1], [TOP32, 2], [TOP32 - n, n + 2], [1, TOP32]
    table[k : k + 2] = r.choice((*beyond, [n, 0], [table[k], end], [0, n]))
    return data, table


def by_rows(change):
    """Something done with the rows of a table."""

    def bend(r, data, table):
        rows = whole_rows(table)
        change(r, rows)
        return data, list(itertools.chain(*rows))

    return bend


def swapped(r, rows):
    a, b = r.randrange(len(rows)), r.randrange(len(rows))
    if r.random() < 0.5:
        a, b = max(0, b - 1), b
    rows[a], rows[b] = rows[b], rows[a]


def repeated(r, rows):
    """A row a second time, behind itself or anywhere, with its own length or another."""
    k = r.randrange(len(rows))
    again = r.choice((rows[k], rows[k]._replace(entry_len=r.randint(0, rows[k].entry_len)), rows[k]._replace(entry=rows[k].entry + 1, entry_len=0)))
    rows.insert(r.choice((k + 1, k + 1, k, r.randint(0, len(rows)))), again)


def left_out(r, rows):
    del rows[r.randrange(len(rows))]


def other_place(r, rows):
    """A row's entry at another's place, so that among equal names the order is bent."""
    a, b = r.randrange(len(rows)), r.randrange(len(rows))
    rows[a] = rows[a]._replace(entry=rows[b].entry)


def shortened(r, rows):
    """A name without its last byte, or its first."""
    k = r.randrange(len(rows))
    first = r.randrange(2)
    if rows[k].name_len:
        rows[k] = rows[k]._replace(name=rows[k].name + first, name_len=rows[k].name_len - 1)


def in_message_order(r, rows):
    rows.sort(key=lambda row: row.entry)


def part_of_a_row(r, data, table):
    return data, r.choice((table[: -r.randint(1, 3)], table + [odd(r, len(data)) for _ in range(r.randint(1, 3))]))


def shorter_input(r, data, table):
    """The table of an input that has lost bytes at its end."""
    return data[: r.choice((len(data) - 1, max(row.entry + row.entry_len for row in whole_rows(table)) - r.randrange(2), r.randint(0, len(data))))], table


def other_input(r, data, table):
    """A byte of a name is another."""
    row = r.choice(whole_rows(table))
    data = bytearray(data)
    data[row.name + r.randrange(max(1, row.name_len))] = r.choice(LETTERS)
    return bytes(data), table


def as_built(r, data, table):
    return data, table


BENDS = {as_built: 10, some_numbers: 6, to_the_edge: 8, part_of_a_row: 4, shorter_input: 4, other_input: 5}
BENDS |= {by_rows(swapped): 6, by_rows(repeated): 5, by_rows(left_out): 4, by_rows(other_place): 4, by_rows(shortened): 4, by_rows(in_message_order): 2}


def small_table(r):
    """A table of few rows over a short input, often in order, often bent."""
    data = bytes(r.choices(r.sample(LETTERS, r.choice((1, 2, 2, 3))), k=r.choice((0, 1, 2, 3, 3, 4, 6))))
    rows = []
    for _ in range(r.choice((0, 1, 1, 2, 2, 3, 3, 4, 5))):
        a, b = r.randint(0, len(data)), r.randint(0, len(data))
        rows.append(Row(a, r.randint(0, min(3, len(data) - a)), b, r.randint(0, len(data) - b)))
    if r.random() < 0.85:
        rows.sort(key=lambda row: (data[row.name : row.name + row.name_len], row.entry))
    table = list(itertools.chain(*rows))
    if table and r.random() < 0.35:
        data, table = r.choice((some_numbers, to_the_edge, part_of_a_row, by_rows(swapped), by_rows(repeated)))(r, data, table)
    return data, table


def about(r, name):
    """A name, or one close to it: with a byte more or less, or another."""
    one = bytes([r.choice(LETTERS)])
    return r.choice((name, name, name, name, name, name + one, name[:-1], name[:-1] + one, one + name, name[1:], b""))


def drawn_lookup(r):
    small = r.random() < 0.4
    data, table = small_table(r) if small else built_table(r)
    if not small and table:
        bend = r.choices(list(BENDS), list(BENDS.values()))[0]
        before = table
        data, table = bend(r, data, list(table))
        seen["bend", bend] += 1
        seen["a bent table"] += table != before
    rows = whole_rows(table)
    row = r.choice(rows) if rows else Row(0, 0, 0, 0)
    return Find(data, table, about(r, data[row.name : row.name + row.name_len]))


def drawn(r):
    return drawn_message(r) if r.random() < 0.5 else drawn_lookup(r)


def smallest(everything):
    """All tables of the fewest rows over the shortest inputs, with numbers up to one beyond the end, for every name there may be."""
    for data, most in ((b"", 12), (b"a", 8), (b"ab", 8), (b"aa", 8)) if everything else ((b"", 8), (b"a", 5)):
        names = sorted({data[a:b] for a in range(len(data) + 1) for b in range(a, len(data) + 1)} | {data + b"a"})
        for n in range(most + 1):
            # a part of a row is refused whatever the numbers are
            for table in itertools.product(range(len(data) + 2), repeat=n) if n % ROW == 0 or n < ROW or not data else [(0,) * n]:
                for name in names:
                    yield Find(data, list(table), name)


# ---- the request's sentences, of whoever answers


def below(x, y):
    """Whether a name comes before another: by the first byte that differs; a beginning before the longer one."""
    for a, b in zip(x, y):
        if a != b:
            return a < b
    return len(x) < len(y)


def name_at(data, row):
    start, n, _, _ = row
    return data[start:][:n]


def rows_in_order(data, rows):
    """Whether each row stands strictly before the next."""
    for p, q in zip(rows, rows[1:]):
        x, y = name_at(data, p), name_at(data, q)
        if not (below(x, y) or x == y and p[2] < q[2]):
            return False
    return True


def in_rows(numbers):
    return list(zip(*[iter(map(int, numbers))] * ROW))


class Said:
    """An answer of `index` or `message` in its parts, without the message's fields; ValueError where it has another form."""

    def __init__(self, text):
        *words, table = text.split(" | ")
        self.text, self.words, self.table, self.rows = text, (words or [""])[-1], [] if table == "-" else table.split(","), None
        counts = re.fullmatch(r"rows (\d+) next (\d+)", self.words)
        if counts:
            self.n = ROW * int(counts[1])
            self.rows, self.rest = in_rows(self.table[: self.n]), self.table[self.n :]
        elif len(words) != 1 or not re.fullmatch(r"refused (\d+)(?: (Tlf\w+))?(?: @(\d+))?", self.words):
            raise ValueError(text)


def found(row):
    return "none" if row is None else "found %d,%d,%d,%d" % tuple(row)


def first_named(data, rows, name):
    return next((row for row in rows if name_at(data, row) == name), None)


def indexed(r, c, one, whole):
    """What must be so of an index beside the whole message. Gives the lookups that are to be asked then, each with its answer."""
    if whole.rows is None or one.rows is None:
        return held(f"{command(c)}: refused as `message` is", one.text, whole.text)
    held(f"{command(c)}: the counts and the rest", (one.words, len(one.table), one.rest), (whole.words, c.room, whole.rest))
    held(f"{command(c)}: the same rows, each once", sorted(one.rows), sorted(whole.rows))
    if len(set(one.rows)) != len(one.rows) or not rows_in_order(c.data, one.rows):
        return fault(command(c), one.text, "each row once and strictly in order")
    table = list(itertools.chain(*one.rows))
    names = sorted({name_at(c.data, row) for row in whole.rows})
    names = r.sample(names, min(len(names), 4))
    for name in names:
        yield "a name that is there", Find(c.data, table, name), found(first_named(c.data, whole.rows, name))
    for name in {about(r, r.choice(names or [b""])), about(r, r.choice(names or [b""])), b"", r.randbytes(1)} - set(names):
        yield "another name", Find(c.data, table, name), found(first_named(c.data, whole.rows, name))
    name = r.choice(names or [b""])
    if one.rest:
        yield "with what stands behind the rows", Find(c.data, table + [FILL] * len(one.rest), name), "refused 16"
    if one.rows:
        k = r.randrange(len(one.rows))
        gone, others = name_at(c.data, one.rows[k]), [row for row in whole.rows if row != one.rows[k]]
        yield "without a row", Find(c.data, table[: ROW * k] + table[ROW * k + ROW :], gone), found(first_named(c.data, others, gone))
        yield "a row twice", Find(c.data, table[: ROW * k + ROW] + table[ROW * k :], name), "refused 16"
        yield "without a number", Find(c.data, table[:k] + table[k + 1 :], name), "refused 16"
    if len(one.rows) > 1:
        k = r.randrange(len(one.rows) - 1)
        yield "two rows the other way", Find(c.data, list(itertools.chain(*one.rows[:k], one.rows[k + 1], one.rows[k], *one.rows[k + 2 :])), name), "refused 16"


def spoken_of(c):
    """What the request says of a lookup: 16 exactly for a part of a row, a row outside the input or not strictly before the next; else of its rows."""
    rows = in_rows(c.table)
    outside = [row for row in rows if row[0] > len(c.data) - row[1] or row[2] > len(c.data) - row[3]]
    if len(c.table) > ROW * len(rows) or outside or not rows_in_order(c.data, rows):
        return "refused 16"
    return found(first_named(c.data, rows, c.name))


def sentences(who, asked, cases, r):
    """The sentences of some cases, of one that answers. Gives the answers."""
    known, answers_ = len(faults), asked.calls(cases)
    builds = [(c, text) for c, text in zip(cases, answers_) if isinstance(c, Build)]
    more = [("a lookup", c, spoken_of(c), text) for c, text in zip(cases, answers_) if isinstance(c, Find)]
    follow = []
    for (c, text), whole in zip(builds, asked.messages([c for c, _ in builds])):
        try:
            follow += indexed(r, c, Said(text), Said(whole))
        except ValueError:
            fault(command(c), text, "an answer of `index`")
    more += [(*one, text) for one, text in zip(follow, asked.calls([c for _, c, _ in follow]))]
    for what, c, wanted, text in more:
        questions[who, what] += 1
        if text != wanted:
            fault(f"{what}: {command(c)}", text, wanted)
    faults[known:] = [f"{who}: {one}" for one in faults[known:]]
    return answers_


# ---- a batch of cases


def counted(c, answer):
    if isinstance(c, Find):
        seen["lookup", answer.split(" ")[0]] += 1
        seen["found behind others"] += answer.startswith("found") and answer != found(c.table[:ROW])
        return
    m = message_at(c.data, c.at)
    if answer.startswith("refused"):
        seen["refused", int(re.match(r"refused (\d+)", answer)[1])] += 1
        return
    names = [c.data[a : a + n] for a, n, _, _ in m.rows]
    seen["accepted", type(m.start).__name__] += 1
    seen["rows"] += len(names)
    seen["behind others"] += c.at > 0
    seen["not in order before"] += names != sorted(names)
    seen["equal names"] += len(set(names)) < len(names)
    seen["an empty name"] += b"" in names
    seen["a beginning"] += any(x != y and y.startswith(x) for x, y in itertools.permutations(set(names), 2) if x)
    seen["a high byte and a low one"] += len({name[0] >> 7 for name in names if name}) == 2


def batch(cases, seed, program):
    wanted = sentences("the reading", Modelled(), cases, random.Random(seed))
    for c, answer in zip(cases, wanted):
        counted(c, answer)
    if program:
        said = sentences("bin/replay", Program(program), cases, random.Random(seed))
        for c, one, other in zip(cases, said, wanted):
            held(command(c), one, other)
    return list(zip(cases, wanted))


def in_batches(cases, n):
    cases = iter(cases)
    while some := list(itertools.islice(cases, n)):
        yield some


def missing():
    """What must be among the cases, and how often at least."""
    floors = {("accepted", "Open"): 4, ("accepted", "Close"): 4, ("accepted", "List"): 60, "rows": 250, "behind others": 40, "not in order before": 30}
    floors |= {"equal names": 30, "an empty name": 20, "a beginning": 20, "a high byte and a low one": 15}
    floors |= {("refused", n): 3 for n in (4, 10, 11, 12, 13, 14, 15, 20)} | {("way", way): 2 for way in [*WAYS, "of a meter"]}
    floors |= {("lookup", "found"): 50, ("lookup", "none"): 25, ("lookup", "refused"): 50, "found behind others": 20, "a bent table": 80}
    floors |= {("bend", bend): 1 for bend in BENDS}
    return [f"{what}: {seen[what]}, and {n} are wanted" for what, n in floors.items() if seen[what] < n]


# ---- what is asked of bin/replay alone, and of the library's calls

NO_COMMANDS = ["", " 1", " 1 0", " 1 0 ", " 1 0 0", "  1 0 -", " 1  0 -", " 1 0  -", " 1 0 - ", " 1 0 - 1", " -1 0 -", " 1 -1 -", " x 0 -", " 1 x -"]
NO_COMMANDS = ["index" + one for one in [*NO_COMMANDS, " 1 0 AB", " 1 0 0g", f" 1 {TOP64 + 1} -", f" {ROOM + 1} 0 -", f" {TOP64 + 1} 0 -"]]
NO_LOOKUPS = ["", " -", " - -", " - - ", " - - - ", " - - - -", "  - - -", " -  - -", " - -  -", " 6 - -", " - - 6", " AB - -", " - - AB", " 0g - -", " - , -"]
NO_LOOKUPS += [" - 1, -", " - ,1 -", " - 1,,1 -", " - x -", " - 1,x -", " - -1 -", " - 0,0,0,-1 -", f" - {TOP32 + 1} -", f" - 0,0,0,{TOP64 + 1} -", " - 0;0 -"]
NO_COMMANDS += ["lookup" + one for one in NO_LOOKUPS]


def named(names):
    """A list of the shortest entries of these names."""
    start = WRITER.start(List(b"", 0, 0, None, b"", None, None, len(names)))
    return sealed(start + b"".join(b"\x77" + WRITER.string(name) + b"\x01\x01\x01\x01\x01\x01" for name in names) + b"\x01\x01")


def long_lines():
    """As many entries as a line of bin/replay holds, all of one name or each of another, falling; the longest table; and as long a table to look up in."""
    for names in [b""] * 4000, [bytes([255 - k // 256, 255 - k % 256]) for k in range(3400)]:
        m = named(names)
        for room in ROW * len(names), ROW * len(names) + 2, ROW * len(names) - 1, ROOM:
            yield Build(room, 0, m)
    n = 5000
    table = [x for k in range(n) for x in (k, 1, k, 1)]
    for data in bytes(n), bytes(n - 1) + b"\1", b"\1" + bytes(n - 1), bytes(n - 1):
        for name in b"\0", b"\1", b"":
            yield Find(data, table[: ROW * 2000], name)
    for name in bytes(n), bytes(n - 1), bytes(n + 1):
        yield Find(bytes(n), [0, n - 1, 0, 0, 0, n, 0, 0], name)


PROGRAM = """
#include <inttypes.h>
#include <stdio.h>
#include <stdlib.h>
#include <sartrogheo.h>

static char line[4 * SGH_LIMIT + 1000];
static uint8_t bytes[SGH_LIMIT + 1], name[SGH_LIMIT + 1];
static uint32_t table[SGH_LIMIT];
static uint64_t more[16][128];

static unsigned digit(char c)
{
    return c <= '9' ? (unsigned)(c - '0') : (unsigned)(c - 'a' + 10);
}

/* Bytes in hex, or -; the text behind them and the space there. */
static char *taken(char *s, uint8_t *to, size_t *len)
{
    for (*len = 0; *s != '\\n' && *s != ' ' && *s != '-'; s += 2)
        to[(*len)++] = (uint8_t)(digit(s[0]) << 4 | digit(s[1]));
    return s + (*s == '-') + (s[*s == '-'] == ' ');
}

/* A line is a command; the answer is the call's number, then the table as it leaves it. */
int main(void)
{
    while (fgets(line, sizeof line, stdin) != NULL) {
        char *s = line + (line[0] == 'i' ? sizeof "index" : sizeof "lookup");
        size_t n = 0, at = 0, len = 0, name_len = 0;

        if (line[0] == 'i') {
            n = strtoul(s, &s, 10);
            at = strtoul(s, &s, 10);
            taken(s + 1, bytes, &len);
            for (size_t i = 0; i < n; i++)
                table[i] = FILL;
            more[0][0] = BUILD;
        } else {
            s = taken(s, bytes, &len);
            if (*s == '-')
                s++;
            else
                for (s--; *s != ' ' || n == 0; n++)
                    table[n] = (uint32_t)strtoul(s + 1, &s, 10);
            taken(s + 1, name, &name_len);
            more[0][0] = FIND;
        }
        (void)at;
        printf("%" PRIu64 " ", more[0][0]);
        for (size_t i = 0; i < n; i++)
            printf("%s%" PRIu32, i > 0 ? "," : "", table[i]);
        printf("%s\\n", n > 0 ? "" : "-");
    }
    return 0;
}
"""
BUILD, FIND, HEADER = "sgh_build_index", "sgh_look_up", "include/sartrogheo.h"
NO_REFUSAL = 100  # an answer from here on is none


def call(name, lent):
    """A call of the library, lent what its prototype asks for: bytes, table and name, each with its length, the place, and other memory for whatever else it
    writes."""
    header = re.sub(r"/\*.*?\*/", "", open(HEADER, encoding="utf-8").read(), flags=re.S)
    prototype = re.search(r"^uint32_t %s\(([^)]*)\);" % name, header, re.M)
    if not prototype:
        sys.exit(f"test_index: {HEADER} has no {name}")
    words = []
    for k, one in enumerate(re.split(r",\s*", prototype[1]), 1):
        if "*" in one or "[" in one:
            memory = "name" if "bytes" in words else "bytes"
            words.append(memory if "const uint8_t *" in one else "table" if "uint32_t *" in one else f"(void *)more[{k}]")
        else:
            words.append({"bytes": "len", "table": "n", "name": "name_len"}.get((words or [""])[-1], "at"))
    held(f"what {name} is lent", [w for w in words if w[0] != "("], lent)
    return f"{name}({', '.join(words)})"


def called(rows):
    """The vectors and the longest inputs by the library's calls: their number, and the table."""
    with tempfile.TemporaryDirectory() as folder:
        source = os.path.join(folder, "index.c")
        build, find = call(BUILD, ["bytes", "len", "at", "table", "n"]), call(FIND, ["bytes", "len", "table", "n", "name", "name_len"])
        with open(source, "w", encoding="utf-8") as f:
            f.write(PROGRAM.replace("FILL", str(FILL)).replace("BUILD", build).replace("FIND", find))
        program = clink.built(source, os.path.join(folder, "index"))
        said = answers(program, [command(c) for c, _ in rows])
    for (c, wanted), one in zip(rows, said):
        number, _, table = one.partition(" ")
        refusal = re.match(r"refused (\d+)", wanted)
        left = wanted.rpartition(" | ")[2].replace("_", str(FILL)) if isinstance(c, Build) else ",".join(map(str, c.table)) or "-"
        good = int(number) == int(refusal[1]) if refusal else int(number) == 0 or isinstance(c, Find) and int(number) >= NO_REFUSAL
        held(f"the library: {len(c.data):,} bytes, {command(c)[:200]}", (number if good else "number " + number, table), (number, left))


def asked_alone(program, vectors, long):
    for (c, wanted), said_ in zip(vectors, answers(["bin/replay"], [command(c) for c, _ in vectors])):
        held(f"a vector: {command(c)}", said_, wanted)
    lines = [c for c in long_lines() if len(command(c)) <= LONGEST]
    for c, said_ in zip(lines, answers(program, map_list(command, lines))):
        held(f"as much as a line holds: {command(c)[:50]}", said_, said(c))
    held("no commands", answers(program, NO_COMMANDS), ["bad command"] * len(NO_COMMANDS))
    called(vectors + long)


# ---- how the cost grows

COST = """
#include <inttypes.h>
#include <stdio.h>
#include <stdlib.h>
#include <sartrogheo.h>

struct timespec { long sec, nsec; };
int clock_gettime(int, struct timespec *);

static uint8_t input[SGH_LIMIT];
static uint32_t table[SGH_LIMIT / 2];

/* Makes one call several times, of the message on standard input: cost build|read TIMES. Prints the fewest nanoseconds of the processor that it took. */
int main(int argc, char **argv)
{
    size_t len = fread(input, 1, sizeof input, stdin);
    long least = -1;

    for (unsigned long k = argc == 3 ? strtoul(argv[2], NULL, 10) : 0; k > 0; k--) {
        struct timespec began, ended;
        sgh_message message;
        sgh_index index;
        clock_gettime(2, &began);
        if (argv[1][0] == 'b' ? sgh_build_index(input, len, 0, table, SGH_LIMIT / 2, &index) : sgh_read_message(input, len, 0, table, SGH_LIMIT / 2, &message))
            return 1;
        clock_gettime(2, &ended);
        long took = (ended.sec - began.sec) * 1000000000 + ended.nsec - began.nsec;
        if (least < 0 || took < least)
            least = took;
    }
    printf("%ld\\n", least);
    return 0;
}
"""
ENTRIES = 100, 1000, 10000
# what ten times as many rows may cost at most, so many times as much: n log n has 13 to 16, a square sort 100. Of rows that stand in order already: a line has 10
MOST, MOST_IN_ORDER = 20, 12
# of the last step, in nanoseconds: a processor comes to know a short sort that is repeated
MOST_BY_TIME, ROUNDS = 50, 25


def growing(r, n):
    """Names of n entries: in falling order, where insertion would go over all rows for each; random ones; and two ways in which the rows stand in order already."""
    rising = [k.to_bytes(6, "big") for k in range(n)]
    return {"falling": rising[::-1], "random": [r.randbytes(6) for _ in range(n)], "equal": rising[-1:] * n, "in order": rising}


def by_time():
    """Whether instructions can't be counted quickly: under the emulator, or without valgrind."""
    return os.path.exists(clink.programs.tools("bin/qemu-x86_64")) or not shutil.which("valgrind")


def cost(program, call, m):
    """What a call costs: x86-64 instructions, with those of all else that the program does; or the processor's nanoseconds."""
    if by_time():
        return int(subprocess.run([*program, call, str(ROUNDS)], input=m, capture_output=True, check=True).stdout)
    run = subprocess.run(["valgrind", "--tool=callgrind", "--callgrind-out-file=/dev/null", *program, call, "1"], input=m, capture_output=True, check=True)
    return int(re.search(rb"Collected : (\d+)", run.stderr)[1])


def sorting(program, names):
    """What building costs more than reading the same message; less than nothing without entries, since reading tells the fields."""
    m = named(names)
    return cost(program, "build", m) - cost(program, "read", m)


def growth():
    """How the cost of sorting grows with the entries, through the library's calls."""
    r, figures = random.Random(SEED), collections.defaultdict(list)
    with tempfile.TemporaryDirectory() as folder:
        source = os.path.join(folder, "cost.c")
        with open(source, "w", encoding="utf-8") as f:
            f.write(COST)
        program = clink.built(source, os.path.join(folder, "cost"))
        without = sorting(program, [])
        for n in ENTRIES:
            for kind, names in growing(r, n).items():
                figures[kind].append(max(1, sorting(program, names) - without))
    limits = {"falling": MOST, "random": MOST, "equal": MOST_IN_ORDER, "in order": MOST_IN_ORDER}
    steps = [(kind, k, most) for kind, most in limits.items() for k in (1, 2)]
    for kind, k, most in [("falling", 2, MOST_BY_TIME), ("random", 2, MOST_BY_TIME)] if by_time() else steps:
        times = figures[kind][k] / figures[kind][k - 1]
        if times >= most:
            faults.append(f"sorting {ENTRIES[k]:,} rows, {kind}, costs {times:.1f} times as much as {ENTRIES[k - 1]:,}; less than {most} is wanted")
    rows = "; ".join(f"{kind} " + ", ".join(f"{k / n:,.0f}" for k, n in zip(some, ENTRIES)) for kind, some in figures.items())
    print(f"{'nanoseconds' if by_time() else 'instructions'} of sorting, a row, of {', '.join(f'{n:,}' for n in ENTRIES)} entries, by the order of their names: {rows}")


# ---- wrong indexes


def broken(name, cases):
    """How many faults the sentences alone find with a wrong index."""
    known, before = len(faults), questions.copy()
    builder, finder = RIGHT if name in WRONG_FINDING else WRONG[name], RIGHT if name in WRONG_BUILDING else WRONG[name]
    sentences("wrong", Modelled(builder, finder), cases, random.Random(SEED))
    number = len(faults) - known
    del faults[known:]
    questions.clear()
    questions.update(before)
    return number


def wrong_indexes(vectors, long, cases, enough):
    """Each must be told by a vector and, but for those about the longest inputs, by a case that was drawn and by the sentences of the vectors' inputs alone.
    Gives how many vectors and cases tell it, and no more than some."""
    told, (builds, finds), (drawn_builds, drawn_finds) = {}, parted(vectors), parted(cases)
    of_vectors = [c for c, _ in builds], [c for c, _ in finds]
    for name in WRONG:
        about_length = name in WRONG_LENGTHS
        told[name] = told_by(name, builds, finds, long, ENOUGH), 0 if about_length else told_by(name, drawn_builds, drawn_finds, [], ENOUGH)
        if not told[name][0]:
            faults.append(f"{name}: no vector tells it from the right index")
        if not about_length and not told[name][1] and enough:
            faults.append(f"{name}: no case that was drawn tells it from the right index")
        if not about_length and not broken(name, of_vectors[0] * (name not in WRONG_FINDING) + of_vectors[1] * (name not in WRONG_BUILDING)):
            faults.append(f"{name}: the sentences are true of it")
    return told


def main():
    given = [int(w) for w in sys.argv[1:] if w.isdigit()]
    if set(sys.argv[1:]) - {"--all", "--reading"} - set(map(str, given)):
        sys.exit("test_index.py [N | --all] [--reading]")
    everything, n = "--all" in sys.argv, ALL if "--all" in sys.argv else (given + [GATE])[0]
    program = None if "--reading" in sys.argv else clink.replay()
    vectors, long = [(call_of(text), wanted) for text, wanted in VECTORS + MORE + OF_MESSAGES], list(longest(everything))
    held("vectors of the request", len(VECTORS), 21)
    for c, wanted in vectors + long:
        held(f"the reading: {len(c.data):,} bytes, {command(c)[:300]}", said(c), wanted)
    for (c, _), (text, _) in zip(vectors, VECTORS):
        held("a command and its call", command(c), text)
    if program:
        asked_alone(program, vectors, long)
        growth()
    batch([c for c, _ in vectors], SEED, program)
    small = sum(len(batch(some, SEED, program)) for some in in_batches(smallest(everything), 20 * BATCH))
    seen.clear()
    r, done, some = random.Random(SEED), 0, []
    while done < n:
        cases = batch([drawn(r) for _ in range(min(BATCH, n - done))], SEED + done, program)
        done += len(cases)
        some += cases[: MOST_TOLD - len(some)]
    # but those of the most entries, which take long to read
    told = wrong_indexes(vectors, [(c, wanted) for c, wanted in long if isinstance(c, Find) or c.room < ROOM // 4], some, n >= GATE)
    faults.extend(missing() if n >= GATE else [])
    for one in sorted(faults, key=len)[:8]:
        print(one)
    if faults:
        sys.exit(f"{len(faults)} faults")
    kinds = {kind: seen["accepted", kind] for kind in ("Open", "Close", "List")}
    asked_more = sum(k for (who, _), k in questions.items() if who == "bin/replay")
    print(f"wrong indexes, and how many vectors and cases tell each, counted up to {ENOUGH}: " + ", ".join(f"{name} {a} {b}" for name, (a, b) in told.items()))
    print(f"index: {len(VECTORS)} vectors of the request, {len(MORE)} more, {len(OF_MESSAGES)} of whole messages, {len(long)} of the longest inputs; "
          f"{small:,} lookups in the smallest tables; {done:,} cases: {sum(kinds.values()):,} accepted "
          f"({', '.join(f'{kind} {k:,}' for kind, k in kinds.items())}; {seen['rows']:,} rows), "
          f"refused {', '.join(f'{k}: {seen[what, k]:,}' for what, k in sorted(key for key in seen if key[0] == 'refused'))}; "
          f"lookups {', '.join(f'{k} {seen[what, k]:,}' for what, k in sorted(key for key in seen if key[0] == 'lookup'))}; "
          f"{asked_more:,} questions of the sentences to bin/replay; {len(WRONG)} wrong indexes seen")


main()

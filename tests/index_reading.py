"""An index of entries and lookups in it (document 02, Q-6), written from the documents and from what was decided where they leave room, not from the code:
what tests/test_index.py holds the program to. Bytes, a place and a table of 32-bit numbers come in; an answer and the table that the call leaves come out.
Bytes, any table and a name come in; a row, nothing or a refusal comes out.

An index is a whole message's table (tests/whole_reading.py) with its rows put in order. A lookup judges all rows first and looks for the name then.
WRONG has wrong indexes, each with one thing changed, which a test must tell from the right one.

`python3 tests/index_reading.py` holds it, and each wrong one, to the request's vectors, to some more, and to the longest inputs.
"""
import collections, heapq, itertools, sys

sys.dont_write_bytecode = True
import whole_reading
from whole_reading import CLOSE, ENTRY, FILL, LIMIT, ONE, ROW, ROW_OF_SIX, SIX, TWO, Message, Refused, fields, in_numbers, line, message_at

TOP32 = 2**32 - 1
# what is accepted: how many rows, and the place behind the message
Indexed = collections.namedtuple("Indexed", "rows next")
# a row: where the name stands, and the entry; each a start and a length
Row = collections.namedtuple("Row", "name name_len entry entry_len")


def name_of(s, row):
    return s[row.name : row.name + row.name_len]


def whole_rows(table):
    """The rows of a table, four numbers each; a part of a row is left out."""
    return [Row(*table[k : k + ROW]) for k in range(0, len(table) - ROW + 1, ROW)]


class Index:
    """A message's rows in order, and names looked up in any table. A wrong one has one thing changed."""

    reader = whole_reading.RIGHT

    # ---- the order

    def key(self, name):
        """What a name is compared by: its bytes, as numbers from 0 to 255, from the left; a beginning is before the longer one. Python's bytes are so."""
        return name

    def place(self, row):
        """What decides between equal names: the entry's start."""
        return row.entry

    def rank(self, s, row):
        return self.key(name_of(s, row)), self.place(row)

    # ---- an index is built

    def arranged(self, s, rows):
        return sorted(rows, key=lambda row: self.rank(s, row))

    def build_index(self, s, at, table):
        """The answer, and the table that the call leaves: refused as the whole message is, or its rows in order; what stands behind them stays."""
        answer, table = self.reader.read_message(s, at, table)
        if isinstance(answer, Refused):
            return answer, table
        return self.built(s, answer, table)

    def built(self, s, answer, table):
        rows = whole_rows(table[: ROW * answer.rows])
        table[: ROW * len(rows)] = itertools.chain(*self.arranged(s, rows))
        return Indexed(answer.rows, answer.next), table

    # ---- a name is looked up

    def too_long(self, s, table):
        return len(s) > LIMIT

    def rows(self, table):
        """The rows of a table, or None where a part of one is left over."""
        return None if len(table) % ROW else whole_rows(table)

    def within(self, s, start, n):
        return start + n <= len(s)

    def row_within(self, s, row):
        """Both spans lie in the input; the name need not lie in its entry."""
        return self.within(s, row.name, row.name_len) and self.within(s, row.entry, row.entry_len)

    def strictly(self, s, p, q):
        """The one row stands before the other, and is none of one name and one start with it."""
        return self.rank(s, p) < self.rank(s, q)

    def sound(self, s, rows, name):
        """All rows are judged, whatever is looked for."""
        return all(self.row_within(s, row) for row in rows) and all(self.strictly(s, p, q) for p, q in zip(rows, rows[1:]))

    def is_name(self, part, name):
        return part == name

    def chosen(self, named):
        return named[0]

    def look_up(self, s, table, name):
        """The first row with exactly that name; None; or 9, then 16."""
        if self.too_long(s, table):
            return Refused(9)
        rows = self.rows(table)
        if rows is None or not self.sound(s, rows, name):
            return Refused(16)
        named = [row for row in rows if self.is_name(name_of(s, row), name)]
        return self.chosen(named) if named else None


RIGHT = Index()


def build_index(input, at, table):
    return RIGHT.build_index(input, at, table)


def look_up(input, table, name):
    return RIGHT.look_up(input, table, name)


# ---- calls, and their answers in words, as the commands `index N AT HEX` and `lookup HEX TABLE NAME` of bin/replay give them

Build = collections.namedtuple("Build", "room at data")
Find = collections.namedtuple("Find", "data table name")


def hexed(data):
    return data.hex() or "-"


def unhexed(text):
    return b"" if text == "-" else bytes.fromhex(text)


def command(call):
    if isinstance(call, Build):
        return "index %d %d %s" % (call.room, call.at, hexed(call.data))
    return "lookup %s %s %s" % (hexed(call.data), ",".join(map(str, call.table)) or "-", hexed(call.name))


def call_of(text):
    word, one, two, three = text.split(" ")
    if word == "index":
        return Build(int(one), int(two), unhexed(three))
    return Find(unhexed(one), [] if two == "-" else [int(x) for x in two.split(",")], unhexed(three))


def said(call, index=RIGHT):
    """What an index answers to a call."""
    if isinstance(call, Build):
        answer, table = index.build_index(call.data, call.at, [FILL] * call.room)
        return line(answer, table) if isinstance(answer, Refused) else "rows %d next %d | %s" % (*answer, in_numbers(table))
    answer = index.look_up(*call)
    if isinstance(answer, Refused):
        return "refused %d" % answer.number
    return "none" if answer is None else "found %d,%d,%d,%d" % answer


def asked(text, index=RIGHT):
    """What an index answers to a command."""
    return said(call_of(text), index)


# ---- wrong ones: what is changed, by name


def wrong(**changed):
    return type("Wrong", (Index,), changed)()


def by_key(key):
    return wrong(key=lambda self, name: key(name))


def once(self, s, rows):
    """Of equal names the first alone."""
    rows, kept = Index.arranged(self, s, rows), []
    for row in rows:
        if not kept or name_of(s, kept[-1]) != name_of(s, row):
            kept.append(row)
    return kept


def fewer(arranged):
    """An index that leaves some rows out."""

    def built(self, s, answer, table):
        n = ROW * answer.rows
        rows = arranged(self, s, whole_rows(table[:n]))
        table[:n] = [*itertools.chain(*rows), *[FILL] * (n - ROW * len(rows))]
        return Indexed(len(rows), answer.next), table

    return built


def all_sorted(self, s, answer, table):
    """What stands behind the rows is taken for rows too."""
    _, table = Index.built(self, s, answer._replace(rows=len(table) // ROW), table)
    return Indexed(answer.rows, answer.next), table


def one_pass(self, s, rows):
    """Neighbours are exchanged from the left to the right, once."""
    rows = list(rows)
    for k in range(len(rows) - 1):
        if self.rank(s, rows[k + 1]) < self.rank(s, rows[k]):
            rows[k : k + 2] = rows[k + 1], rows[k]
    return rows


def heaped(self, s, rows):
    heap = [(self.rank(s, row), row) for row in rows]
    heapq.heapify(heap)
    return [row for _, row in heap]


def names_alone(self, s, rows):
    """The names are put in order, and the entries stay where they are."""
    return [Row(p.name, p.name_len, q.entry, q.entry_len) for p, q in zip(Index.arranged(self, s, rows), rows)]


def up_to_the_name(self, s, rows, name):
    found = next((k for k, row in enumerate(rows, 1) if name_of(s, row) == name), len(rows))
    return Index.sound(self, s, rows[:found], name)


def of_rows(some):
    """The spans of some rows alone are judged; the order of all."""

    def sound(self, s, rows, name):
        return all(self.row_within(s, row) for row in some(rows)) and all(self.strictly(s, p, q) for p, q in zip(rows, rows[1:]))

    return sound


def of_pairs(some):
    """The order of some neighbours alone is judged; the spans of all."""

    def sound(self, s, rows, name):
        return all(self.row_within(s, row) for row in rows) and all(self.strictly(s, p, q) for p, q in some(list(zip(rows, rows[1:]))))

    return sound


def halved(self, s, table, name):
    """Rows are met by halves, and those alone are judged."""
    rows = self.rows(table)
    if len(s) > LIMIT or rows is None:
        return Refused(9 if len(s) > LIMIT else 16)
    low, high = 0, len(rows)
    while low < high:
        middle = (low + high) // 2
        if not self.row_within(s, rows[middle]):
            return Refused(16)
        low, high = (middle + 1, high) if name_of(s, rows[middle]) < name else (low, middle)
    return rows[low] if low < len(rows) and name_of(s, rows[low]) == name else None


def unless(true, number):
    """A lookup that judges one thing more."""

    def look_up(self, s, table, name):
        answer = Index.look_up(self, s, table, name)
        return answer if isinstance(answer, Refused) or true(s, whole_rows(table), name) else Refused(number)

    return look_up


def reads(s, row):
    """An entry stands at the row's place and has its length, and its name is the row's."""
    try:
        (name, *_), behind = fields(s, row.entry, ENTRY)
    except Refused:
        return False
    return row == (name.start, name.len, row.entry, behind - row.entry)


def signed(x):
    return x - 2**32 if x >= 2**31 else x


# those that change the order, which a table that is built and a table that is lent must both tell
WRONG_ORDER = {
    "shorter_names_first": by_key(lambda name: (len(name), name)),
    "bytes_compared_as_signed": by_key(lambda name: bytes(b ^ 0x80 for b in name)),
    "longer_before_its_beginning": by_key(lambda name: [*name, 256]),
    "names_from_the_right": by_key(lambda name: name[::-1]),
    "names_up_to_a_zero_byte": by_key(lambda name: name.split(b"\0")[0]),
    "first_byte_alone": by_key(lambda name: name[:1]),
    "six_bytes_alone": by_key(lambda name: name[:6]),
    "place_before_name": wrong(rank=lambda self, s, row: (row.entry, name_of(s, row))),
    "later_of_equal_names_first": wrong(place=lambda self, row: -row.entry),
}
# those that an index which is built tells; and one over each wrong reader of a whole message
WRONG_BUILDING = {
    "index_in_message_order": wrong(arranged=lambda self, s, rows: rows),
    "index_in_falling_order": wrong(arranged=lambda self, s, rows: Index.arranged(self, s, rows)[::-1]),
    "one_pass_of_exchanges": wrong(arranged=one_pass),
    "heap_not_taken_apart": wrong(arranged=heaped),
    "names_without_their_entries": wrong(arranged=names_alone),
    "equal_names_kept_once": wrong(built=fewer(once)),
    "empty_names_left_out": wrong(built=fewer(lambda self, s, rows: [row for row in Index.arranged(self, s, rows) if row.name_len])),
    "memory_behind_sorted_too": wrong(built=all_sorted),
} | {name: wrong(reader=reader) for name, reader in whole_reading.WRONG.items() if name not in whole_reading.WRONG_LENGTHS}
# those that a lookup tells
WRONG_FINDING = {
    "last_of_equal_names": wrong(chosen=lambda self, named: named[-1]),
    "any_of_equal_names": wrong(chosen=lambda self, named: named[len(named) // 2]),
    "prefix_is_the_name": wrong(is_name=lambda self, part, name: name.startswith(part)),
    "name_in_a_row_may_go_on": wrong(is_name=lambda self, part, name: part.startswith(name)),
    "six_bytes_are_the_name": wrong(is_name=lambda self, part, name: part[:6] == name[:6]),
    "name_up_to_a_zero_byte": wrong(is_name=lambda self, part, name: part.split(b"\0")[0] == name.split(b"\0")[0]),
    "empty_name_is_no_name": wrong(is_name=lambda self, part, name: part == name != b""),
    "equal_rows_in_order": wrong(strictly=lambda self, s, p, q: self.rank(s, p) <= self.rank(s, q)),
    "order_by_name_alone": wrong(place=lambda self, row: 0),
    "equal_names_in_any_order": wrong(strictly=lambda self, s, p, q: name_of(s, p) <= name_of(s, q)),
    "place_is_the_names_start": wrong(place=lambda self, row: row.name),
    "entry_length_decides_too": wrong(place=lambda self, row: (row.entry, row.entry_len)),
    "name_start_decides_too": wrong(place=lambda self, row: (row.entry, row.name)),
    "entries_may_not_overlap": wrong(strictly=lambda self, s, p, q: Index.strictly(self, s, p, q) and not p.entry <= q.entry < p.entry + p.entry_len),
    "order_not_judged": wrong(strictly=lambda self, s, p, q: True),
    "falling_order_wanted": wrong(strictly=lambda self, s, p, q: self.rank(s, p) > self.rank(s, q)),
    "first_pair_alone_judged": wrong(sound=of_pairs(lambda pairs: pairs[:1])),
    "last_pair_not_judged": wrong(sound=of_pairs(lambda pairs: pairs[:-1])),
    "every_other_pair_judged": wrong(sound=of_pairs(lambda pairs: pairs[::2])),
    "judged_up_to_the_name": wrong(sound=up_to_the_name),
    "met_by_halves_and_not_judged": wrong(look_up=halved),
    "rows_not_judged": wrong(row_within=lambda self, s, row: True),
    "first_row_not_judged": wrong(sound=of_rows(lambda rows: rows[1:])),
    "last_row_not_judged": wrong(sound=of_rows(lambda rows: rows[:-1])),
    "entry_span_not_judged": wrong(row_within=lambda self, s, row: self.within(s, row.name, row.name_len)),
    "name_span_not_judged": wrong(row_within=lambda self, s, row: self.within(s, row.entry, row.entry_len)),
    "start_plus_length_wraps": wrong(within=lambda self, s, start, n: (start + n) % 2**32 <= len(s)),
    "numbers_are_signed": wrong(within=lambda self, s, start, n: signed(start) + signed(n) <= len(s)),
    "start_alone_judged": wrong(within=lambda self, s, start, n: start <= len(s)),
    "length_alone_judged": wrong(within=lambda self, s, start, n: n <= len(s)),
    "span_at_the_end_is_outside": wrong(within=lambda self, s, start, n: start + n < len(s)),
    "start_at_the_end_is_outside": wrong(within=lambda self, s, start, n: start < len(s) and start + n <= len(s)),
    "empty_span_is_anywhere": wrong(within=lambda self, s, start, n: n == 0 or start + n <= len(s)),
    "one_beyond_is_within": wrong(within=lambda self, s, start, n: start + n <= len(s) + 1),
    "part_of_a_row_ignored": wrong(rows=lambda self, table: whole_rows(table)),
    "half_a_row_ignored": wrong(rows=lambda self, table: whole_rows(table) if len(table) % 2 == 0 else None),
    "empty_table_refused": wrong(rows=lambda self, table: Index.rows(self, table) or None),
    "empty_input_is_refused": wrong(look_up=unless(lambda s, rows, name: s != b"", 10)),
    "message_wanted": wrong(look_up=unless(lambda s, rows, name: isinstance(message_at(s, 0), Message), 16)),
    "entries_wanted": wrong(look_up=unless(lambda s, rows, name: all(reads(s, row) for row in rows), 16)),
    "name_in_its_entry_wanted": wrong(look_up=unless(
        lambda s, rows, name: all(r.entry <= r.name and r.name + r.name_len <= r.entry + r.entry_len for r in rows), 16)),
    "longer_name_than_input_refused": wrong(look_up=unless(lambda s, rows, name: len(name) <= len(s), 16)),
    "none_is_refused": wrong(look_up=unless(lambda s, rows, name: any(name_of(s, row) == name for row in rows), 16)),
}
# those that the longest inputs alone tell
WRONG_LENGTHS = {name: wrong(reader=reader) for name, reader in whole_reading.WRONG_LENGTHS.items()} | {
    "nine_after_sixteen": wrong(too_long=lambda self, s, table: len(s) > LIMIT and len(table) % ROW == 0 and self.sound(s, whole_rows(table), b"")),
    "nine_after_part_of_a_row": wrong(too_long=lambda self, s, table: len(s) > LIMIT and len(table) % ROW == 0),
    "nine_not_for_an_empty_table": wrong(too_long=lambda self, s, table: len(s) > LIMIT and len(table) > 0),
    "nine_not_for_a_lookup": wrong(too_long=lambda self, s, table: False),
    "longest_is_too_long_for_a_lookup": wrong(too_long=lambda self, s, table: len(s) >= LIMIT),
}
WRONG = WRONG_ORDER | WRONG_BUILDING | WRONG_FINDING | WRONG_LENGTHS

# ---- the request's vectors: a command, and its answer

S = SIX.hex()
T = "31,0,29,9,61,1,59,10,40,2,38,11,21,1,19,10,71,1,69,10,51,1,49,10"
VECTORS = [
    (f"index 24 0 {S}", f"rows 6 next 85 | {T}"),
    (f"index 26 0 {S}", f"rows 6 next 85 | {T},_,_"),
    (f"index 23 0 {S}", "refused 20 | _,_,_,_,_,_,_,_,_,_,_,_,_,_,_,_,_,_,_,_,_,_,_"),
    ("index 0 0 7603dd4362006200726302017101630f5b00", "rows 0 next 18 | -"),
    ("index 4 0 -", "refused 10 @0 | _,_,_,_"),
    (f"index 0 0 {S[:-2]}01", "refused 15 @84 | -"),
    (f"lookup {S} {T} 62", "found 21,1,19,10"),
    (f"lookup {S} {T} -", "found 31,0,29,9"),
    (f"lookup {S} {T} 6162", "found 40,2,38,11"),
    (f"lookup {S} {T} 616263", "none"),
    (f"lookup {S} - 61", "none"),
    (f"lookup {S} 31,0,29,9,61,1,59,10,40,2,38,11,21,1,19,10,71,1,69,10,51,1,49 62", "refused 16"),
    (f"lookup {S} 61,1,59,10,31,0,29,9 61", "refused 16"),
    ("lookup 616162 0,1,0,1,0,1,0,1 61", "refused 16"),
    ("lookup 616162 0,1,0,1,0,1,1,1 61", "found 0,1,0,1"),
    ("lookup 616162 0,1,2,1,1,1,1,1 61", "refused 16"),
    ("lookup 616162 0,3,4,0 616162", "refused 16"),
    ("lookup 616162 2,2,0,1 62", "refused 16"),
    ("lookup 616162 4294967295,2,0,1 62", "refused 16"),
    ("lookup 616162 0,1,0,3,0,2,0,3,2,1,0,3 6161", "found 0,2,0,3"),
    ("lookup - 0,0,0,0 -", "found 0,0,0,0"),
]

# ---- not the request's: the names 80, 7fff, 7f00, none, ff, 0100010800ff02, 7f, 0100010800ff01, 7f and none, in this order
TEN = (
    "7603dd4362006200726307017701027301017a7702800101010162000177037fff0101010162010177037f00010101016202017701010101016203017702ff010101016204"
    "0177080100010800ff020101010162050177027f0101010162060177080100010800ff010101010162070177027f01010101620801770101010101620901010163c33600"
)
TEN_SORTED = "53,0,51,9,124,0,122,9,98,7,96,16,72,7,70,16,88,1,86,10,114,1,112,10,42,2,40,11,31,2,29,11,21,1,19,10,62,1,60,10"
MORE = [
    (f"index 40 0 {TEN}", f"rows 10 next 137 | {TEN_SORTED}"),
    (f"index 48 0 {TEN}76", f"rows 10 next 137 | {TEN_SORTED},_,_,_,_,_,_,_,_"),
    (f"index 39 0 {TEN}", "refused 20 | " + ",".join("_" * 39)),
    (f"index 8 35 {ONE.hex()}{TWO.hex()}{CLOSE.hex()}", "rows 2 next 80 | 66,1,64,10,56,1,54,10"),
    (f"index 28 0 {S}", f"rows 6 next 85 | {T},_,_,_,_"),
    (f"index 24 0 {S[:-2]}01", "refused 15 @84 | " + ",".join("_" * 24)),
    (f"lookup {TEN} {TEN_SORTED} 7f", "found 88,1,86,10"),
    (f"lookup {TEN} {TEN_SORTED} -", "found 53,0,51,9"),
    (f"lookup {TEN} {TEN_SORTED} 80", "found 21,1,19,10"),
    (f"lookup {TEN} {TEN_SORTED} ff", "found 62,1,60,10"),
    (f"lookup {TEN} {TEN_SORTED} 7fff", "found 31,2,29,11"),
    (f"lookup {TEN} {TEN_SORTED} 7f00", "found 42,2,40,11"),
    (f"lookup {TEN} {TEN_SORTED} 0100010800ff02", "found 72,7,70,16"),
    (f"lookup {TEN} {TEN_SORTED} 0100010800ff", "none"),
    (f"lookup {TEN} {TEN_SORTED} 7f7f", "none"),
    (f"lookup {TEN} {TEN_SORTED} 7fff00", "none"),
    (f"lookup {TEN} {TEN_SORTED} 00", "none"),
    (f"lookup {TEN} {TEN_SORTED},{FILL},{FILL},{FILL},{FILL} 7f", "refused 16"),
    # rows of no message: equal names, each row's place by its entry
    ("lookup 616161 0,1,0,1,1,1,1,1,2,1,2,1 61", "found 0,1,0,1"),
    ("lookup 616161 2,1,0,1,1,1,1,1,0,1,2,1 61", "found 2,1,0,1"),
    ("lookup 616161 0,1,0,1,0,1,0,2 61", "refused 16"),
    ("lookup 616161 0,1,0,1,1,1,0,1 61", "refused 16"),
    ("lookup 616161 0,1,0,3,0,1,1,1 61", "found 0,1,0,3"),
    ("lookup 616161 0,1,0,3,0,2,0,3,0,3,0,3 616161", "found 0,3,0,3"),
    ("lookup 616161 0,2,0,3,0,1,0,3 61", "refused 16"),
    ("lookup 616162 2,1,0,3,0,1,0,3 61", "refused 16"),
    ("lookup 616162 0,1,0,3,2,1,0,3,0,1,0,3 62", "refused 16"),
    ("lookup 616162 0,1,0,3,2,1,0,3,0,2,0,3 61", "refused 16"),
    ("lookup 616162 0,1,1,1,0,1,0,1,2,1,0,1 62", "refused 16"),
    ("lookup 616162 0,1,0,1,2,1,1,1,2,1,0,1 61", "refused 16"),
    ("lookup 616162 0,1,0,1,2,1,0,1,1,1,2,1,2,1,2,1 62", "refused 16"),
    ("lookup 61626361 3,1,0,4,1,1,0,4,2,1,0,4 62", "found 1,1,0,4"),
    ("lookup 61626361 2,1,0,4,1,1,0,4,3,1,0,4 61", "refused 16"),
    # bytes as numbers from 0 to 255; a zero byte is a byte
    ("lookup 7f80ff00 3,1,0,4,0,1,0,4,1,1,0,4,2,1,0,4 80", "found 1,1,0,4"),
    ("lookup 7f80ff00 1,1,0,4,2,1,0,4,3,1,0,4,0,1,0,4 80", "refused 16"),
    ("lookup 610061 0,1,0,1,0,2,0,1,0,3,0,1 6100", "found 0,2,0,1"),
    ("lookup 610061 0,1,0,1 6100", "none"),
    ("lookup 610061 0,2,0,1 61", "none"),
    ("lookup 62616162 1,1,0,4,1,2,0,4,0,1,0,4 6161", "found 1,2,0,4"),
    ("lookup 62616162 1,1,0,4,0,1,0,4,1,2,0,4 6161", "refused 16"),
    ("lookup 62616162 0,1,0,4,1,2,0,4 62", "refused 16"),
    # spans at the input's end, and beyond it
    ("lookup 616162 3,0,3,0 -", "found 3,0,3,0"),
    ("lookup 616162 3,0,3,0,2,1,0,3 62", "found 2,1,0,3"),
    ("lookup 616162 4,0,0,1 -", "refused 16"),
    ("lookup 616162 0,0,4,0 -", "refused 16"),
    ("lookup 616162 3,1,0,1 -", "refused 16"),
    ("lookup 616162 0,4,0,1 616162", "refused 16"),
    ("lookup 616162 0,1,0,4 61", "refused 16"),
    ("lookup 616162 0,1,3,1 61", "refused 16"),
    ("lookup 616162 0,1,4294967295,1 61", "refused 16"),
    ("lookup 616162 0,1,4294967295,2 61", "refused 16"),
    ("lookup 616162 1,4294967295,0,1 61", "refused 16"),
    ("lookup 616162 0,1,1,4294967295 61", "refused 16"),
    ("lookup 616162 4294967295,0,0,1 -", "refused 16"),
    ("lookup 616162 0,1,2147483648,2147483648 61", "refused 16"),
    ("lookup 616162 4294967295,4294967295,4294967295,4294967295 -", "refused 16"),
    ("lookup 616162 0,1,0,1,4294967295,1,0,1 61", "refused 16"),
    ("lookup 616162 0,1,0,1,2,1,0,4 61", "refused 16"),
    ("lookup 616162 0,9,0,1,2,1,0,1 62", "refused 16"),
    ("lookup - 0,0,0,1 -", "refused 16"),
    ("lookup - 0,1,0,0 -", "refused 16"),
    ("lookup - 0,0,0,0 61", "none"),
    ("lookup - 0,0,0,0,0,0,0,0 -", "refused 16"),
    # no row, and parts of one
    ("lookup - - -", "none"),
    ("lookup 616162 - -", "none"),
    ("lookup 616162 0 61", "refused 16"),
    ("lookup 616162 0,1 61", "refused 16"),
    ("lookup 616162 0,1,0 61", "refused 16"),
    ("lookup 616162 0,1,0,1,0 61", "refused 16"),
    ("lookup 616162 0,1,0,1,2,1 61", "refused 16"),
    ("lookup 616162 0,1,0,1,2,1,0 61", "refused 16"),
    # a name that is longer than the input, or than any row's
    ("lookup 61 0,1,0,1 6161", "none"),
    ("lookup 616162 0,2,0,3 616162", "none"),
    ("lookup 616162 0,3,0,3 6161", "none"),
]

# the calls of `message` once more: the same answers without the fields, and the rows in order
ORDERED = {"21,1,19,10,31,1,29,10": "31,1,29,10,21,1,19,10", "46,1,44,10,56,1,54,10": "56,1,54,10,46,1,44,10", ROW_OF_SIX: T}


def without_fields(answer):
    *words, table = answer.split(" | ")
    for rows, ordered in ORDERED.items():
        table = table.replace(rows, ordered)
    return words[-1] + " | " + table


OF_MESSAGES = [(command(Build(*call)), without_fields(answer)) for *call, answer in whole_reading.VECTORS + whole_reading.MORE]


def longest(everything=False):
    """The longest inputs, which no line of bin/replay holds: a call and its answer. With the most entries there may be, all of one name, if wanted."""
    of_messages = whole_reading.longest()
    for *call, answer in of_messages if everything else itertools.islice(of_messages, 14):
        yield Build(*call), without_fields(answer)
    fits, over = bytes(LIMIT), bytes(LIMIT + 1)
    for table in [], [0, 0, 0, 0], [0, 1, 0], [0, LIMIT + 2, 0, 0], [0, 0, LIMIT + 2, 0], [0, 0, 0, 0, 0, 0, 0, 0], [TOP32] * 4, [0, 0, 0, LIMIT + 1]:
        for name in b"", b"\0":
            yield Find(over, table, name), "refused 9"
    yield Find(fits, [], b""), "none"
    yield Find(fits, [LIMIT, 0, LIMIT, 0], b""), "found %d,0,%d,0" % (LIMIT, LIMIT)
    yield Find(fits, [LIMIT - 1, 1, 0, LIMIT], b"\0"), "found %d,1,0,%d" % (LIMIT - 1, LIMIT)
    yield Find(fits, [0, LIMIT, 0, LIMIT], fits), "found 0,%d,0,%d" % (LIMIT, LIMIT)
    yield Find(fits, [0, LIMIT, 0, LIMIT], fits[1:]), "none"
    yield Find(fits, [0, LIMIT, 0, LIMIT], over), "none"
    yield Find(fits, [0, LIMIT - 1, 0, LIMIT, 0, LIMIT, 0, LIMIT], fits), "found 0,%d,0,%d" % (LIMIT, LIMIT)
    yield Find(fits, [0, LIMIT, 0, LIMIT, 0, LIMIT - 1, 0, LIMIT], fits), "refused 16"
    yield Find(fits, [0, LIMIT + 1, 0, 0], fits), "refused 16"
    yield Find(fits, [LIMIT, 1, 0, 0], b""), "refused 16"
    yield Find(fits, [LIMIT, 0, LIMIT + 1, 0], b""), "refused 16"
    yield Find(fits, [LIMIT + 1, 0, LIMIT, 0], b""), "refused 16"


def tells(index, cases, enough=None):
    """How many of the cases, calls with their answers, an index answers otherwise; no more are looked at when there are enough."""
    told = 0
    for call, wanted in cases:
        told += said(call, index) != wanted
        if told == enough:
            break
    return told


def told_by(name, builds, finds, long, enough=None):
    """How many cases tell a wrong one, of those that must: builds and lookups; of one about the order the fewer of both."""
    index = WRONG[name]
    if name in WRONG_LENGTHS:
        return tells(index, long, enough)
    counts = [tells(index, builds, enough)] if name not in WRONG_FINDING else []
    counts += [tells(index, finds, enough)] if name not in WRONG_BUILDING else []
    return min(counts)


def parted(cases):
    """Builds and lookups of some cases."""
    return [one for one in cases if isinstance(one[0], Build)], [one for one in cases if isinstance(one[0], Find)]


if __name__ == "__main__":
    cases, long = [(call_of(text), wanted) for text, wanted in VECTORS + MORE + OF_MESSAGES], list(longest(True))
    faults = ["%s: %s, wanted %s" % (command(call)[:300], said(call)[:200], wanted[:200]) for call, wanted in cases + long if said(call) != wanted]
    told = {name: told_by(name, *parted(cases), long[:14] + long[16:]) for name in WRONG}
    faults += [f"{name}: answers every vector as the right index does" for name, n in told.items() if n == 0]
    for fault in faults[:8]:
        print(fault)
    print(f"{len(VECTORS)} vectors of the request, {len(MORE)} more, {len(OF_MESSAGES)} of whole messages, {len(long)} of the longest inputs; "
          f"{len(WRONG)} wrong indexes; {len(faults)} faults")
    sys.exit(1 if faults else 0)

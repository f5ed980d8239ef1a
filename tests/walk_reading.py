"""A walk over any message content (document 02, Q-4), written from the documents and from what was decided where they leave room, not from the code: what
tests/test_walk.py holds the program to. Bytes and a place come in; how many bytes the element there takes and how many leaves it has, or what is refused, comes out.
What begins at a place, and all elements of a payload one by one, are told beside it.

It goes down as the request tells it: an element may be a list, and a list holds elements. Length bytes are document 01's, with the lengths of Q-2 and the
places of Q-5. WRONG has wrong walks, each with one thing changed, which a test must tell from the right one.

`python3 tests/walk_reading.py` holds it, and each wrong walk, to the request's vectors, to some more, and to the longest inputs; with --all also to those of
the most elements.
"""
import collections, itertools, sys

sys.dont_write_bytecode = True
STRING, BOOLEAN, INTEGER, UNSIGNED, LIST = 0, 4, 5, 6, 7
LIMIT = 1048576  # bytes of an input
LARGEST = 4294967295  # a length
DEEPEST = 16  # open lists
TOP64 = 2**64 - 1
NAMES = {4: "BadState", 9: "InputTooLong", 10: "UnexpectedEOF", 11: "InvalidTlf", 12: "TlfMismatch", 19: "TooDeep"}  # 4 and 12 are no answers of the right walk

# what begins at a place, with the place behind it: behind a list's length bytes its elements begin
EndMark = collections.namedtuple("EndMark", "next")
Leaf = collections.namedtuple("Leaf", "kind start len next")
List = collections.namedtuple("List", "count next")
# what is refused: of 11 the kind, of all but 9 the place
Refusal = collections.namedtuple("Refusal", "number kind place")


class Refused(Exception):
    """`begun` is where a 10's element begins, which no answer tells."""

    def __init__(self, number, place=None, kind=None, begun=None):
        super().__init__(number, place, kind)
        self.number, self.place, self.kind, self.begun = number, place, kind, begun


class Walk:
    """A walk over one element. A wrong walk has one thing changed; what does nothing here is there for wrong ones."""

    # ---- length bytes

    def byte(self, s, at, begun):
        if at >= len(s):
            raise Refused(10, len(s), begun=begun)
        return s[at]

    def typed(self, at, kind, more):
        """The first length byte: its type, and that a Boolean has no more."""
        if kind not in (STRING, BOOLEAN, INTEGER, UNSIGNED, LIST):
            raise Refused(11, at, "TlfInvalidTy")
        if kind == BOOLEAN and more:
            raise Refused(11, at, "TlfReserved")

    def of_no_type(self, at, b):
        if b >> 4 & 7:
            raise Refused(11, at, "TlfNextByteTypeMismatch")

    def within(self, at, place, kind, n):
        """A length that is being built, with the byte at a place."""
        if n > LARGEST:
            raise Refused(11, at, "TlfLengthOverflow")
        return n

    def longer(self, at, place, kind, n, b):
        """The length with one more byte, whose type comes first."""
        self.of_no_type(at, b)
        return self.within(at, place, kind, 16 * n + b % 16)

    def counted(self, at, kind, n, own):
        """What is left of a length without its own bytes, which a list's doesn't count."""
        if kind != LIST:
            n -= own
        if n < 0:
            raise Refused(11, at, "TlfLengthUnderflow")
        return n

    def length(self, s, at):
        """Type and length of the element at a place, and the place behind its length bytes."""
        b = self.byte(s, at, at)
        kind, n, behind = b >> 4 & 7, b % 16, at + 1
        self.typed(at, kind, b > 127)
        while b > 127:
            b = self.byte(s, behind, at)
            n = self.longer(at, behind, kind, n, b)
            behind += 1
        return kind, self.counted(at, kind, n, behind - at), behind

    # ---- elements

    def is_end_mark(self, s, at, around):
        return s[at : at + 1] == b"\0"

    def content(self, s, at, kind, start, n):
        """The place behind a leaf's content, of which only is judged that it is there."""
        if n > len(s) - start:
            raise Refused(10, len(s), begun=at)
        return start + n

    def item(self, s, at, around=0):
        """What begins at a place, with so many open lists around it."""
        if self.is_end_mark(s, at, around):
            return EndMark(at + 1)
        kind, n, behind = self.length(s, at)
        if kind == LIST:
            return List(n, behind)
        return Leaf(kind, behind, n, self.content(s, at, kind, behind, n))

    def leaves(self, at, item):
        """An end mark or a leaf counts as one."""
        return 1

    def opens(self, s, at, item, around):
        """A list opens, of none too; its length bytes are read."""
        if around >= DEEPEST:
            raise Refused(19, at)

    def element(self, s, at, around):
        """How many leaves the element at a place has, and the place behind it."""
        item = self.item(s, at, around)
        if not isinstance(item, List):
            return self.leaves(at, item), item.next
        self.opens(s, at, item, around)
        return self.elements(s, item.next, item.count, around + 1)

    def elements(self, s, at, count, around):
        """The same of so many elements, one behind the other."""
        leaves = 0
        for _ in range(count):
            more, at = self.element(s, at, around)
            leaves += more
        return leaves, at

    # ---- the walk

    def before(self, s, at):
        """What is judged first: the whole input's length, wherever the place is."""
        if len(s) > LIMIT:
            raise Refused(9)

    def behind(self, s, at):
        """What follows the element isn't looked at."""

    def measured(self, s, at, leaves, behind):
        return "bytes", behind - at, leaves

    def refusal(self, f, at):
        """Places are counted from the input's start."""
        return Refusal(f.number, f.kind, f.place)

    def walk(self, s, at):
        try:
            self.before(s, at)
            leaves, behind = self.element(s, at, 0)
            self.behind(s, behind)
        except Refused as f:
            return self.refusal(f, at)
        return self.measured(s, at, leaves, behind)


RIGHT = Walk()


def walk(input, at):
    """The walk over the element at a place: ("bytes", bytes, leaves), or a Refusal."""
    return RIGHT.walk(input, at)


def item(input, at):
    """What begins at a place: an EndMark, a Leaf, a List, or a Refusal: 9, 10 or 11. A list's elements aren't looked at."""
    try:
        RIGHT.before(input, at)
        return RIGHT.item(input, at)
    except Refused as f:
        return RIGHT.refusal(f, at)


def outline(payload):
    """Every element of a payload, one element behind the other from place 0 to the payload's end, a list before its own elements: (depth, place, item), where
    depth is how many lists are open around it, place its first byte, and item an EndMark, a Leaf or a List.

    It stops at the first refusal: the last is then (depth, place, Refusal), of the element that is refused. Otherwise the last is (0, len(payload), None).
    A list inside sixteen open ones is refused with 19, so that depth is 16 at most; of a payload that is too long (0, 0, 9) is all."""
    at = 0
    if len(payload) > LIMIT:
        yield 0, 0, Refusal(9, None, None)
        return
    while at is not None and at < len(payload):
        at = yield from outlined(payload, at, 0)
    if at is not None:
        yield 0, at, None


def outlined(s, at, around):
    """An element and what is inside it; gives the place behind it, or None behind a refusal."""
    try:
        item = RIGHT.item(s, at)
        if isinstance(item, List):
            RIGHT.opens(s, at, item, around)
    except Refused as f:
        yield around, at, RIGHT.refusal(f, at)
        return None
    yield around, at, item
    at = item.next
    for _ in range(item.count if isinstance(item, List) else 0):
        at = yield from outlined(s, at, around + 1)
        if at is None:
            break
    return at


# ---- answers in words, as the commands `walk AT HEX` and `item AT HEX` of bin/replay give them

TYPES = {STRING: "string", BOOLEAN: "boolean", INTEGER: "integer", UNSIGNED: "unsigned"}


def hexed(data):
    return data.hex() or "-"


def unhexed(text):
    return b"" if text == "-" else bytes.fromhex(text)


def command(at, data, word="walk"):
    return "%s %d %s" % (word, at, hexed(data))


def line(answer):
    if isinstance(answer, EndMark):
        return "end mark next %d" % answer
    if isinstance(answer, Leaf):
        return "leaf %s %d %d next %d" % (TYPES[answer.kind], *answer[1:])
    if isinstance(answer, List):
        return "list %d next %d" % answer
    if answer[0] == "bytes":
        return "bytes %d leaves %d" % answer[1:]
    number, kind, place = answer
    return " ".join(["err", NAMES[number], *[kind] * (kind is not None), str(number), *["@%s" % place] * (place is not None)])


def asked(at, data, walk=RIGHT):
    """What a walk answers to `walk at data`."""
    return line(walk.walk(data, at))


def asked_item(at, data):
    """What is answered to `item at data`."""
    return line(item(data, at))


# ---- wrong walks: what is changed, by name


def wrong(**changed):
    return type("Wrong", (Walk,), changed)()


def refuse(number, place=None, kind=None):
    raise Refused(number, place, kind)


def first_byte(s, at):
    return s[at] if at < len(s) else None


def two_byte_mark(self, s, at, around=0):
    return EndMark(at + 2) if s[at : at + 2] == b"\x80\0" else Walk.item(self, s, at, around)


def run_of_marks(self, s, at, around=0):
    item = Walk.item(self, s, at, around)
    return item if isinstance(item, Leaf | List) else EndMark(len(s) - len(s[at:].lstrip(b"\0")))


def marks_close(self, s, at, count, around):
    leaves = 0
    for _ in range(count):
        mark = self.is_end_mark(s, at, around)
        more, at = self.element(s, at, around)
        leaves += more
        if mark:
            break
    return leaves, at


def marks_beside(self, s, at, count, around):
    """End marks are taken with the element that follows them."""
    leaves = 0
    for _ in range(count):
        while self.is_end_mark(s, at, around):
            leaves, at = leaves + 1, at + 1
        more, at = self.element(s, at, around)
        leaves += more
    return leaves, at


def mark_is_last(self, s, at, count, around):
    leaves = 0
    for k in range(count):
        if self.is_end_mark(s, at, around) and k + 1 < count:
            refuse(11, at, "TlfLengthUnderflow")
        more, at = self.element(s, at, around)
        leaves += more
    return leaves, at


def padding_passed(self, s, at):
    begun = at
    while at + 1 < len(s) and s[at] == 0:
        at += 1
    answer = Walk.walk(self, s, at)
    return ("bytes", answer[1] + at - begun, answer[2]) if answer[0] == "bytes" else answer


def depth_of(most):
    return wrong(opens=lambda self, s, at, item, around: refuse(19, at) if around >= most else None)


def deep_before_its_length(self, s, at, around=0):
    if around >= DEEPEST and at < len(s) and s[at] >> 4 & 7 == LIST:
        refuse(19, at)
    return Walk.item(self, s, at, around)


def deep_behind_its_elements(self, s, at, around):
    item = self.item(s, at, around)
    if not isinstance(item, List):
        return 1, item.next
    found = self.elements(s, item.next, item.count, around + 1)
    return found if around < DEEPEST else refuse(19, at)


def any_too_deep(self, s, at, around):
    found = Walk.element(self, s, at, around)
    return found if around < DEEPEST else refuse(19, at)


def named_outside(most):
    """19 stands at the list that so many are open around."""

    def element(self, s, at, around):
        try:
            return Walk.element(self, s, at, around)
        except Refused as f:
            raise Refused(19, at) if f.number == 19 and around == most else f

    return element


def all_closed(self, s, at):
    Walk.before(self, s, at)
    self.opened = 0


def never_closed(self, s, at, item, around):
    if self.opened >= DEEPEST:
        refuse(19, at)
    self.opened += 1


def deep_is_a_leaf(self, s, at, around):
    item = self.item(s, at, around)
    return (1, item.next) if isinstance(item, List) and around >= DEEPEST else Walk.element(self, s, at, around)


def in_turn(times=lambda n: n, inside=lambda around, k, n: around, sum=lambda leaves, more: leaves + more):
    """Elements with one thing changed: how many, how many lists are open around each, and how leaves are put together."""

    def elements(self, s, at, count, around):
        leaves = 0
        for k in range(times(count)):
            more, at = self.element(s, at, inside(around, k, count))
            leaves = sum(leaves, more)
        return leaves, at

    return elements


def first_again(self, s, at, count, around):
    leaves, behind = self.element(s, at, around) if count else (0, at)
    return count * leaves, behind


def list_of_bytes(self, s, at, count, around):
    leaves, end = 0, at + count
    while at < end:
        more, at = self.element(s, at, around)
        leaves += more
    return leaves, at


def of_lists(leaves):
    """A list's leaves by another rule: its own number, the leaves inside, and how many lists are open around it."""

    def element(self, s, at, around):
        item = self.item(s, at, around)
        found, behind = Walk.element(self, s, at, around)
        return (leaves(item.count, found, around) if isinstance(item, List) else found), behind

    return element


def not_entered(self, s, at, around):
    item = self.item(s, at, around)
    return (0, item.next) if isinstance(item, List) and 0 < around < DEEPEST else Walk.element(self, s, at, around)


def wants_too_much(self, s, at, item, around):
    Walk.opens(self, s, at, item, around)
    if item.count > len(s) - item.next:
        refuse(10, len(s))


def judged_content(true):
    """Leaves whose content is judged too: 12 for another length than a reader takes."""

    def content(self, s, at, kind, start, n):
        return Walk.content(self, s, at, kind, start, n) if true(kind, n) else refuse(12, at)

    return content


def rest_judged(self, s, at):
    while at < len(s):
        _, at = self.element(s, at, 0)


def only(number, place):
    """A refusal of this number has another place."""
    return lambda self, f, at: Refusal(f.number, f.kind, place(f, at) if f.number == number else f.place)


def length_end(self, s, at):
    return at + 1 if s[at] == 0 else self.length(s, at)[2]


def overflow_behind(self, at, kind, n, own):
    return Walk.counted(self, at, kind, n, own) if n <= LARGEST else refuse(11, at, "TlfLengthOverflow")


def overflow_first(self, at, place, kind, n, b):
    n = self.within(at, place, kind, 16 * n + b % 16)
    self.of_no_type(at, b)
    return n


def within(true, where=lambda at, place: at):
    """A length that is refused unless something is true of it: its type, its value and how many length bytes there are."""
    return wrong(within=lambda self, at, place, kind, n: n if true(kind, n, place - at + 1) else refuse(11, where(at, place), "TlfLengthOverflow"))


# those that the longest inputs alone tell
WRONG_LENGTHS = {
    "walk_one_byte_too_long": wrong(before=lambda self, s, at: refuse(9) if len(s) > LIMIT + 1 else None),
    "longest_is_too_long": wrong(before=lambda self, s, at: refuse(9) if len(s) >= LIMIT else None),
    "any_input_is_walked": wrong(before=lambda self, s, at: None),
    "nine_of_the_rest": wrong(before=lambda self, s, at: refuse(9) if len(s) - at > LIMIT else None),
    "nine_not_beyond_the_end": wrong(before=lambda self, s, at: refuse(9) if len(s) > LIMIT and at < len(s) else None),
    "nine_behind_the_walk": wrong(before=lambda self, s, at: None, behind=lambda self, s, at: refuse(9) if len(s) > LIMIT else None),
    "nine_where_the_element_ends": wrong(before=lambda self, s, at: None, behind=lambda self, s, at: refuse(9) if at > LIMIT else None),
    "nine_has_a_place": wrong(before=lambda self, s, at: refuse(9, len(s)) if len(s) > LIMIT else None),
}
WRONG = {
    "end_mark_is_no_leaf": wrong(leaves=lambda self, at, item: int(isinstance(item, Leaf))),
    "end_mark_is_one": wrong(is_end_mark=lambda self, s, at, around: first_byte(s, at) == 1),
    "end_mark_in_two_bytes": wrong(item=two_byte_mark),
    "end_mark_only_in_lists": wrong(is_end_mark=lambda self, s, at, around: around > 0 and first_byte(s, at) == 0),
    "end_mark_only_at_the_top": wrong(is_end_mark=lambda self, s, at, around: around == 0 and first_byte(s, at) == 0),
    "end_mark_only_at_a_lists_end": wrong(elements=mark_is_last),
    "end_mark_of_any_type": wrong(is_end_mark=lambda self, s, at, around: first_byte(s, at) in (0x00, 0x40, 0x50, 0x60)),
    "end_mark_closes_its_list": wrong(elements=marks_close),
    "end_mark_is_no_element": wrong(elements=marks_beside),
    "end_marks_in_a_row_are_one": wrong(item=run_of_marks),
    "end_marks_before_it_passed_over": wrong(walk=padding_passed),
    "seventeen_may_be_open": depth_of(17),
    "fifteen_may_be_open": depth_of(15),
    "depth_never_falls": depth_of(10**9),
    "too_deep_named_behind_its_length": wrong(opens=lambda self, s, at, item, around: refuse(19, item.next) if around >= DEEPEST else None),
    "too_deep_named_at_the_list_around_it": wrong(element=named_outside(DEEPEST - 1)),
    "too_deep_named_at_the_outermost": wrong(element=named_outside(0)),
    "too_deep_before_the_length_is_judged": wrong(item=deep_before_its_length),
    "too_deep_behind_its_elements": wrong(element=deep_behind_its_elements),
    "too_deep_is_end_of_input": wrong(opens=lambda self, s, at, item, around: refuse(10, len(s)) if around >= DEEPEST else None),
    "too_deep_is_a_leaf": wrong(element=deep_is_a_leaf),
    "list_of_none_never_too_deep": wrong(opens=lambda self, s, at, item, around: refuse(19, at) if around >= DEEPEST and item.count else None),
    "leaf_may_be_too_deep": wrong(element=any_too_deep),
    "depth_not_given_back": wrong(before=all_closed, opens=never_closed),
    "last_element_is_outside_its_list": wrong(elements=in_turn(inside=lambda around, k, n: around - (k == n - 1))),
    "depth_counts_elements_before": wrong(elements=in_turn(inside=lambda around, k, n: around + k)),
    "depth_of_first_elements_alone": wrong(elements=in_turn(inside=lambda around, k, n: around if k == 0 else 1)),
    "list_one_element_short": wrong(elements=in_turn(times=lambda n: n - 1)),
    "list_one_element_long": wrong(elements=in_turn(times=lambda n: n + 1)),
    "list_of_none_wants_one": wrong(elements=in_turn(times=lambda n: n or 1)),
    "list_reads_its_first_element_again": wrong(elements=first_again),
    "list_counts_bytes": wrong(elements=list_of_bytes),
    "list_number_of_four_bits": wrong(elements=in_turn(times=lambda n: n % 16)),
    "list_number_of_a_byte": wrong(elements=in_turn(times=lambda n: n % 256)),
    "list_number_without_its_length_bytes": wrong(counted=lambda self, at, kind, n, own: Walk.counted(self, at, STRING, n, own)),
    "list_number_judged_first": wrong(opens=wants_too_much),
    "list_counted_as_a_leaf": wrong(element=of_lists(lambda n, leaves, around: leaves + 1)),
    "list_of_none_is_a_leaf": wrong(element=of_lists(lambda n, leaves, around: leaves if n else 1)),
    "inner_list_is_one_leaf": wrong(element=of_lists(lambda n, leaves, around: leaves if around == 0 else 1)),
    "inner_list_has_no_leaves": wrong(element=of_lists(lambda n, leaves, around: leaves if around == 0 else 0)),
    "inner_list_not_entered": wrong(element=not_entered),
    "leaves_of_the_last_element": wrong(elements=in_turn(sum=lambda leaves, more: more)),
    "leaf_without_its_content": wrong(content=lambda self, s, at, kind, start, n: start),
    "leaf_counted_by_its_bytes": wrong(leaves=lambda self, at, item: 1 if isinstance(item, EndMark) else item.len),
    "absent_is_no_leaf": wrong(leaves=lambda self, at, item: int(item != Leaf(STRING, at + 1, 0, at + 1))),
    "empty_leaf_is_no_leaf": wrong(leaves=lambda self, at, item: int(isinstance(item, EndMark) or item.len > 0)),
    "boolean_is_no_leaf": wrong(leaves=lambda self, at, item: int(isinstance(item, EndMark) or item.kind != BOOLEAN)),
    "content_judged": wrong(content=judged_content(lambda kind, n: kind != BOOLEAN or n == 1)),
    "numbers_judged": wrong(content=judged_content(lambda kind, n: kind not in (INTEGER, UNSIGNED) or 1 <= n <= 8)),
    "content_may_be_cut": wrong(content=lambda self, s, at, kind, start, n: min(len(s), start + n)),
    "content_before_the_last_byte": wrong(content=lambda self, s, at, kind, start, n: start + n if n < max(1, len(s) - start) else refuse(10, len(s))),
    "length_counts_what_follows": wrong(counted=lambda self, at, kind, n, own: n),
    "two_length_bytes_one_taken_off": wrong(counted=lambda self, at, kind, n, own: Walk.counted(self, at, kind, n, 1)),
    "underflow_is_empty": wrong(counted=lambda self, at, kind, n, own: n if kind == LIST else max(0, n - own)),
    "length_wraps_round": wrong(within=lambda self, at, place, kind, n: n % 2**32),
    "overflow_is_not_for_lists": within(lambda kind, n, own: n <= LARGEST or kind == LIST),
    "overflow_is_for_lists_alone": within(lambda kind, n, own: n <= LARGEST or kind != LIST),
    "overflow_one_digit_early": within(lambda kind, n, own: n < 2**28),
    "overflow_without_its_length_bytes": within(lambda kind, n, own: n - own <= LARGEST),
    "overflow_over_eight_length_bytes": within(lambda kind, n, own: own <= 8),
    "overflow_behind_the_last_byte": wrong(within=lambda self, at, place, kind, n: n, counted=overflow_behind),
    "overflow_before_its_type": wrong(longer=overflow_first),
    "overflow_named_at_its_byte": within(lambda kind, n, own: n <= LARGEST, lambda at, place: place),
    "unknown_types_are_leaves": wrong(typed=lambda self, at, kind, more: Walk.typed(self, at, kind, more) if kind not in (1, 2, 3) else None),
    "boolean_may_have_more": wrong(typed=lambda self, at, kind, more: Walk.typed(self, at, kind, False)),
    "later_types_not_judged": wrong(of_no_type=lambda self, at, b: None),
    "bytes_counted_from_the_input_s_start": wrong(measured=lambda self, s, at, leaves, behind: ("bytes", behind, leaves)),
    "bytes_behind_the_length_bytes": wrong(measured=lambda self, s, at, leaves, behind: ("bytes", behind - length_end(self, s, at), leaves)),
    "bytes_up_to_the_input_s_end": wrong(measured=lambda self, s, at, leaves, behind: ("bytes", len(s) - at, leaves)),
    "leaves_before_bytes": wrong(measured=lambda self, s, at, leaves, behind: ("bytes", leaves, behind - at)),
    "rest_judged": wrong(behind=rest_judged),
    "rest_refused": wrong(behind=lambda self, s, at: refuse(12, at) if at < len(s) else None),
    "place_from_the_element": wrong(refusal=lambda self, f, at: Refusal(f.number, f.kind, f.place and f.place - at)),
    "missing_byte_named_where_it_began": wrong(refusal=only(10, lambda f, at: f.begun)),
    "missing_byte_named_at_the_outermost": wrong(refusal=only(10, lambda f, at: at)),
    "missing_byte_named_at_the_last": wrong(refusal=only(10, lambda f, at: max(0, f.place - 1))),
    "wrong_length_named_at_the_outermost": wrong(refusal=only(11, lambda f, at: at)),
    "wrong_length_named_behind_its_first_byte": wrong(refusal=only(11, lambda f, at: f.place + 1)),
    "place_not_looked_at": wrong(walk=lambda self, s, at: Walk.walk(self, s, 0)),
    "place_of_32_bits": wrong(walk=lambda self, s, at: Walk.walk(self, s, at % 2**32)),
    "place_at_the_end_takes_nothing": wrong(walk=lambda self, s, at: ("bytes", 0, 0) if at == len(s) else Walk.walk(self, s, at)),
    "place_beyond_is_a_bad_state": wrong(before=lambda self, s, at: refuse(4) if at > len(s) else None),
} | WRONG_LENGTHS

# ---- the request's vectors: place, bytes, and the answer

EOF, UNDER, DEEP = "err UnexpectedEOF 10 @", "err InvalidTlf TlfLengthUnderflow 11 @", "err TooDeep 19 @"
TYPE, RESERVED, NEXT, OVER = ("err InvalidTlf %s 11 @" % kind for kind in ("TlfInvalidTy", "TlfReserved", "TlfNextByteTypeMismatch", "TlfLengthOverflow"))
CLOSE = "7605dd4344006200620072630201710163fd5600"
VECTORS = [(at, unhexed(text), wanted) for at, text, wanted in [
    (0, "-", EOF + "0"),
    (0, "00", "bytes 1 leaves 1"),
    (0, "70", "bytes 1 leaves 0"),
    (0, "f000", "bytes 2 leaves 0"),
    (0, "8000", UNDER + "0"),
    (0, "7300024101", "bytes 5 leaves 3"),
    (0, "72714142ff", "bytes 5 leaves 2"),
    (0, "7207", EOF + "2"),
    (0, "ff8f8f8f8f8f8f0f00", EOF + "9"),
    (0, "71" * 16 + "01", "bytes 17 leaves 1"),
    (0, "71" * 16 + "70", DEEP + "16"),
    (0, "71" * 16 + "f1", EOF + "17"),
    (0, CLOSE, "bytes 20 leaves 7"),
    (2, "0000" + CLOSE + "7605", "bytes 20 leaves 7"),
    (3, "0000", EOF + "2"),
    (TOP64, "00", EOF + "1"),
]]

# ---- not the request's: leaves of every type, and of no byte; length bytes; end marks; lists of none, long ones and nested ones; depth; places and what follows
MORE = [(at, unhexed(text), wanted) for at, text, wanted in [
    (0, "01", "bytes 1 leaves 1"),
    (0, "41", "bytes 1 leaves 1"),
    (0, "51", "bytes 1 leaves 1"),
    (0, "61", "bytes 1 leaves 1"),
    (0, "4300ff", "bytes 3 leaves 1"),
    (0, "6b00112233445566778899", "bytes 11 leaves 1"),
    (0, "07616263646566", "bytes 7 leaves 1"),
    (0, "076162636465", EOF + "6"),
    (0, "8002", "bytes 2 leaves 1"),
    (0, "8302" + "61" * 48, "bytes 50 leaves 1"),
    (0, "8302" + "61" * 47, EOF + "49"),
    (0, "808080808080808080800d4142ff", "bytes 13 leaves 1"),
    (0, "40", UNDER + "0"),
    (0, "50", UNDER + "0"),
    (0, "60", UNDER + "0"),
    (0, "8001", UNDER + "0"),
    (0, "e001", UNDER + "0"),
    (0, "10", TYPE + "0"),
    (0, "25", TYPE + "0"),
    (0, "b101", TYPE + "0"),
    (0, "c2", RESERVED + "0"),
    (0, "c003ff", RESERVED + "0"),
    (0, "8112", NEXT + "0"),
    (0, "f171", NEXT + "0"),
    (0, "71f110", NEXT + "1"),
    (0, "81", EOF + "1"),
    (0, "8182", EOF + "2"),
    (0, "8f8f8f8f8f8f8f0f", EOF + "8"),
    (0, "8180808080808000", EOF + "8"),
    (0, "8180808080808080", EOF + "8"),
    (0, "818080808080808010", NEXT + "0"),
    (0, "818080808080808080", OVER + "0"),
    (0, "818080808080808008", OVER + "0"),
    (0, "81808080808080800a41", OVER + "0"),
    (0, "7181808080808080800a41", OVER + "1"),
    (0, "f18080808080808000", OVER + "0"),
    (0, "f18080808080800010", TYPE + "8"),
    # end marks
    (0, "7100", "bytes 2 leaves 1"),
    (0, "720000", "bytes 3 leaves 2"),
    (0, "720001", "bytes 3 leaves 2"),
    (0, "720100", "bytes 3 leaves 2"),
    (0, "730000", EOF + "3"),
    (0, "728000", UNDER + "1"),
    (0, "7140", UNDER + "1"),
    (0, "0000", "bytes 1 leaves 1"),
    (0, "0001", "bytes 1 leaves 1"),
    # lists
    (0, "7170", "bytes 2 leaves 0"),
    (0, "73707070", "bytes 4 leaves 0"),
    (0, "7202ff02ff", "bytes 5 leaves 2"),
    (0, "72720001" + "7302ff4170", "bytes 9 leaves 4"),
    (0, "f08003" + "800361" + "00" + "f000", "bytes 9 leaves 2"),
    (0, "f100" + "00" * 16, "bytes 18 leaves 16"),
    (0, "f100" + "00" * 15, EOF + "17"),
    (0, "f18000" + "00" * 256, "bytes 259 leaves 256"),
    (0, "7210", TYPE + "1"),
    (0, "72017210", TYPE + "3"),
    (0, "7f", EOF + "1"),
    # depth
    (0, "71" * 15 + "70", "bytes 16 leaves 0"),
    (0, "71" * 16 + "00", "bytes 17 leaves 1"),
    (0, "71" * 16 + "07616263646566", "bytes 23 leaves 1"),
    (0, "71" * 15 + "7f" + "00" * 15, "bytes 31 leaves 15"),
    (0, "71" * 15 + "720070", DEEP + "17"),
    (0, "71" * 16, EOF + "16"),
    (0, "71" * 17, DEEP + "16"),
    (0, "71" * 17 + "01", DEEP + "16"),
    (0, "71" * 40 + "01", DEEP + "16"),
    (0, "72" * 17 + "01" + "00" * 17, DEEP + "16"),
    (0, "72" * 16 + "01" + "00" * 16, "bytes 33 leaves 17"),
    (0, "7200" * 16 + "70", DEEP + "32"),
    (0, "71" * 16 + "f000", DEEP + "16"),
    (0, "71" * 16 + "f001", DEEP + "16"),
    (0, "71" * 16 + "10", TYPE + "16"),
    (0, "71" * 16 + "f110", NEXT + "16"),
    (0, "71" * 16 + "f18080808080808000", OVER + "16"),
    (0, "7172" + "00" + "71" * 14 + "70", DEEP + "17"),
    (0, "7172" + "00" + "71" * 13 + "70", "bytes 17 leaves 1"),
    (0, "72" + "71" * 14 + "70" + "71" * 15 + "70", DEEP + "31"),
    (0, "f101" + "70" * 17, "bytes 19 leaves 0"),
    (0, "f103" + "7101" * 19, "bytes 40 leaves 19"),
    # places, and what follows
    (1, "7100", "bytes 1 leaves 1"),
    (1, "007110", TYPE + "2"),
    (1, "007107", EOF + "3"),
    (1, "00" + "71" * 16 + "70", DEEP + "17"),
    (2, "0000", EOF + "2"),
    (0, "0110", "bytes 1 leaves 1"),
    (0, "710180", "bytes 2 leaves 1"),
    (3, "720101" + "720102ff" + "10", "bytes 4 leaves 2"),
    (20, CLOSE + CLOSE, "bytes 20 leaves 7"),
    (2**32, "00", EOF + "1"),
    (2**63, "00", EOF + "1"),
]]

# ---- what begins at a place: the same, by `item`
ITEMS = [(at, unhexed(text), wanted) for at, text, wanted in [
    (0, "-", EOF + "0"),
    (0, "00", "end mark next 1"),
    (1, "7300024101", "end mark next 2"),
    (0, "0000", "end mark next 1"),
    (0, "8000", UNDER + "0"),
    (0, "01", "leaf string 1 0 next 1"),
    (2, "7300024101", "leaf string 3 1 next 4"),
    (0, "8302" + "61" * 49, "leaf string 2 48 next 50"),
    (0, "8302" + "61" * 47, EOF + "49"),
    (0, "808080808080808080800d4142ff", "leaf string 11 2 next 13"),
    (3, "7300024101", "leaf boolean 4 0 next 4"),
    (0, "4201", "leaf boolean 1 1 next 2"),
    (0, "5480000001", "leaf integer 1 3 next 4"),
    (0, "650000000a", "leaf unsigned 1 4 next 5"),
    (0, "70", "list 0 next 1"),
    (0, "7300024101", "list 3 next 1"),
    (0, "7610", "list 6 next 1"),
    (0, "f1808000", "list 4096 next 4"),
    (0, "ff8f8f8f8f8f8f0f", "list 4294967295 next 8"),
    (1, "00ff8f8f8f8f8f8f8f0f", OVER + "1"),
    (0, "8182", EOF + "2"),
    (0, "10", TYPE + "0"),
    (1, "00c201", RESERVED + "1"),
    (0, "f171", NEXT + "0"),
    (16, "71" * 17, "list 1 next 17"),
    (2, "0000", EOF + "2"),
    (3, "0000", EOF + "2"),
    (TOP64, "00", EOF + "1"),
]]


def longest(everything=False):
    """The longest inputs, which no line of bin/replay holds: place, bytes, and the answer. With the most elements there may be, if wanted."""
    fits, over, close = bytes(LIMIT), bytes(LIMIT + 1), unhexed(CLOSE)
    for at in 0, 1, LIMIT, LIMIT + 1, LIMIT + 2, TOP64:
        yield at, over, "err InputTooLong 9"
    for front in b"\x10", b"\x82", b"\x71" * 17, close, b"\x8f\x8f\x8f\x8f\x8f\x8f\x8f\x0f":
        yield 0, front + over[len(front) :], "err InputTooLong 9"
    yield 0, over + fits, "err InputTooLong 9"
    yield 0, fits, "bytes 1 leaves 1"
    yield LIMIT - 1, fits, "bytes 1 leaves 1"
    for at in LIMIT, LIMIT + 1, TOP64:
        yield at, fits, EOF + str(LIMIT)
    yield 0, b"\x10" + fits[1:], TYPE + "0"
    yield 0, close + fits[20:], "bytes 20 leaves 7"
    yield LIMIT - 20, fits[20:] + close, "bytes 20 leaves 7"
    yield LIMIT - 19, fits[19:] + close[:-1], EOF + str(LIMIT)
    yield LIMIT - 17, fits[17:] + b"\x71" * 16 + b"\x70", DEEP + str(LIMIT - 1)
    # one leaf that is the whole input, alone and in sixteen lists; and one that wants a byte more
    yield 0, unhexed("818080808000") + fits[6:], "bytes %d leaves 1" % LIMIT
    yield 0, unhexed("818080808001") + fits[6:], EOF + str(LIMIT)
    yield 0, b"\x71" * 16 + unhexed("8f8f8f8f00") + fits[21:], "bytes %d leaves 1" % LIMIT
    yield 0, unhexed("818080808001") + fits[5:], "err InputTooLong 9"
    if everything:
        n = LIMIT - 5
        for leaf, leaves in (b"\0", n), (b"\x41", n), (b"\x70", 0):
            yield 0, unhexed("ff8f8f8f0b") + leaf * n, "bytes %d leaves %d" % (LIMIT, leaves)
            yield 0, unhexed("ff8f8f8f0c") + leaf * n, EOF + str(LIMIT)
        yield 0, b"\x71" * 15 + unhexed("ff8f8f8e0c") + b"\0" * (n - 15), "bytes %d leaves %d" % (LIMIT, n - 15)


def tells(walk, cases, enough=None):
    """How many of the cases, with their answers, a walk answers otherwise; no more are looked at when there are enough."""
    told = (asked(at, data, walk) != wanted for at, data, wanted in cases)
    return sum(itertools.islice(filter(None, told), enough))


if __name__ == "__main__":
    cases, long = VECTORS + MORE, list(longest("--all" in sys.argv))
    faults = ["%s: %s, wanted %s" % (command(at, data)[:200], asked(at, data), wanted) for at, data, wanted in cases + long if asked(at, data) != wanted]
    faults += ["%s: %s, wanted %s" % (command(at, data, "item"), asked_item(at, data), wanted) for at, data, wanted in ITEMS if asked_item(at, data) != wanted]
    told = {name: tells(walk, long if name in WRONG_LENGTHS else cases, 1) for name, walk in WRONG.items()}
    faults += [f"{name}: answers every vector as the right walk does" for name, n in told.items() if n == 0]
    for fault in faults[:8]:
        print(fault)
    print(f"{len(VECTORS)} vectors of the request, {len(MORE)} more, {len(ITEMS)} of items, {len(long)} of the longest inputs; {len(WRONG)} wrong walks; "
          f"{len(faults)} faults")
    sys.exit(1 if faults else 0)

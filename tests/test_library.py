"""The library as C links it (include/sartrogheo.h, libsartrogheo.a, examples/, scripts/install, docs/LIBRARY.md).

The header says what the crate exports: each constant is the number that the definitions have, each prototype that of one export, each word of an event that of `event_words`; C++ takes it too. The archive is for x86-64, defines the exports and nothing else, has nothing that can be
written, and asks for nothing but what a compiler asks for by itself. tests/library.c makes every call with good and bad input, and answers random commands, each as tests/push_rules.py, tests/places_reading.py, tests/walk_reading.py, tests/why_reading.py and oracle/sml.py do, which were written from the documents alone.
The examples are built with the toolchain, and print of the captures and of a recording with noise and damaged frames what is stored in tests/expected, and what those readings say. An installed folder is moved, holds what docs/LIBRARY.md says, and is all that the programs of that page
are built with; a run of scripts/install that fails leaves a folder as it was.

`python3 tests/test_library.py N` runs N random commands of each kind, with --all 20,000; --store writes the output of the examples to tests/expected.
"""
import glob, os, platform, random, re, select, shutil, struct, subprocess, sys, tempfile
from decimal import Decimal

sys.dont_write_bytecode = True
os.chdir(os.path.join(os.path.dirname(os.path.abspath(__file__)), ".."))
sys.path += ["scripts", "oracle"]
import clink, push_rules, walk_reading, why_reading
from messages import ABSENT, BOOL, INT, LIST, OCT, UINT, element, file, length, sealed, unsigned
from places_reading import NAMES, Reading, crc
from sml import START, frame

push_rules.crc = crc  # the same by a table: it is asked for at every frame's end of 200 lines
SEED, GATE, ALL = 20250911, 700, 20000
LIMIT, LINES, CAPACITY, TIMES = 1048576, 200, 4096, 2  # the last three are those of the examples
EXAMPLES = ["collector", "host"]
faults = []


def held(what, said, wanted):
    if said != wanted:
        faults.append(f"{what}\n  wanted   {str(wanted)[:600]}\n  found    {str(said)[:600]}")


def held_lines(what, output, wanted):
    """Of long outputs the first line that differs is told."""
    for k, (one, other) in enumerate(zip(output.split("\n") + [None], wanted.split("\n") + [None]), 1):
        if one != other:
            return held(f"{what}, line {k}", one, other)


def text(path):
    return open(path, encoding="utf-8").read()


def ran(words, data=b""):
    """Status and output of a program."""
    run = subprocess.run(words, input=data, stdout=subprocess.PIPE, stderr=subprocess.STDOUT)
    return run.returncode, run.stdout.decode()


def said(what, words, data=b""):
    """The output of a program that must end with 0."""
    status, output = ran(words, data)
    held(f"{what}: status", (status, output[-300:] if status else ""), (0, ""))
    return output


# ---- the header

HEADER = re.sub(r"/\*.*?\*/", "", text("include/sartrogheo.h"), flags=re.S)
EXPORTS = "".join(map(text, sorted(glob.glob("crates/sartrogheo_c/src/*.rt"))))
WORDS = re.sub("--.*", "", text("crates/words/specs/Words.antt"))
# what a term of a definition of words puts down
PARTS = {"span_words": [".start", ".len"], "number_word": [""], "value_words": [".kind", ".width", ".number", ".bytes.start", ".bytes.len"],
         "field_words 2 span_words": [".present", ".start", ".len"], "field_words 2 status_words": [".present", ".width", ".value"], "field_words 1 number_word": [".present", ".value"], "field_words 1 signed_word": [".present", ".value"]}
# the definition and its cases, whose numbers are constants; where a case's fields stand in an event
TAGS = {("start_words", "m"): "MESSAGE_START", ("end_words", "e"): "GET_LIST_RESPONSE_END", ("entry_words", "e"): "LIST_ENTRY", ("said_words", "no_event"): "NO_EVENT", ("said_words", "failed f"): "REFUSED", ("said_words", "alone number"): "REFUSED_ALONE",
        ("body_words", "open_body b"): "OPEN_RESPONSE", ("body_words", "close_body b"): "CLOSE_RESPONSE", ("body_words", "list_body b"): "GET_LIST_RESPONSE",
        ("value_words", "truth b"): "VALUE_BOOL", ("value_words", "bytes s"): "VALUE_BYTES", ("value_words", "signed width z"): "VALUE_SIGNED", ("value_words", "unsigned width n"): "VALUE_UNSIGNED", ("value_words", "list_time n"): "VALUE_TIME"}
PLACED = {("start_words", "m"): "message.", ("body_words", "open_body b"): "message.open.", ("body_words", "close_body b"): "message.close.", ("body_words", "list_body b"): "message.list.", ("end_words", "e"): "end.", ("entry_words", "e"): "entry.", ("said_words", "failed f"): "refused."}
# the type of a parameter, and of an answer
TYPES = {"&mut [u8; 28]": "sgh_decoder *", "&[u8; 28]": "const sgh_decoder *", "&mut [u64; 24]": "sgh_event *", "&[u64; 24]": "const sgh_event *", "&[u8]": "const uint8_t *, size_t", "&mut [u8]": "uint8_t *, size_t",
         "&mut [u64; 50]": "sgh_message *", "&mut [u64; 9]": "sgh_item *", "&mut [u32; 4]": "sgh_row *", "&mut [u32]": "uint32_t *, size_t", "&[u32]": "const uint32_t *, size_t", "&mut usize": "size_t *", "&mut u8": "uint8_t *", "u8": "uint8_t", "usize": "size_t", "u16": "uint16_t", "u32": "uint32_t", "": "void"}


def upper(name):
    return re.sub("(?<=[a-z])(?=[A-Z])", "_", name).upper()


def numbers_of(path, pattern):
    """The numbers that a file defines, by name."""
    return {name: int(n) for name, n in re.findall(pattern, text(path), re.M)}


# those of the two documents that a call gives, by number; the kinds of 11, by name
NUMBERED = [*range(1, 21)]
REFUSALS = {n: upper(name) for name, n in numbers_of("crates/refusals/specs/Numbers.antt", r"^(\w+)_no = (\d+)$").items() if n in NUMBERED}
KINDS = numbers_of("crates/refusals/specs/Answers.antt", r"^kind_of (\w+) = (\d)$")


def terms(name, case):
    """What a definition of words puts down for a case, in order."""
    body = re.search(rf"^{name} \(?{re.escape(case)}\)? =((?:.*\n)(?:    .*\n)*)", WORDS, re.M)
    if not body:
        sys.exit(f"test_library: crates/words/specs/Words.antt has no {name} of {case}")
    return [t for t in map(str.strip, re.split(r"∷|\+\+", body.group(1))) if t not in ("", "[]")]


def row():
    """The fields of a row in C, by what `flat` puts down for one."""
    return [f"{part}_{field}" for part, field in re.findall(r"r\.(\w+)\.(\w+) ∷", re.search(r"^flat \(r ∷ rs\) = (.*)", text("crates/whole/specs/Whole.antt"), re.M).group(1))]


def index():
    """The fields of an index in C, by what `index_words` puts down where one is built, and where the message is refused."""
    built, broken = (re.search(rf"^index_words \({case} .*\) = (.*) ∷ \[\]$", text("crates/sartrogheo/specs/Indexes.antt"), re.M).group(1).split(" ∷ ") for case in ("index_is", "index_broken"))
    return [re.sub(r"^f\.", "refused.", other) if one == "0" else one for one, other in zip(built, broken)]


WALKS = text("crates/sartrogheo/specs/Walks.antt")


def item_words(case):
    """What `item_words` puts down for a case."""
    return re.search(rf"^item_words \({case}\) = (.*) ∷ \[\]$", WALKS, re.M).group(1).split(" ∷ ")


def item():
    """The fields of an item in C: the kind, and by `item_words` what is a leaf's, a list's or a refusal's."""
    columns = list(zip(*map(item_words, (r"got \(leaf ty content\) next", r"got \(list_item count\) next", "refused f"))))
    return ["kind"] + [re.sub(r"^f\.", "refused.", next(word for word in column if word != "0").replace("ty_number ", "")) for column in columns[1:]]


def walked():
    """The fields of a walk in C, by `walk_words`."""
    done, broken = (re.search(rf"^walk_words \({case} .*\) = (.*) ∷ \[\]$", WALKS, re.M).group(1).split(" ∷ ") for case in ("walk_is", "walk_broken"))
    return [re.sub(r"^f\.", "refused.", other) if one == "0" else one for one, other in zip(done, broken)]


LOSSES = text("crates/sartrogheo/specs/Losses.antt")


def causes():
    """The bits of causes, by the names that the words of bin/smlwhy have: those that stand alone, and those of an end."""
    alone = {name.removeprefix("Unknown").removeprefix("No") if name != "Noise" else name: int(n) for name, n in re.findall(r"^cause_bits (\w+) = (\d+)$", LOSSES, re.M)}
    end = {name: int(n) for name, n in re.findall(r"bit_if (\w+) (\d+)", re.search(r"^cause_bits \(Invalid .*", LOSSES, re.M).group(0))}
    return {name.lower(): n for name, n in (alone | end).items()}


def loss_words(name):
    """The fields of a loss or a watch in C, by what a definition puts down."""
    return [re.sub(r"cause_bits \w+\.cause", "causes", word).split(".")[-1].strip() for word in re.search(rf"^{name} \w = (.*) ∷ \[\]$", LOSSES, re.M).group(1).split(" ∷ ")]


def constants():
    """The header's constants by the definitions and the code that the proofs are about."""
    held("the numbers of refusals", sorted(REFUSALS), NUMBERED)
    wanted = {name: n for n, name in REFUSALS.items()} | {upper(name): n for name, n in KINDS.items()}
    wanted |= {upper(name): n for name, n in numbers_of("crates/sartrogheo/specs/Calls.antt", r"^(good|payload|finished|not_found|lost)_no = (\d+)$").items()}
    wanted |= numbers_of("crates/decoder/src/lib.rt", r"const (\w+_WAY): u8 = (\d);")
    wanted |= {case: int(terms(*words)[0]) for words, case in TAGS.items()}
    wanted["LIMIT"] = numbers_of("crates/refusals/specs/Numbers.antt", r"^(limit) = (\d+)$")["limit"]
    wanted["DECODER_LEN"] = numbers_of("crates/packed/src/lib.rt", r"^pub const (LEN): usize = (\d+);")["LEN"]
    wanted["VALUES"] = int(re.search(r"values: &mut \[u64; (\d+)\]", EXPORTS).group(1))
    wanted["MESSAGE_WORDS"] = int(re.search(r"message: &mut \[u64; (\d+)\]", EXPORTS).group(1))
    wanted["INDEX_WORDS"] = int(re.search(r"index: &mut \[u64; (\d+)\]", EXPORTS).group(1))
    wanted["ITEM_WORDS"] = int(re.search(r"item: &mut \[u64; (\d+)\]", EXPORTS).group(1))
    wanted["WALKED_WORDS"] = int(re.search(r"element: &mut \[u64; (\d+)\]", EXPORTS).group(1))
    wanted |= {name: int(item_words(case)[0]) for name, case in (("END_MARK", "got end_mark next"), ("LEAF", r"got \(leaf ty content\) next"), ("LIST", r"got \(list_item count\) next"))}
    wanted |= {"TY_" + upper(name): n for name, n in numbers_of("crates/tlf/specs/Written.antt", r"^ty_number (\w+) = (\d)$").items() if name != "ListOf"}
    wanted |= {name.upper() + "_WORDS": int(re.search(rf"\b{name}: &mut \[u64; (\d+)\]", EXPORTS).group(1)) for name in ("watch", "loss")}
    wanted |= {"CAUSE_" + name.upper(): n for name, n in causes().items()}
    wanted["ROW_NUMBERS"] = len(row())
    wanted["EVENT_WORDS"] = int(re.search(r"^event_words s = with_zeros (\d+)", WORDS, re.M).group(1))
    found = {name: int(n) for name, n in re.findall(r"^#define SGH_(\w+) (\d+)u *$", HEADER, re.M)}
    held("constants: names", sorted(found), sorted(wanted))
    held("constants: numbers", {name: n for name, n in found.items() if n != wanted.get(name)}, {})
    held("constants: every line", len(found), len(re.findall("^#define SGH_", HEADER, re.M)))
    return len(found)


def layout():
    """The words of an event by `event_words`, each with the name that it has in C."""
    words = {"kind": 0, "message.body": 5}
    for (name, case), place in PLACED.items():
        at = 6 if name == "body_words" else 1
        for term in terms(name, case)[1:]:
            what, field = re.fullmatch(r"(?:(.*) )?\w+\.(\w+)", term).groups()
            if what == "body_words":
                held("layout: where a body begins", at, 5)
                continue
            for part in PARTS[what] if what else [""]:
                words[place + field + part], at = at, at + 1
    return words


def leaves(kind, structs):
    """All fields of a struct, by their names in C; those of an unnamed union belong to the struct."""
    for names in structs[kind]:
        sort, names = names.split(" ", 1)
        for name in names.split(", "):
            yield from ([name] if sort not in structs else (f"{name}.{leaf}" for leaf in leaves(sort, structs)))


def compiles(folder, what, source, flags):
    path = os.path.join(folder, "asked.c")
    open(path, "w").write(source)
    status, output = ran([clink.programs.tools("bin/clang"), "--target=x86_64-unknown-linux-gnu", *clink.PLAIN, *clink.INCLUDE, *flags, "-fsyntax-only", path])
    held(what, output if status else "", "")


def structs_are(folder):
    """The header's structs have exactly the fields of the words, where C puts them; the plain arrays of the exports are as long."""
    flat = re.sub(r"^    \};\n", "", re.sub(r"^    union \{\n", "", HEADER, flags=re.M), flags=re.M)
    structs = {name: [" ".join(f.split()) for f in body.split(";") if f.strip() and "[" not in f] for body, name in re.findall(r"typedef struct \{(.*?)\} (\w+);", flat, re.S)}
    words, words_of_event = layout(), int(re.search(r"^event_words s = with_zeros (\d+)", WORDS, re.M).group(1))
    held("layout: fields of sgh_event", sorted(leaves("sgh_event", structs)), sorted(words))
    asked = [f"_Static_assert(offsetof(sgh_event, {path}) == {8 * at} && sizeof(((sgh_event *)0)->{path}) == 8, \"{path}\");" for path, at in words.items()]
    # the parts of `message_words`: two events, and two numbers
    parts = {"start": 0, "end": words_of_event, "rows": 2 * words_of_event, "next": 2 * words_of_event + 1}
    asked += [f"_Static_assert(offsetof(sgh_message, {name}) == {8 * at}, \"{name} of a message\");" for name, at in parts.items()]
    asked += [f"_Static_assert(offsetof(sgh_row, {name}) == {4 * k} && sizeof(((sgh_row *)0)->{name}) == 4, \"{name}\");" for k, name in enumerate(row())]
    asked += [f"_Static_assert(offsetof(sgh_index, {name}) == {8 * k} && sizeof(((sgh_index *)0)->{name}) == 8, \"{name} of an index\");" for k, name in enumerate(index())]
    held("layout: fields of sgh_row and sgh_message", (list(leaves("sgh_row", structs)), structs["sgh_message"]), (row(), ["sgh_event start, end", "uint64_t rows, next"]))
    held("layout: fields of sgh_index", list(leaves("sgh_index", structs)), index())
    for name, fields in (("sgh_item", item()), ("sgh_walked", walked()), ("sgh_loss", loss_words("loss_words")), ("sgh_watch", loss_words("watch_words"))):
        asked += [f"_Static_assert(offsetof({name}, {field}) == {8 * k} && sizeof((({name} *)0)->{field}) == 8, \"{field} of {name}\");" for k, field in enumerate(fields)]
        held(f"layout: fields of {name}", list(leaves(name, structs)), fields)
    sizes = {"sgh_row": "4 * SGH_ROW_NUMBERS", "sgh_index": "8 * SGH_INDEX_WORDS", "sgh_item": "8 * SGH_ITEM_WORDS", "sgh_walked": "8 * SGH_WALKED_WORDS", "sgh_watch": "8 * SGH_WATCH_WORDS", "sgh_loss": "8 * SGH_LOSS_WORDS", "sgh_message": "8 * SGH_MESSAGE_WORDS", "sgh_decoder": "SGH_DECODER_LEN", "sgh_event": "8 * SGH_EVENT_WORDS", "sgh_encoder": "8 * 4", "sgh_reader": "8 * 3", "sgh_writer": "8 * 4"}
    asked += [f"_Static_assert(sizeof({name}) == {size}, \"{name}\");" for name, size in sizes.items()]
    held("layout: Encoder, reader and writer", [list(leaves(name, structs)) for name in ("sgh_encoder", "sgh_reader", "sgh_writer")], [["kind", "count", "place", "crc"], ["place", "start", "pending"], ["place", "state", "left", "crc"]])
    compiles(folder, "layout: as the compiler has it", "\n".join(["#include <stddef.h>", "#include <sartrogheo.h>", *asked, ""]), ["-std=c11"])
    compiles(folder, "the header alone, in C11", "#include <sartrogheo.h>\n", ["-std=c11", "-pedantic", "-Wpadded"])
    compiles(folder, "the header alone, in C++", "#include <sartrogheo.h>\n", ["-x", "c++", "-std=c++11", "-pedantic"])
    return len(words)


def prototypes():
    """Each export as C has it. Three, four and five numbers are what their name says."""
    three, four = {"reader": "sgh_reader *", "loss": "sgh_loss *"}, {"values": "uint64_t [SGH_VALUES]", "encoder": "sgh_encoder *", "writer": "sgh_writer *", "watch": "sgh_watch *"}
    named = {"&mut [u64; 3]": three, "&mut [u64; 4]": four, "&mut [u64; 5]": {"index": "sgh_index *", "element": "sgh_walked *"}}
    wanted = {}
    for name, parameters, answer in re.findall(r'#\[unsafe\(no_mangle\)\]\s*pub extern "C" fn (\w+)\(([^)]*)\)(?: -> (\w+))?', EXPORTS):
        pairs = [p.strip().split(": ", 1) for p in parameters.replace("\n", " ").split(",") if p.strip()]
        types = [TYPES.get(t) or named.get(t, {}).get(n, "?") for n, t in pairs]
        held(f"types of {name}", [t for n, t in pairs if t not in TYPES and n not in named.get(t, {})], [])
        wanted[name] = f"{TYPES[answer]} ({', '.join(types)})"
    found = {}
    for answer, name, parameters in re.findall(r"^(\w+) (\w+)\(([^)]*)\);", HEADER, re.M):
        types = [re.sub(r"\w+$|\w+(?=\[)", "", p.strip()).strip() for p in parameters.split(",")]
        found[name] = f"{answer} ({', '.join(types)})"
    held("exports with no prototype", sorted(set(wanted) - set(found)), [])
    held("prototypes with no export", sorted(set(found) - set(wanted)), [])
    for name in set(wanted) & set(found):
        held(f"prototype of {name}", found[name], wanted[name])
    return set(wanted)


# ---- the archive

# what compilers ask for of any program, with and without a C library
ALLOWED = {"memcpy", "memmove", "memset", "memcmp"}
WRITE, ALLOC, TLS, EXEC = 1, 2, 0x400, 4


def members(data):
    """The files of an archive, without its own tables."""
    at = 8
    held("archive: first bytes", data[:8], b"!<arch>\n")
    while at < len(data):
        name, size = data[at : at + 16].decode().strip(), int(data[at + 48 : at + 58])
        if name not in ("/", "//", "/SYM64/"):
            yield name, data[at + 60 : at + 60 + size]
        at += 60 + size + size % 2


def looked(name, elf):
    """What an object file defines for all, and what it asks for; that nothing of it can be written and its stack is not to be run."""
    held(f"{name}: 64 bits, low byte first, an object file, x86-64", (elf[:6], *struct.unpack_from("<HH", elf, 16)), (b"\x7fELF\2\1", 1, 62))
    table, (size, count, names) = struct.unpack_from("<Q", elf, 40)[0], struct.unpack_from("<HHH", elf, 58)
    sections = [struct.unpack_from("<IIQQQQIIQQ", elf, table + k * size) for k in range(count)]
    called = lambda base, at: elf[base + at : elf.index(b"\0", base + at)].decode()
    section = {called(sections[names][4], s[0]): s for s in sections}
    held(f"{name}: what can be written", [n for n, s in section.items() if s[2] & ALLOC and s[2] & (WRITE | TLS) and s[5]], [])
    held(f"{name}: a stack that can be run", section[".note.GNU-stack"][2] & EXEC, 0)
    symbols = section[".symtab"]
    defined, asked = set(), set()
    for at in range(symbols[4], symbols[4] + symbols[5], 24):
        word, info, _, index, _, _ = struct.unpack_from("<IBBHQQ", elf, at)
        held(f"{name}: memory that is common to all", index == 0xFFF2, False)
        if info >> 4 and index:
            held(f"{name}: {called(sections[symbols[6]][4], word)} is a function", info & 15, 2)
        if info >> 4:
            (defined if index else asked).add(called(sections[symbols[6]][4], word))
    return defined, asked


def archive_is(exports):
    defined, asked = set(), set()
    for name, elf in members(open(clink.archive(), "rb").read()):
        here = looked(name, elf)
        defined, asked = defined | here[0], asked | here[1]
    held("archive: what it defines for all", sorted(defined), sorted(exports))
    held("archive: what it asks for beyond the compiler's own", sorted(asked - defined - ALLOWED), [])
    return os.path.getsize(clink.archive())


# ---- random commands

ESC = b"\x1b" * 4


def bytes_of(r):
    """Noise, frames, right and bent, and what begins like one."""
    def piece():
        data = bytes(r.choices(b"\x1b\x1b\x1b\1\1\x1a\0\2" + bytes([r.randrange(256)]), k=r.randrange(30)))
        whole = frame(data)
        k = r.randrange(len(whole))
        return r.choice((whole, whole, data, START + data, whole[:k], whole[:k] + bytes([r.randrange(256)]) + whole[k + 1 :], START + data + ESC + b"\x1a\0\0\0", b"\x1b" * r.randint(1, 9), START))
    return b"".join(piece() for _ in range(r.randint(0, 5)))


def numbered(line):
    """A line of `places` with a refusal's number, kind and place."""
    def one(m):
        held(f"the name of {m[3]}", m[1], NAMES[int(m[3])])
        return f"err {m[3]} {KINDS[m[2]] if m[2] else 0} @{m[4]}"
    return re.sub(r"err (\w+)(?: (\w+))? (\d+) @(\d+)", one, line)


# how the fields of an event begin, and which of its strings are always there; the tags of messages
WRITTEN = {"open": (b"\x76", ["tid", "file", "server"]), "close": (b"\x71", ["tid"]), "list": (b"\x77", ["tid", "server"]), "entry": (b"\x77", ["name"]), "end": (b"", [])}
TAGGED = {"open": 0x101, "close": 0x201, "list": 0x701}


def fewest(ty, x):
    """A number in the fewest bytes that hold it, with its sign if it has one."""
    return next(element(ty, x.to_bytes(n, "big", signed=ty == INT)) for n in range(1, 9) if (-(256**n) // 2 <= x < 256**n // 2 if ty == INT else x < 256**n))


def field(name, word, needed):
    """A field of an event of the reading as it is written; a string that may be absent, and is there and empty, is 80 02."""
    kind, _, rest = word.partition(":")
    if word == "-":
        return ABSENT
    if word[0] == "x":
        return b"\x80\x02" if word == "x" and name not in needed else element(OCT, bytes.fromhex(word[1:]))
    if kind in ("sec", "list"):
        return b"\x72" + fewest(UINT, 1) + (fewest(UINT, int(rest)) if kind == "sec" else field(name, rest, needed))
    if kind == "oct":
        return element(OCT, bytes.fromhex(rest))
    if kind == "bool":
        return element(BOOL, bytes([int(rest)]))
    return fewest(INT if name == "scaler" or kind[0] == "i" else UINT, int(rest or word))


def written(events):
    """The events of a reading as a writer puts them down, by the documents: each field in its order, numbers and lengths in the fewest bytes, behind a message its CRC and end byte. And the answer, and how many entries are to come."""
    out, begun, left = b"", 0, 0
    for event in events:
        kind, *fields = event.split(" ")
        head, needed = WRITTEN[kind]
        fields = [word.split("=", 1) for word in fields]
        left = int(fields.pop()[1]) if kind == "list" else max(left - (kind == "entry"), 0)
        fields = [field(name, word, needed) for name, word in fields]
        if kind in TAGGED:
            begun = len(out)
            fields[3:3] = [b"\x72" + fewest(UINT, TAGGED[kind]), head]
            head = b"\x76"
        out += head + b"".join(fields) + (length(LIST, left) if kind == "list" else b"")
        if kind in ("open", "close", "end"):
            out += fewest(UINT, int.from_bytes(crc(out[begun:]).to_bytes(2, "little"), "big")) + b"\0"
    return f"{out.hex()} 0 {left}"


def messages_of(found):
    """The events of a reading, message by message, without one that is refused."""
    starts = [k for k, event in enumerate(found.events) if event.split(" ")[0] in TAGGED]
    groups = [found.events[k:end] for k, end in zip(starts, [*starts[1:], None])]
    return groups[:-1] if found.inside and found.refusal else groups


def ended(found, events):
    """Events, and how a reading ends."""
    return numbered(" | ".join([*events, "none" if found.refusal is None else str(found.refusal)]))


def by_message(found):
    """The events of a reading, message by message: one that is refused has none."""
    return ended(found, sum(messages_of(found), []))


def name_of(entry):
    return bytes.fromhex(entry.split(" ")[1].removeprefix("name=x"))


def by_name(found):
    """The entries of each message of a reading by name, equal names as they stand, and behind each the first one of its name."""
    listed = [[e for e in events if e.startswith("entry ")] for events in messages_of(found)]
    return ended(found, [one for entries in listed for e in sorted(entries, key=name_of) for one in (e, next(f for f in entries if name_of(f) == name_of(e)))])


def content(r, around=0):
    """An element of any kind: lists in lists, leaves of each type and of no byte, end marks, more length bytes than are needed."""
    if around < 18 and r.random() < (0.95 if around and r.random() < 0.3 else 0.5):
        n = r.choice((0, 1, 1, 2, 3))
        return r.choice((bytes([0x70 + n]), bytes([0xF0, n]))) + b"".join(content(r, around + 1) for _ in range(n))
    return r.choice((b"\0", b"\1", b"\x41", b"\x80\x02", element(r.choice((OCT, INT, UINT)), r.randbytes(r.randrange(20))), element(BOOL, r.randbytes(r.randrange(3)))))


def contents_of(r):
    """Such elements, one behind the other, or messages; whole, bent and cut, at a place of theirs or behind it."""
    data = r.choice((b"".join(content(r) for _ in range(r.randint(1, 3))), file(r), b"\x71" * r.randint(13, 18) + content(r)))
    k = r.randrange(len(data) + 1)
    data = r.choice((data, data, data[:k], data[:k] + bytes([r.randrange(256)]) + data[k + 1 :]))
    return data, r.choice((0, 0, r.randrange(len(data) + 1), r.choice((len(data), len(data) + 1, 2**32, 2**64 - 1))))


def in_words(data, at):
    """What begins at a place, and the walk from there, by the reading: each answer and all words."""
    def told(words, said):
        refused = [said.number, KINDS[said.kind] if said.kind else 0, said.place or 0] if isinstance(said, walk_reading.Refusal) else [0, 0, 0]
        return " ".join(map(str, [refused[0], *words, *refused]))

    begun, over = walk_reading.item(data, at), walk_reading.walk(data, at)
    words = {walk_reading.EndMark: lambda i: [1, 0, 0, 0, 0, i.next], walk_reading.Leaf: lambda i: [2, i.kind, i.start, i.len, 0, i.next], walk_reading.List: lambda i: [3, 0, 0, 0, i.count, i.next], walk_reading.Refusal: lambda i: [0] * 6}[type(begun)](begun)
    return told(words, begun) + " | " + told([0, 0] if isinstance(over, walk_reading.Refusal) else over[1:], over)


def recorded(r):
    """Such bytes, now and then behind an end whose CRC is right or wrong, of any data and any number of pads."""
    whole = START + bytes(r.choices(b"\1\2\3", k=r.randrange(10))) + ESC + bytes([0x1A, r.randrange(6)])
    return r.choice((b"", b"", whole + (crc(whole) ^ r.choice((0, 0, 256))).to_bytes(2, "little"))) + bytes_of(r)


def lost_by(way, capacity, data):
    """Frames and losses by the reading, in the words of C, and how many bytes there were; then the losses alone."""
    bits, parts = causes(), why_reading.Why(way, capacity).parts(data)
    told = lambda part: " %d %d %d" % (0 if part.causes == why_reading.KEPT else sum(bits[cause] for cause in part.causes), part.first, part.last)
    return f"{''.join(map(told, parts))} {len(data)} {len(data)} |{''.join(map(told, why_reading.losses(parts)))} | same"


def commands(n):
    """Commands, and what the readings answer."""
    r = random.Random(SEED)
    for _ in range(n):
        data, way, capacity, size = bytes_of(r), r.choice((1, 2)), r.choice((r.randrange(40), 64)), r.choice((0, 0, 1, 3, 7, 200))
        yield f"p {way} {capacity} {size} {data.hex()}", push_rules.answer(capacity, [data, "f"], way)
        data = bytes_of(r)
        yield f"f 0 0 0 {data.hex()}", frame(data).hex()
        yield f"c 0 0 0 {data.hex()}", "%04x" % crc(data)
        data = file(r)
        yield f"e 0 0 0 {data.hex()}", numbered(Reading(data).line())
        yield f"m 0 0 0 {data.hex()}", by_message(Reading(data))
        yield f"i 0 0 0 {data.hex()}", by_name(Reading(data))
        yield f"w 0 0 0 {data.hex()}", written(Reading(data).events)
        data, at = contents_of(r)
        yield f"x {at} 0 0 {data.hex()}", in_words(data, at)
        data, way, capacity, size = recorded(r), r.choice((1, 2)), r.choice((r.randrange(40), 64)), r.choice((1, 3, 7, 200))
        yield f"l {way} {capacity} {size} {data.hex()}", lost_by(way, capacity, data)


def answers(program, n):
    asked = list(commands(n))
    output = said("library answers", [*program, "answers"], "".join(line + "\n" for line, _ in asked).encode()).split("\n")[:-1]
    held("library answers: lines", len(output), len(asked))
    for (line, wanted), one in zip(asked, output):
        held(f"library answers: {line[:200]}", one, wanted)
    everything = " ".join(output)
    # a run that reaches too little says little
    for word in [] if n < GATE else ["payload", "discarded", "memory", "escape", "invalid", "misaligned", "open", "close", "list", "entry", "end", "none", *(f"err {k}" for k in range(10, 16)), *(f"err 11 {k}" for k in range(1, 6)), "bool:", "oct:", "list:sec:", *(f"{s}{w}:" for s in "iu" for w in (8, 16, 32, 64)), "0 1 0 0", "0 2 0 [0-9]+", "0 2 4", "0 2 5", "0 2 6", "0 3 0 0 0 0", "0 3 0 0 0 3", "19 0 0 19 0 16", "10 0 0 10", *(f"{bits} 1 [0-9]+ .*same" for bits in (0, *causes().values(), 192, 320, 384, 448))]:
        held(f"library answers: some say {word}", re.search(rf"\b{word}", everything) is not None, True)
    return len(asked)


# ---- the examples

UNITS = {27: "W", 30: "Wh", 33: "A", 35: "V", 44: "Hz"}
REFUSED = {"discarded": "6 DiscardedBytes", "memory": "3 OutOfMemory", "escape": "7 InvalidEsc", "invalid": "8 InvalidMessage"}


def number(x, width):
    return element(INT, x.to_bytes(width, "big", signed=True))


def entry(name, value, unit=ABSENT, scaler=None):
    return b"\x77" + element(OCT, name) + ABSENT + ABSENT + unit + (ABSENT if scaler is None else number(scaler, 1)) + value + ABSENT


def list_of(entries):
    """A message with these entries."""
    return sealed(b"\x76" + element(OCT, b"\1\2") + unsigned(0, 1) + unsigned(0, 1) + b"\x72" + unsigned(0x701, 2) + b"\x77" + ABSENT + element(OCT, b"\x0a\1") + ABSENT + ABSENT + length(LIST, len(entries)) + b"".join(entries) + ABSENT + ABSENT)


def values():
    """Each kind of value, names of other lengths, units with and without a name, and the ends of numbers and scalers."""
    name, wh = bytes.fromhex("0100010800ff"), unsigned(30, 1)
    plain = [element(BOOL, b"\0"), element(BOOL, b"\7"), element(OCT, b""), element(OCT, b"\x1b" * 9), b"\x72" + unsigned(1, 1) + unsigned(86400, 4), b"\x72" + unsigned(1, 1) + b"\x72" + unsigned(1, 1) + unsigned(7, 1)]
    numbers = [unsigned(x, w) for w in (1, 2, 4, 8) for x in (0, 1, 256**w - 1)] + [number(x, w) for w in (1, 2, 4, 8) for x in (-(256**w) // 2, -1, 256**w // 2 - 1)] + [element(UINT, b"\1\2\3"), element(INT, b"\xff\xfe\xfd\xfc\xfb")]
    scaled = [(x, s) for x in (unsigned(0, 1), unsigned(5, 1), number(-12345, 4), unsigned(2**64 - 1, 8), number(-(2**63), 8)) for s in (-128, -21, -20, -19, -5, -4, -1, 0, 1, 2, 127)]
    entries = [entry(name, v) for v in plain + numbers] + [entry(name, x, wh, s) for x, s in scaled]
    entries += [entry(name, unsigned(7, 1), unsigned(u, 1), -1) for u in (0, *UNITS, 62, 255)] + [entry(b"", unsigned(7, 1)), entry(b"\1", unsigned(7, 1)), entry(bytes(range(250, 256)), unsigned(7, 1)), entry(name + b"\0", unsigned(7, 1))]
    return list_of(entries)


def recording():
    """Noise, frames with all kinds of values, and every refusal of a frame and of a message."""
    meter, bare = (open(f"captures/{name}.bin", "rb").read() for name in ("two-byte-length", "bare-times"))
    noise = bytes(b for b in random.Random(SEED).randbytes(40) if b != 0x1B)
    close = bytes.fromhex("7605dd4344006200620072630201710163fd5600")
    whole = list_of([entry(b"\1\0\1\x08\0\xff", unsigned(k, 1)) for k in range(3)])
    # a byte missing; each kind of 11; another type; a tag; the CRC; the end byte; a list that breaks in its second entry; nothing but a byte
    broken = [close[:-1], *(close[:15] + bytes.fromhex(b) + close[16:] for b in ("10", "c2", "8112", "818080808080808080", "00")), close[:14] + b"\x72" + close[15:], close[:13] + b"\2" + close[14:], close[:18] + b"\x57\0", close[:-1] + b"\1", close + whole[:45] + b"\x52" + whole[46:], b"\x01"]
    parts = [noise, b"\x1b", meter, meter[:100] + b"\xff" + meter[101:], meter[:150], bare, START, ESC, bytes([2, 0, 0, 9]), noise, frame(bytes(CAPACITY)), frame(bytes(CAPACITY - 4)), frame(values()), frame(b""), *map(frame, broken), meter, b"\x1b\x1b", bare[:57]]
    return b"".join(parts)


def shown(event):
    """An entry of the reading as the collector prints it."""
    field = dict(word.split("=", 1) for word in event.split(" ")[1:])
    name = bytes.fromhex(field["name"][1:])
    kind, _, value = field["value"].partition(":")
    if kind == "bool":
        value = ("false", "true")[int(value)]
    elif kind == "list":
        value = value.split(":")[1] + " s"
    elif kind != "oct":
        moved = Decimal(value).scaleb(0 if field["scaler"] == "-" else int(field["scaler"]))
        value = format(moved if moved or moved.as_tuple().exponent < 0 else Decimal(0), "f")
    unit = "" if field["unit"] == "-" else " " + UNITS.get(int(field["unit"]), "unit " + field["unit"])
    return ("%d-%d:%d.%d.%d*%d" % tuple(name) if len(name) == 6 else name.hex() or "-") + " " + (value or "-") + unit


def told(event, place):
    """A decoder's refusal as the collector prints it."""
    word, *rest = event.split(" ")
    more = {"discarded": ": {} lost", "memory": "", "escape": ": {}", "invalid": ": CRC {}, computed {}, {}, {} pads"}[word].format(*rest)
    return f"refused {REFUSED[word]} at byte {place} of the input{more}"


def collected(data):
    """The collector's lines and status, by the readings."""
    d, lines, payloads, refused = push_rules.Decoder(CAPACITY, 2), [], 0, False
    for place in range(len(data) + 1):
        event = d.push(data[place]) if place < len(data) else d.finalize()
        if event and event.startswith("payload"):
            payloads += 1
            found = Reading(bytes.fromhex(event[8:]))
            lines += [shown(e) for e in found.events if e.startswith("entry")]
            f = found.refusal
            if f:
                lines.append(f"refused {f.number} {NAMES[f.number]}{f.kind and ' ' + f.kind} at byte {f.place} of payload {payloads}")
            refused = refused or f is not None
        elif event:
            lines.append(told(event, place))
            refused = True
    return "".join(line + "\n" for line in lines), int(refused)


def hosted(data):
    """What the host prints, by the reading."""
    lines, sums = "", [0, 0, 0]
    for i in range(LINES):
        at = len(data) * i // LINES
        events = push_rules.events(CAPACITY, (data[at:] + data[:at]) * TIMES, 2)
        payloads = [bytes.fromhex(e[8:]) for e in events if e.startswith("payload")]
        counts = len(payloads), len(events) - len(payloads), sum(int(e.split(" ")[1]) for e in events if e.startswith("discarded"))
        lines += f"{i}: payloads %d, refused %d, lost %d, sum {sum(map(crc, payloads)) % 65536:04x}\n" % counts
        sums = [a + b for a, b in zip(sums, counts)]
    return lines + "all: payloads %d, refused %d, lost %d\n" % tuple(sums)


def stored(name, output):
    """The output of an example is what is stored."""
    path = f"tests/expected/{name}.txt"
    if "--store" in sys.argv:
        open(path, "w").write(output)
    held_lines(path, output, text(path))


def as_it_comes(program, meter):
    """A frame's lines come before anything follows it."""
    run, wanted = subprocess.Popen(program, stdin=subprocess.PIPE, stdout=subprocess.PIPE), collected(meter)[0].encode()
    for _ in range(2):
        run.stdin.write(meter)
        run.stdin.flush()
        got = b""
        while len(got) < len(wanted) and select.select([run.stdout], [], [], 20)[0]:
            got += os.read(run.stdout.fileno(), 65536)
        held("collector, a live pipe", got, wanted)
    run.stdin.close()
    held("collector, a live pipe: its end", (run.stdout.read(), run.wait()), (b"", 0))


# the collector over a read that a signal cuts every other time, and that else gives few bytes
CUT = """#include <errno.h>
#include <unistd.h>

static ssize_t cut_read(int in, void *to, size_t n)
{
    static unsigned calls;

    errno = EINTR;
    return calls++ %% 2 == 0 ? -1 : read(in, to, n < 700 ? n : 700);
}

#define read cut_read
#include "%s"
"""


def cut(folder, path):
    """A signal in the middle of a read changes nothing."""
    source = os.path.join(folder, "cut.c")
    open(source, "w").write(CUT % os.path.abspath("examples/collector.c"))
    status, output = ran([*clink.built(source, os.path.join(folder, "cut")), path])
    held("collector with signals: status", status, 1)
    held_lines("collector with signals", output, text("tests/expected/collector-damaged.txt"))


def used(name, program, folder):
    """Options and files."""
    status, output = ran([*program, "-h"])
    held(f"{name} -h", (status, output.startswith(f"{name} [FILE]: ")), (0, True))
    for words in (["-x"], ["a", "b"], ["-h", "a"]):
        held(f"{name} {words}", ran([*program, *words]), (2, f"usage: {name} [-h] [FILE]\n"))
    held(f"{name}, no file", ran([*program, os.path.join(folder, "none")]), (2, f"{name}: {folder}/none: No such file or directory\n"))
    held(f"{name}, a folder", ran([*program, folder]), (2, f"{name}: {folder}: Is a directory\n"))
    for word in (os.path.join(folder, "damaged.bin"), "-h"):
        full = subprocess.run([*program, word], stdout=open("/dev/full", "w"), stderr=subprocess.PIPE, text=True)
        held(f"{name} {os.path.basename(word)}, no room for the output", (full.returncode, full.stderr), (2, f"{name}: output: No space left on device\n"))


def examples(folder):
    programs = {name: clink.built(f"examples/{name}.c", os.path.join(folder, name)) for name in EXAMPLES}
    path = os.path.join(folder, "damaged.bin")
    open(path, "wb").write(recording())
    for name in ("captures/two-byte-length.bin", "captures/bare-times.bin", path):
        data, short = open(name, "rb").read(), os.path.basename(name)[:-4]
        (status, output), wanted = ran([*programs["collector"], name]), collected(data)
        held_lines(f"collector {short}", output, wanted[0])
        held(f"collector {short}: status", status, wanted[1])
        held(f"collector {short}, standard input", ran(programs["collector"], data), (status, output))
        stored(f"collector-{short}", output)
        output = said(f"host {short}", [*programs["host"], name])
        held_lines(f"host {short}", output, hosted(data))
        held(f"host {short}, standard input", ran([*programs["host"], "-"], data), (0, output))
    stored("host-damaged", output)
    lines = text("tests/expected/collector-damaged.txt")
    for word in ["refused %d " % k for k in (3, 6, 7, 8, *range(10, 16))] + ["InvalidTlf " + k for k in KINDS]:
        held(f"the recording has {word}", word in lines, True)
    held("collector, nothing", ran(programs["collector"]), (0, ""))
    held("host, nothing", ran(programs["host"])[1].split("\n")[LINES], "all: payloads 0, refused 0, lost 0")
    held("host, too long", ran(programs["host"], bytes(LIMIT)), (2, "host: -: a recording of a megabyte or more\n"))
    as_it_comes(programs["collector"], open("captures/two-byte-length.bin", "rb").read())
    cut(folder, path)
    for name, program in programs.items():
        used(name, program, folder)


# ---- what is installed


def below(folder):
    return sorted(os.path.relpath(os.path.join(at, name), folder) for at, _, names in os.walk(folder) for name in names)


def flags_of(folder):
    """What pkg-config says of the folder: words for the compiler, and for the linker."""
    at = os.path.join(folder, "lib/pkgconfig")
    variables = {"pcfiledir": at}
    for name, mark, value in re.findall(r"^(\w+)(=|: )(.*)$", text(os.path.join(at, "sartrogheo.pc")), re.M):
        variables[name] = re.sub(r"\$\{(\w+)\}", lambda m: variables[m[1]], value)
    words = variables["Cflags"].split(), variables["Libs"].split()
    if shutil.which("pkg-config"):
        for option, ours in zip(("--cflags", "--libs"), words):
            output = said("pkg-config", ["env", f"PKG_CONFIG_PATH={at}", "pkg-config", option, "sartrogheo"])
            held(f"pkg-config {option}", [os.path.normpath(w[2:]) for w in output.split()], [os.path.normpath(w[2:]) for w in ours])
    return words


def contents(folder):
    return {name: open(os.path.join(folder, name), "rb").read() for name in below(folder)}


def whole(folder):
    """Files and folders, the empty ones too."""
    return contents(folder), sorted(at for at, _, _ in os.walk(folder))


def of_the_crate():
    """The crate's files that are installed."""
    found = subprocess.run(["git", "ls-files", "-co", "--exclude-standard", "rust"], capture_output=True, text=True).stdout.split()
    return [name for name in found if os.path.exists(name) and not name.endswith(".gitignore") and not name.startswith("rust/compare/")]


def sources():
    """What is installed, by name, and the files that it is copied from; that for pkg-config is copied from none."""
    share = "share/sartrogheo/"
    wanted = {"include/sartrogheo.h": "include/sartrogheo.h", "lib/libsartrogheo.a": clink.archive(), "lib/pkgconfig/sartrogheo.pc": None}
    wanted |= {share + name: name for name in ["NOTICE", *of_the_crate(), *glob.glob("examples/*.c")]}
    return wanted | {f"{share}doc/{name}.md": f"docs/{name}.md" for name in ("LIBRARY", "MOVING", "PLACES")}


def named(folder):
    """The page and the command's help tell what the folder holds: all that is there stands at or below one of the names, and each of them is there."""
    page, help = (re.findall(form, where, re.M) for form, where in ((r"^\| `([^`\s]+/[^`\s]*)` \|", text("docs/LIBRARY.md")), (r"^  (\S+/\S*)  ", text("scripts/install"))))
    held("docs/LIBRARY.md and scripts/install -h on what is installed", page, help)
    files = below(folder)
    at = lambda name, file: file.startswith(name) if name.endswith("/") else file == name
    held("installed, and not on the page", [f for f in files if not any(at(n, f) for n in page)], [])
    held("on the page, and not installed", [n for n in page if not any(at(n, f) for f in files)], [])


def installed(folder):
    """An installed folder, moved: the files, as they are in the repository, and nothing of an earlier run. Gives where it is."""
    first, moved = os.path.join(folder, "first"), os.path.join(folder, "moved", "here")
    for old in ("share/sartrogheo/rust/compare/compare.rs", "share/sartrogheo/doc/OLD.md", "lib/other.a"):
        os.makedirs(os.path.dirname(os.path.join(first, old)), exist_ok=True)
        open(os.path.join(first, old), "w").close()
    for _ in range(2):
        status, output = ran(["sh", "-c", "umask 077; exec scripts/install \"$1\"", "sh", first])
        # a line before it tells where another command proves
        held("scripts/install", (status, output.split("\n")[-2:]), (0, [f"installed into {first}", ""]))
    held("scripts/install, for all to read", {os.stat(os.path.join(at, name)).st_mode & 0o777 for at, folders, names in os.walk(os.path.join(first, "include")) for name in names + folders + ["."]}, {0o644, 0o755})
    held("scripts/install leaves what is another's", os.path.exists(os.path.join(first, "lib/other.a")), True)
    os.remove(os.path.join(first, "lib/other.a"))
    os.makedirs(os.path.dirname(moved))
    os.rename(first, moved)
    found, wanted = contents(moved), sources()
    held("installed files", sorted(found), sorted(wanted))
    held("installed, and not as it is here", [n for n, path in wanted.items() if path and found.get(n) != open(path, "rb").read()], [])
    named(moved)
    version = re.search(r'^version = "(.*)"', text("rust/Cargo.toml"), re.M).group(1)
    held("the version that pkg-config knows", re.search("^Version: (.*)", found["lib/pkgconfig/sartrogheo.pc"].decode(), re.M).group(1), version)
    return moved


def repository(folder, rt=None, age=None):
    """All that scripts/install needs, with an rt of these lines and an archive that is so many seconds younger than its proof; the command's words."""
    shutil.rmtree(folder, ignore_errors=True)
    for name in ("scripts", "include", "docs", "examples", "rust"):
        shutil.copytree(name, os.path.join(folder, name), ignore=shutil.ignore_patterns("target", "__pycache__"))
    for name in ("NOTICE", "crates.txt"):
        shutil.copy(name, folder)
    for name in ("bin", "target/staticlib", "target/stamp", "crates/sartrogheo_c/out"):
        os.makedirs(os.path.join(folder, name))
    put(os.path.join(folder, "crates/sartrogheo_c/out/libsartrogheo_c.a"), "an archive")
    if rt is not None:
        open(os.path.join(folder, "bin/rt"), "w").write("#!/bin/sh\n" + rt)
        os.chmod(os.path.join(folder, "bin/rt"), 0o755)
    for name, at in (("staticlib/libsartrogheo.a", age), ("stamp/sartrogheo", 0)):
        if at is not None:
            open(os.path.join(folder, "target", name), "w").write("an archive")
            os.utime(os.path.join(folder, "target", name), (1700000000 + at,) * 2)
    return ["/usr/bin/env", f"PATH={folder}/bin", sys.executable, os.path.join(folder, "scripts/install")]


def untouched(what, words, to, status, said):
    """A run that fails: what it says, and a folder with files and one that isn't there yet, both as they were."""
    before = whole(to)
    for one in (to, to + "-none"):
        found, output = ran([*words, one])
        held(f"scripts/install, {what}", (found, re.search(said, output, re.M) is not None or output), (status, True))
    held(f"scripts/install, {what}: the folder", whole(to), before)
    held(f"scripts/install, {what}: a new folder", os.path.exists(to + "-none"), False)


def failing(folder):
    """Without a proof, without rt, without room, and with something in the way."""
    own, to = os.path.join(folder, "own"), os.path.join(folder, "to")
    for name in ("lib/libsartrogheo.a", "include/sartrogheo.h", "share/sartrogheo/rust/src/lib.rs"):
        os.makedirs(os.path.dirname(os.path.join(to, name)))
        open(os.path.join(to, name), "w").write("an earlier one")
    untouched("no proof", repository(own, "echo no proof of it\nexit 1\n", 1), to, 1, "^no proof of it$")
    for age in (None, -1):
        untouched(f"no rt, archive {age}", repository(own, None, age), to, 2, "^rt, .* is not at hand, and .*/libsartrogheo.a is missing or older than its proof$")
    words = repository(own, "", 1)
    untouched("no room", ["/bin/sh", "-c", 'ulimit -f 8; exec "$@"', "sh", *words], to, 2, "File too large$")
    held("scripts/install, a file for a folder", ran([*words, os.path.join(to, "lib/libsartrogheo.a")]), (2, f"install: {to}/lib/libsartrogheo.a: Not a directory\n"))
    os.makedirs(os.path.join(to, "share/sartrogheo/examples/host.c"))
    before = whole(to)
    held("scripts/install, a folder for a file", ran([*words, to]), (2, f"install: {to}/share/sartrogheo/examples/host.c: Is a directory\n"))
    held("scripts/install, a folder for a file: the folder", whole(to), before)
    os.rmdir(os.path.join(to, "share/sartrogheo/examples/host.c"))
    status, output = ran([*repository(own, None, 0), to])
    held("scripts/install, no rt, an archive", (status, re.sub("rt is not at hand: .*/libsartrogheo.a is taken, .*\n", "TOLD ", output)), (0, f"TOLD installed into {to}\n"))
    held("scripts/install, no rt, an archive: which", contents(to)["lib/libsartrogheo.a"], b"an archive")


# the names that the program with an index asks for
ASKED_FOR = bytes.fromhex("0100010800ff"), bytes.fromhex("0100020800ff")


def paged(data, whole=False, names=()):
    """What the program of docs/LIBRARY.md prints, by the readings: of every event; of every message that is right; or of each of these the first entry of some names."""
    lines = []
    for event in push_rules.events(CAPACITY, data, 2):
        word, _, rest = event.partition(" ")
        found = Reading(bytes.fromhex(rest)) if word == "payload" else None
        if not found:
            lines.append(f"lost {rest} bytes" if word == "discarded" else "refused " + REFUSED[word].split(" ")[0])
            continue
        groups = messages_of(found) if whole else [found.events]
        groups = [[one for one in events if one.startswith("entry")] for events in groups]
        if names:
            groups = [[one for name in names for one in [e for e in entries if name_of(e) == name][:1]] for entries in groups]
        for one in sum(groups, []):
            field = dict(w.split("=", 1) for w in one.split(" ")[1:])
            kind, _, value = field["value"].partition(":")
            lines.append(field["name"][1:] + (f" {value} e{0 if field['scaler'] == '-' else field['scaler']}" if kind[:1] in ("i", "u") else ""))
        if found.refusal:
            lines.append(f"refused {found.refusal.number}, at byte {found.refusal.place} of the payload")
    return "".join(line + "\n" for line in lines)


def asked_why(data):
    """What the program of the page that tells losses prints of frames: in the first way, by the reading of losses and the one of payloads."""
    payloads = (event.partition(" ")[2] for event in push_rules.events(CAPACITY, data) if event.startswith("payload"))
    lines, bits = [], causes()
    for part in why_reading.Why(1, CAPACITY).parts(data):
        if part.causes == why_reading.KEPT:
            lines += paged(frame(bytes.fromhex(next(payloads)))).splitlines()
        else:
            lines.append(f"lost bytes {part.first} to {part.last}, causes {sum(bits[cause] for cause in part.causes)}")
    return "".join(line + "\n" for line in lines)


def tag_of(payload, at):
    """The first leaf of the fourth element of the list at a place, if there is one, with the words before it."""
    outer = walk_reading.item(payload, at)
    if not isinstance(outer, walk_reading.List) or outer.count < 4:
        return ""
    at = outer.next
    for _ in range(3):
        at += walk_reading.walk(payload, at)[1]
    body = walk_reading.item(payload, at)
    first = walk_reading.item(payload, body.next) if isinstance(body, walk_reading.List) and body.count else None
    return f", tag {payload[first.start : first.start + first.len].hex()}" if isinstance(first, walk_reading.Leaf) else ""


def of_elements(payload):
    """What the program that walks prints of a payload, by the reading."""
    at = 0
    while at < len(payload):
        said = walk_reading.walk(payload, at)
        if isinstance(said, walk_reading.Refusal):
            yield f"refused {said.number}, at byte {said.place} of the payload"
            return
        yield f"{said[1]} bytes, {said[2]} leaves{tag_of(payload, at)}"
        at += said[1]


def walked_over(data):
    """What it prints of frames."""
    lines = []
    for event in push_rules.events(CAPACITY, data, 2):
        word, _, rest = event.partition(" ")
        lines += of_elements(bytes.fromhex(rest)) if word == "payload" else [f"lost {rest} bytes" if word == "discarded" else "refused " + REFUSED[word].split(" ")[0]]
    return "".join(line + "\n" for line in lines)


def other():
    """Payloads of no message that is read: another tag, lists that are too deep, end marks and leaves, and what breaks behind them."""
    close = bytes.fromhex("7605dd4344006200620072630201710163fd5600")
    tag = close[:12] + b"\3" + close[13:]
    return b"".join(map(frame, (tag + close, close[:-1] + tag, b"\0\0\1\x41" + tag, b"\x71" * 15 + b"\x70\x70" + b"\x71" * 16 + b"\x70", b"\x74\1\1\1\x70\x74\1\1\1\x71\0\x74\1\1\1\x71\x70\x74\1\1\1\1\x73\1\1\1", close + b"\x75\1", b"\x10")))


def put(path, source):
    open(path, "w").write(source)
    return path


def page_is(folder, moved, exports):
    """docs/LIBRARY.md: each call, each number, and its programs, built with what is installed alone."""
    page, path = text("docs/LIBRARY.md"), os.path.join(folder, "page.c")
    held("docs/LIBRARY.md: calls", sorted(re.findall(r"^\| `(sgh_\w+)` \|", page, re.M)), sorted(exports))
    held("docs/LIBRARY.md: numbers", re.findall(r"^\| (\d+)(?: to \d+)? \| `SGH_(\w+)`", page, re.M), [(str(k), REFUSALS[k]) for k in (*range(1, 11), *range(16, 21))])
    (source, messages, indexed, walks, whys, writes), (wanted, found, over, lost, heard) = (re.findall(rf"^```{kind}\n(.*?)^```", page, re.M | re.S) for kind in ("c", "text"))
    held("docs/LIBRARY.md: causes", {name.lower(): int(n) for name, n in re.findall(r"^\| `SGH_CAUSE_(\w+)` \| (\d+) \|", page, re.M)}, causes())
    include, library = flags_of(moved)
    # the second block takes the place of a function of the first, and so does the third; the fourth takes that of two, and so does the fifth
    own, both = (re.search(rf"^static void {name}\(.*?^\}}\n$", source, re.M | re.S).group(0) for name in ("print_payload", "print_entry"))
    both = source[source.index(both) : source.index(own) + len(own)]
    last = source[re.search(r"^static void print_answer\(", source, re.M).start() :]
    blocks = {"page": source, "messages": source.replace(own, messages), "indexed": source.replace(own, indexed), "walks": source.replace(both, walks), "whys": source.replace(last, whys), "writes": writes}
    program, reader, finder, walker, asker, writer = (clink.built(put(path, code), os.path.join(folder, name), include, library) for name, code in blocks.items())
    sent = subprocess.run(writer, capture_output=True).stdout
    held("what the program of docs/LIBRARY.md that writes has written, heard by the first", ran(program, sent), (0, heard))
    held("that is one frame", sent, frame(bytes.fromhex(push_rules.events(CAPACITY, sent, 2)[0][8:])))
    meter = open("captures/two-byte-length.bin", "rb").read()
    held("the program of docs/LIBRARY.md", ran(program, meter), (0, wanted))
    held("the program of docs/LIBRARY.md with an index", ran(finder, meter), (0, found))
    held("the program of docs/LIBRARY.md that walks", ran(walker, meter), (0, over))
    held("the program of docs/LIBRARY.md that tells losses, a stray 1b", ran(asker, b"\x1b" + meter), (0, lost))
    for what, data in (("the capture", meter), ("values", frame(values())), ("the recording", recording()), ("a cut frame", meter[:99]), ("nothing", b"")):
        status, output = ran(program, data)
        held(f"the program of docs/LIBRARY.md, {what}: status", status, 0)
        held_lines(f"the program of docs/LIBRARY.md, {what}", output, paged(data))
        held_lines(f"the program of docs/LIBRARY.md by messages, {what}", ran(reader, data)[1], paged(data, True))
        held_lines(f"the program of docs/LIBRARY.md with an index, {what}", ran(finder, data)[1], paged(data, True, ASKED_FOR))
        held_lines(f"the program of docs/LIBRARY.md that walks, {what}", ran(walker, data)[1], walked_over(data))
        held_lines(f"the program of docs/LIBRARY.md that tells losses, {what}", ran(asker, data)[1], asked_why(data))
    held_lines("the program of docs/LIBRARY.md that walks, other content", ran(walker, other())[1], walked_over(other()))
    held("other content: what is told", [word in walked_over(other()) for word in ("tag 0301", "refused 19, at byte 33", "refused 10, at byte 22", "refused 11, at byte 0", "16 bytes, 0 leaves", "1 bytes, 1 leaves")], [True] * 6)
    held("a list that is refused in its second entry", paged(recording(), True).count("\n") + 1, paged(recording()).count("\n"))
    held("the largest number and the lost bytes", [line in paged(recording() + meter[:99]).split("\n") for line in ("0100010800ff 18446744073709551615 e0", "0100010800ff -1 e0", "lost 99 bytes")], [True] * 3)
    return include, library


def asked_wrongly():
    status, output = ran(["scripts/install", "-h"])
    held("scripts/install -h", (status, output[:8]), (0, "install "))
    for words in ([], [""], ["-x"], ["a", "b"]):
        held(f"scripts/install {words}", ran(["scripts/install", *words]), (2, "usage: scripts/install [-h] FOLDER\n"))


def own_compiler(folder, include, library):
    """The machine's own compiler takes the examples, with its own headers; on x86-64 they are linked and run, too."""
    cc = shutil.which("cc")
    if not cc:
        print("skipped: this machine's own compiler: no cc")
        return
    for name in EXAMPLES:
        out, here = os.path.join(folder, name + "-own"), platform.machine() == "x86_64"
        said(f"cc {name}", [cc, "-std=c11", "-pedantic-errors", "-Wall", "-Wextra", "-O2", *include, f"examples/{name}.c", *(library if here else ["-c"]), "-o", out])
        if here:
            held_lines(f"{name} by cc", ran([out, os.path.join(folder, "damaged.bin")])[1], text(f"tests/expected/{name}-damaged.txt"))


def end_at_faults():
    for fault in sorted(faults, key=len)[:5]:
        print(fault)
    if faults:
        sys.exit(f"{len(faults)} faults")


def main(folder):
    numbers = [int(w) for w in sys.argv[1:] if w.isdigit()]
    found, exports = constants(), prototypes()
    fields = structs_are(folder)
    # what is wrong in the header would only show again as what the compiler says
    end_at_faults()
    size = archive_is(exports)
    library = clink.built("tests/library.c", os.path.join(folder, "library"))
    facts = said("library calls", [*library, "calls"])
    held("library calls: the last line", re.fullmatch(r"\d{3,} facts, 0 failed", facts.strip()) is None and facts, False)
    asked = answers(library, ALL if "--all" in sys.argv else (numbers + [GATE])[0])
    examples(folder)
    asked_wrongly()
    failing(folder)
    own_compiler(folder, *page_is(folder, installed(folder), exports))
    end_at_faults()
    print(f"library: {found} constants, {len(exports)} prototypes and {fields} fields of an event as the definitions have them; an archive of {size:,} bytes with these functions alone; {facts.split(' ')[0]} facts of the calls; {asked:,} random commands; two examples, an installed folder and the page's programs")


folder = os.path.realpath(tempfile.mkdtemp())
try:
    main(folder)
finally:
    shutil.rmtree(folder)

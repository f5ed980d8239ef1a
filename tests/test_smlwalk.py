"""bin/smlwalk as its user meets it (document 02, Q-4): each line and each refusal held to tests/walk_reading.py and tests/push_rules.py, second readings that were written from the documents and not from the code.

The captures and a damaged recording have their output stored; both streams go into one pipe there, so that their order is held too. Payloads by -p: each kind of content at its bounds, the request's vectors, lists nested sixteen and seventeen deep, the longest payload and one byte more.
Random payloads, whole, bent and cut, in frames between noise and damaged frames, in both ways of searching: every line, and as many lines of leaves and end marks as the walk has leaves. A live pipe, whose lines come before the next byte is written; options, files, and how it ends.

`python3 tests/test_smlwalk.py N` runs N random payloads; --all 20,000; --store writes the output to tests/expected.
"""
import collections, os, random, re, select, subprocess, sys, tempfile

sys.dont_write_bytecode = True
os.chdir(os.path.join(os.path.dirname(os.path.abspath(__file__)), ".."))
sys.path += ["scripts", "oracle"]
import clink, push_rules
from messages import BOOL, INT, LIST, OCT, UINT, element, length, message, more, over
from places_reading import crc
from programs import MAKING_READY
from sml import ESCAPE, START, frame
from walk_reading import BOOLEAN, INTEGER, STRING, UNSIGNED, EndMark, List, Refusal, outline, walk

push_rules.crc = crc  # the same by a table: it is asked for at every frame's end
SEED, GATE, ALL, BATCH = 20261118, 1200, 20000, 2000
LIMIT, DEEPEST = 1048576, 16
NAMES = {3: "OutOfMemory", 6: "DiscardedBytes", 7: "InvalidEsc", 8: "InvalidMessage", 9: "InputTooLong", 10: "UnexpectedEOF", 11: "InvalidTlf", 19: "TooDeep"}
TYPES = {STRING: "string", BOOLEAN: "boolean", INTEGER: "integer", UNSIGNED: "unsigned"}
CLOSE = bytes.fromhex("7605dd4344006200620072630201710163fd5600")
faults, seen = [], collections.Counter()


def held(what, said, wanted):
    if said != wanted:
        faults.append(f"{what}\n  wanted   {str(wanted)[:600]}\n  answered {str(said)[:600]}")


def held_lines(what, output, wanted):
    """Of long outputs the first line that differs is told."""
    for k, (one, other) in enumerate(zip(output.split("\n") + [None], wanted.split("\n") + [None]), 1):
        if one != other:
            return held(f"{what}, line {k}", one, other)


def told(errors):
    """What is left on standard error beside what is said while a command makes ready."""
    return "".join(one for one in errors.splitlines(keepends=True) if not one.startswith(MAKING_READY))


def ran(words, data=b""):
    """Status, standard output and standard error."""
    run = subprocess.run(words, input=data, capture_output=True)
    return run.returncode, run.stdout.decode(), told(run.stderr.decode())


def together(words, data=b""):
    """Status and both outputs, as they come."""
    run = subprocess.run(words, input=data, stdout=subprocess.PIPE, stderr=subprocess.STDOUT)
    return run.returncode, run.stdout.decode()


# ---- the program by the readings


def meant(kind, content):
    """What a content is told as beside its hex."""
    if kind == "string":
        if len(content) == 6:
            seen["OBIS"] += 1
            yield "%d-%d:%d.%d.%d*%d" % tuple(content)
        if re.fullmatch(rb"[ -~]+", content):
            seen["text of six" if len(content) == 6 else "text"] += 1
            yield '"%s"' % re.sub(r'(["\\])', r"\\\1", content.decode())
    elif kind == "boolean":
        if len(content) == 1:
            yield "true" if any(content) else "false"
    elif 1 <= len(content) <= 8:
        x = int.from_bytes(content, "big", signed=kind == "integer")
        seen["below 0"] += x < 0
        yield str(x)


def line(depth, place, what):
    return "%7d %s%s\n" % (place, "  " * depth, what)


def sized(kind, content):
    return f"{kind} of {len(content)}" + (": " + content.hex() if content else "")


def shown(item, payload):
    """What an item's line says."""
    kind = "end mark" if isinstance(item, EndMark) else "list" if isinstance(item, List) else TYPES[item.kind]
    seen[kind] += 1
    if kind == "list":
        return f"list of {item.count}"
    if kind == "end mark":
        return kind
    content = payload[item.start : item.start + item.len]
    return " = ".join([sized(kind, content), *meant(kind, content)])


def walked(payload, number):
    """The lines of a payload's elements, and of what is refused."""
    *items, (depth, place, f) = outline(payload)
    lines = [line(around, at, shown(item, payload)) for around, at, item in items]
    if isinstance(f, Refusal):
        what = " ".join([str(f.number), NAMES[f.number], *[f.kind] * (f.kind is not None)])
        seen[what] += 1
        lines += [line(depth, place, sized("rest", payload[place:]))] * (place < len(payload))
        lines.append(f"smlwalk: payload {number}: {what} at payload byte {f.place}\n")
    return lines


def plain(payload):
    """Status and lines of a payload by -p."""
    lines = [f"payload 1: length {len(payload)}\n", *walked(payload, 1)]
    return int(lines[-1].startswith("smlwalk")), "".join(lines)


def lost(event, place):
    """The line of a decoder's refusal."""
    word, *rest = event.split(" ")
    number, values = {"discarded": (6, ": {} lost"), "memory": (3, ""), "escape": (7, ": {}"), "invalid": (8, ": CRC {}, computed {}, {}, {} pads")}[word]
    seen[f"{number} {NAMES[number]}"] += 1
    return f"smlwalk: input: {number} {NAMES[number]} at byte {place}{values.format(*rest)}\n"


def printed(data, way=1):
    """Status and lines of a capture."""
    d, lines, payloads = push_rules.Decoder(LIMIT, way), [], 0
    for place in range(len(data) + 1):
        event = d.push(data[place]) if place < len(data) else d.finalize()
        if event and event.startswith("payload"):
            payload = bytes.fromhex(event[8:])
            payloads += 1
            lines += [f"payload {payloads}: length {len(payload)}, frame ends at byte {place}\n", *walked(payload, payloads)]
        elif event:
            lines.append(lost(event, place))
    return int(any(one.startswith("smlwalk") for one in lines)), "".join(lines)


def parted(lines):
    """Standard output and standard error of what comes together."""
    each = lines.splitlines(keepends=True)
    return "".join(one for one in each if not one.startswith("smlwalk")), "".join(one for one in each if one.startswith("smlwalk"))


# ---- stored output


def recording():
    """Noise, damaged frames, a payload of each refusal, tags that we don't read, and a cut frame at the end."""
    meter, bare = (open(f"captures/{name}.bin", "rb").read() for name in ("two-byte-length", "bare-times"))
    # a message of a tag that no event has, with a list in a list; a byte missing; each kind of 11 where the signature stands; sixteen lists, and seventeen
    strange = b"\x76" + element(OCT, b"no \"1\" \\") + b"\x62\0\x62\0\x72\x63\x05\1\x73" + b"\x72\x42\1\x42\0" + element(INT, b"\xff\x38") + b"\x70" + b"\x63\x12\x34\0"
    broken = [CLOSE[:-1], *(CLOSE[:15] + bytes.fromhex(b) + CLOSE[16:] for b in ("10", "c2", "8112", "818080808080808080", "8000"))]
    deep = [b"\x71" * DEEPEST + b"\x01", b"\x71" * DEEPEST + b"\x70" + CLOSE]
    parts = [b"\xff\0\7", frame(CLOSE), meter[:100] + b"\xff" + meter[101:], meter[:150], frame(strange), START, ESCAPE, bytes([2, 0, 0, 9]), *map(frame, [*broken, *deep, b""]), b"\x1b", frame(b"hidden"), bare, bare[:57]]
    return b"".join(parts)


def stored(words, name, data):
    """What is printed is what is stored, and what the readings say."""
    path = f"tests/expected/smlwalk-{name}.txt"
    status, output = together(words, data)
    if "--store" in sys.argv:
        open(path, "w", encoding="utf-8").write(output)
    held_lines(path, output, open(path, encoding="utf-8").read())
    wanted = printed(data)
    held_lines(f"smlwalk {name}", output, wanted[1])
    held(f"smlwalk {name}: status", status, wanted[0])
    held(f"smlwalk {name}: each output", ran(words, data)[1:], parted(output))


# ---- payloads by -p

# input, and what stands behind the line of the payload
CONTENTS = {
    "00": "      0 end mark\n",
    "70": "      0 list of 0\n",
    "f000": "      0 list of 0\n",
    "01": "      0 string of 0\n",
    "8002": "      0 string of 0\n",
    "0241": '      0 string of 1: 41 = "A"\n',
    "0220": '      0 string of 1: 20 = " "\n',
    "037e7f": "      0 string of 2: 7e7f\n",
    "031f20": "      0 string of 2: 1f20\n",
    "04225c27": r'''      0 string of 3: 225c27 = "\"\\'"''' + "\n",
    "070100010800ff": "      0 string of 6: 0100010800ff = 1-0:1.8.0*255\n",
    "07414243444546": '      0 string of 6: 414243444546 = 65-66:67.68.69*70 = "ABCDEF"\n',
    "060100010800": "      0 string of 5: 0100010800\n",
    "080100010800ff00": "      0 string of 7: 0100010800ff00\n",
    "41": "      0 boolean of 0\n",
    "4200": "      0 boolean of 1: 00 = false\n",
    "4280": "      0 boolean of 1: 80 = true\n",
    "430001": "      0 boolean of 2: 0001\n",
    "51": "      0 integer of 0\n",
    "5200": "      0 integer of 1: 00 = 0\n",
    "527f": "      0 integer of 1: 7f = 127\n",
    "5280": "      0 integer of 1: 80 = -128\n",
    "54ff0000": "      0 integer of 3: ff0000 = -65536\n",
    "598000000000000000": "      0 integer of 8: 8000000000000000 = -9223372036854775808\n",
    "597fffffffffffffff": "      0 integer of 8: 7fffffffffffffff = 9223372036854775807\n",
    "5affffffffffffffffff": "      0 integer of 9: ffffffffffffffffff\n",
    "61": "      0 unsigned of 0\n",
    "62ff": "      0 unsigned of 1: ff = 255\n",
    "69ffffffffffffffff": "      0 unsigned of 8: ffffffffffffffff = 18446744073709551615\n",
    "6a000000000000000001": "      0 unsigned of 9: 000000000000000001\n",
    "e00400ff": "      0 unsigned of 2: 00ff = 255\n",
    "7300024101": '      0 list of 3\n      1   end mark\n      2   string of 1: 41 = "A"\n      4   string of 0\n',
    "72714142ff": "      0 list of 2\n      1   list of 1\n      2     boolean of 0\n      3   boolean of 1: ff = true\n",
    "71727001024100": '      0 list of 1\n      1   list of 2\n      2     list of 0\n      3     string of 0\n      4 string of 1: 41 = "A"\n      6 end mark\n',
    "": "",
    # what is refused, and the bytes that are left
    "8000": "      0 rest of 2: 8000\nsmlwalk: payload 1: 11 InvalidTlf TlfLengthUnderflow at payload byte 0\n",
    "0010": "      0 end mark\n      1 rest of 1: 10\nsmlwalk: payload 1: 11 InvalidTlf TlfInvalidTy at payload byte 1\n",
    "71c200": "      0 list of 1\n      1   rest of 2: c200\nsmlwalk: payload 1: 11 InvalidTlf TlfReserved at payload byte 1\n",
    "8112": "      0 rest of 2: 8112\nsmlwalk: payload 1: 11 InvalidTlf TlfNextByteTypeMismatch at payload byte 0\n",
    "81808080808080800a": "      0 rest of 9: 81808080808080800a\nsmlwalk: payload 1: 11 InvalidTlf TlfLengthOverflow at payload byte 0\n",
    "7207": "      0 list of 2\n      1   rest of 1: 07\nsmlwalk: payload 1: 10 UnexpectedEOF at payload byte 2\n",
    "7201": "      0 list of 2\n      1   string of 0\nsmlwalk: payload 1: 10 UnexpectedEOF at payload byte 2\n",
    "ff8f8f8f8f8f8f0f00": "      0 list of 4294967295\n      8   end mark\nsmlwalk: payload 1: 10 UnexpectedEOF at payload byte 9\n",
    "f1": "      0 rest of 1: f1\nsmlwalk: payload 1: 10 UnexpectedEOF at payload byte 1\n",
}
NESTED = "".join("%7d %slist of 1\n" % (k, "  " * k) for k in range(DEEPEST))
CONTENTS["71" * 16 + "01"] = NESTED + "     16 " + "  " * 16 + "string of 0\n"
CONTENTS["71" * 16 + "7001"] = NESTED + "     16 " + "  " * 16 + "rest of 2: 7001\nsmlwalk: payload 1: 19 TooDeep at payload byte 16\n"
CONTENTS["71" * 16 + "f1"] = NESTED + "     16 " + "  " * 16 + "rest of 1: f1\nsmlwalk: payload 1: 10 UnexpectedEOF at payload byte 17\n"


def contents(words):
    for given, lines in CONTENTS.items():
        data = bytes.fromhex(given)
        wanted = int("smlwalk" in lines), f"payload 1: length {len(data)}\n" + lines
        held(f"smlwalk -p {given}", together([*words, "-p"], data), wanted)
        held(f"smlwalk -p {given}, by the reading", plain(data), wanted)
    return len(CONTENTS)


def longest(words):
    """The longest payload by -p and in a frame, and one byte more; a list of many elements; places of seven digits."""
    def string(n):
        return bytes([0x80 | n >> 20, *(0x80 | n >> k & 15 for k in (16, 12, 8, 4)), n & 15]) + bytes(n - 6)

    for n in LIMIT - 1, LIMIT:
        held(f"smlwalk -p, {n} bytes", together([*words, "-p"], string(n)), (0, f"payload 1: length {n}\n      0 string of {n - 6}: {'00' * (n - 6)}\n"))
    for n in LIMIT + 1, 2 * LIMIT:
        held(f"smlwalk -p, {n} bytes", ran([*words, "-p"], string(n)), (1, "", "smlwalk: payload 1: 9 InputTooLong: more than 1048576 bytes\n"))
    fits = frame(string(LIMIT - 4))
    # a payload of one byte more has three bytes of padding, and the fourth byte of its end has no room
    beyond = frame(string(LIMIT - 3))
    said = f"payload 1: length {LIMIT - 4}, frame ends at byte {len(fits) - 1}\n      0 string of {LIMIT - 10}: {'00' * (LIMIT - 10)}\nsmlwalk: input: 3 OutOfMemory at byte {len(fits) + 8 + LIMIT + 4}\n"
    after = len(fits) + len(beyond) + len(frame(b"\0"))
    said += f"smlwalk: input: 6 DiscardedBytes at byte {len(fits) + len(beyond) + 7}: 3 lost\npayload 2: length 1, frame ends at byte {after - 1}\n      0 end mark\n"
    held("smlwalk, the longest payload of a frame, and one byte more", together(words, fits + beyond + frame(b"\0")), (1, said))
    row = bytes.fromhex("f8868a00") + b"\1" * 0x86A0
    held("smlwalk, a list of many", together([*words, "-p"], row), plain(row))
    last = together([*words, "-p"], string(LIMIT - 2) + b"\0\x10")[1].split("\n")[2:]
    held("smlwalk -p, places of seven digits", last, ["1048574 end mark", "1048575 rest of 1: 10", "smlwalk: payload 1: 11 InvalidTlf TlfInvalidTy at payload byte 1048575", ""])


# ---- random payloads

TEXT = bytes(range(0x20, 0x7F)) + b'""\\\\'
HEADS = bytes.fromhex("0000010203066570717273f0f1807881828f4142c151525962636fe09010")


def grown(r, depth=0):
    """An element of any kind, now and then with length bytes that it doesn't need."""
    sort = r.random()
    if sort < 0.3 and depth < 9:
        n = r.choice((0, 1, 1, 2, 3, 6, 7))
        return length(LIST, n, more(r)) + b"".join(grown(r, depth + 1) for _ in range(n))
    if sort < 0.38:
        return b"\0"
    ty, n = r.choice((OCT, OCT, OCT, BOOL, INT, INT, UINT)), r.choice((0, 1, 1, 2, 3, 4, 5, 6, 6, 7, 8, 8, 9, 10, 16, 48))
    content = r.choice((r.randbytes(n), bytes(r.choices(TEXT, k=n)), bytes(n), b"\xff" * n))
    return element(ty, content, 0 if ty == BOOL else more(r))


def part(r):
    """A message, any element, one with a length over 32 bits now and then, lists about sixteen deep, or bytes that often begin one."""
    sort = r.randrange(12)
    if sort < 3:
        return message(r, 0)
    if sort < 9:
        return grown(r) if sort < 8 or r.random() < 0.5 else over(r, grown(r))
    return b"\x71" * r.choice((3, 14, 15, 16, 17)) + grown(r) if sort < 11 else bytes(r.choices(HEADS, k=r.randint(1, 12)))


def drawn(r):
    """A payload of such parts, bent or cut now and then."""
    data = b"".join(part(r) for _ in range(r.choice((0, 1, 1, 2, 3))))
    if data and r.random() < 0.3:
        k = r.randrange(len(data))
        data = r.choice((data[:k], data[:k] + r.choice((r.randbytes(1), bytes([r.choice(HEADS)]))) + data[k + 1 :]))
    return data[:3000]


def between(r):
    """What stands between frames: mostly nothing."""
    whole = frame(drawn(r))
    k = r.randrange(8, len(whole))
    return r.choice([b""] * 14 + [b"\x1b", b"\1", r.randbytes(r.randrange(30)), START + bytes(r.randrange(30)), START + ESCAPE + r.randbytes(4), whole[:k], whole[:k] + bytes([whole[k] ^ 4]) + whole[k + 1 :]])


def leaves(payload):
    """How many leaves the elements of a payload have, or None where one is refused."""
    at, total = 0, 0
    while at < len(payload):
        said = walk(payload, at)
        if isinstance(said, Refusal):
            return None
        at, total = at + said[1], total + said[2]
    return total


def as_many(what, output, payloads):
    """Of each payload that is whole, as many lines of leaves and end marks as the walk has leaves."""
    blocks = re.split(r"^payload .*\n", output, flags=re.M)[1:]
    held(f"{what}: payloads", len(blocks), len(payloads))
    counts = [(len(re.findall(r"^ *\d+ +(?!list |rest )\w", block, re.M)), leaves(p)) for block, p in zip(blocks, payloads)]
    held(f"{what}: lines and leaves", [pair for pair in counts if pair[1] not in (None, pair[0])][:9], [])
    return sum(total or 0 for _, total in counts)


def random_payloads(words, n):
    """In frames, between noise and damaged frames; in the second way too."""
    r, total = random.Random(SEED), 0
    for at in range(0, n, BATCH):
        payloads = [drawn(r) for _ in range(min(BATCH, n - at))]
        data = b"".join(between(r) + frame(p) for p in payloads) + between(r)
        for way, options in (1, []), (2, ["-2"]):
            status, output = together([*words, *options], data)
            wanted = printed(data, way)
            held_lines(f"smlwalk {options}, random payloads from {at} on", output, wanted[1])
            held(f"smlwalk {options}, random payloads: status", status, wanted[0])
        total += as_many(f"smlwalk, random payloads from {at} on", ran(words, b"".join(map(frame, payloads)))[1], payloads)
    return total


def missing():
    """What must be among the random payloads, and how often at least."""
    floors = {"OBIS": 50, "text": 50, "text of six": 10, "below 0": 50} | {kind: 200 for kind in ("list", "end mark", *TYPES.values())} | {f"{k} {NAMES[k]}": 20 for k in (6, 7, 8, 10, 19)}
    floors |= {f"11 InvalidTlf {kind}": 10 for kind in ("TlfInvalidTy", "TlfReserved", "TlfNextByteTypeMismatch", "TlfLengthUnderflow", "TlfLengthOverflow")}
    return [f"{what}: {seen[what]}, and {n} are wanted" for what, n in floors.items() if seen[what] < n]


# ---- files, pipes and how it ends


def so_far(data):
    """The lines of a capture that goes on: without that of its end, whose place is its length."""
    lines = printed(data)[1].splitlines(keepends=True)
    return "".join(one for one in lines if f" DiscardedBytes at byte {len(data)}:" not in one)


def live(start):
    """Each payload's lines, and each refusal, come before the next bytes are written; byte by byte too."""
    whole, noise = frame(CLOSE), b"noise" + frame(b"\x10")
    run = subprocess.Popen(start, stdin=subprocess.PIPE, stdout=subprocess.PIPE, stderr=subprocess.STDOUT, bufsize=0)
    pushed, heard = b"", ""
    for part in [whole[:-1], whole[-1:], whole + whole, noise[:13], noise[13:], *(bytes([b]) for b in whole), whole[:10]]:
        run.stdin.write(part)
        pushed += part
        wanted = so_far(pushed)
        while len(heard) < len(wanted) and select.select([run.stdout], [], [], 20)[0]:
            more = os.read(run.stdout.fileno(), 65536).decode()
            heard += told(more)
            if not more:
                break
        if heard != wanted:
            run.kill()
            return held(f"smlwalk, live, behind {len(pushed)} bytes", heard, wanted)
    run.stdin.close()
    held("smlwalk, a live pipe ends", (heard + run.stdout.read().decode(), run.wait(60)), (printed(pushed)[1], 1))


# the program over reads and writes that a signal cuts every other time, and that else take a few bytes
CUT = """#include <errno.h>
#include <unistd.h>

static unsigned calls;

static ssize_t cut_read(int in, void *to, size_t n)
{
    errno = EINTR;
    return calls++ %% 2 == 0 ? -1 : read(in, to, n < 7 ? n : 7);
}

static ssize_t cut_write(int out, const void *from, size_t n)
{
    errno = EINTR;
    return calls++ %% 2 == 0 ? -1 : write(out, from, n < 7 ? n : 7);
}

#define read cut_read
#define write cut_write
#include "%s"
"""


def cut(folder, data):
    """A signal in a read or a write changes nothing, and neither does the size of the chunks."""
    source = os.path.join(folder, "cut.c")
    open(source, "w").write(CUT % os.path.abspath("smlwalk/smlwalk.c"))
    words = clink.built(source, os.path.join(folder, "cut"))
    held("smlwalk with signals", together(words, data), printed(data))
    held("smlwalk -p with signals", together([*words, "-p"], CLOSE), plain(CLOSE))


def helped():
    """-h and wrong words, for which nothing is built."""
    for words in ["-h"], ["--help"], ["-2", "-p", "-h"]:
        status, out, errors = ran(["bin/smlwalk", *words])
        held(f"smlwalk {words}", (status, out.split(":")[0], errors), (0, "smlwalk [-2] [-p] [FILE]", ""))
    for word in "1,048,572", "1,048,576", "from 0", "Status: 0 ", "list of N", "string of N: HEX", "integer of N: HEX", "unsigned of N: HEX", "boolean of N: HEX", "end mark", "rest of N: HEX", *(f"{n} {name}" for n, name in NAMES.items()):
        held(f"smlwalk -h has {word}", word in out, True)
    for words in ["-x"], ["-2p"], ["a", "b"], ["captures/bare-times.bin", "-h"], ["captures/bare-times.bin", "-2"]:
        status, out, errors = ran(["bin/smlwalk", *words])
        held(f"smlwalk {words}", (status, out, errors.split(":")[0]), (2, "", "smlwalk [-2] [-p] [FILE]"))
    held("smlwalk, no such file", ran(["bin/smlwalk", "target/no-such-file"]), (2, "", "smlwalk: target/no-such-file: No such file or directory\n"))
    held("smlwalk, a folder", ran(["bin/smlwalk", "-p", "captures"]), (2, "", "smlwalk: captures: Is a directory\n"))


def used(words):
    """The command by its words, and how the program ends where its input or output fails."""
    stray = b"\x1b" + frame(CLOSE)
    with tempfile.NamedTemporaryFile() as f:
        f.write(stray)
        f.flush()
        held("smlwalk FILE", ran(["bin/smlwalk", f.name]), (1, *parted(printed(stray)[1])))
        held("smlwalk -2 -", ran(["bin/smlwalk", "-2", "-"], stray), (1, *parted(printed(stray, 2)[1])))
    held("smlwalk -2 -p", ran(["bin/smlwalk", "-2", "-p"], CLOSE), (0, plain(CLOSE)[1], ""))
    held("smlwalk, nothing", [ran(words), ran([*words, "-p"])], [(0, "", ""), (0, "payload 1: length 0\n", "")])
    held("smlwalk, noise alone", [ran(words, b"\1"), ran(words, b"\x1b")], [(1, "", "smlwalk: input: 6 DiscardedBytes at byte 1: 1 lost\n")] * 2)
    held("the program, another word", ran([*words, "-x"]), (2, "", "usage: smlwalk [-2] [-p]\n"))
    for ends, said in (">/dev/full", "output: No space left on device"), (">&-", "output: Bad file descriptor"), ("<&-", "input: Bad file descriptor"):
        held(f"smlwalk {ends}", ran(["sh", "-c", f'exec "$@" {ends}', "sh", *words], frame(CLOSE)), (2, "", f"smlwalk: {said}\n"))
    # a pipe that nobody reads any more: what ended it is a status, and nothing is told
    read, write = os.pipe()
    os.close(read)
    run = subprocess.run(["bin/smlwalk"], input=frame(CLOSE), stdout=write, stderr=subprocess.PIPE)
    os.close(write)
    held("smlwalk, nobody reads", (run.returncode, told(run.stderr.decode())), (1, ""))


def main():
    numbers = [int(w) for w in sys.argv[1:] if w.isdigit()]
    if set(sys.argv[1:]) - {"--all", "--store"} - set(map(str, numbers)):
        sys.exit("test_smlwalk.py [N | --all] [--store]")
    n = ALL if "--all" in sys.argv else (numbers + [GATE])[0]
    words = clink.smlwalk()
    helped()
    for name in "two-byte-length", "bare-times":
        stored(words, name, open(f"captures/{name}.bin", "rb").read())
    stored(words, "damaged", recording())
    rows = contents(words)
    longest(words)
    seen.clear()
    lines = random_payloads(words, n)
    faults.extend(missing() if n >= GATE else [])
    with tempfile.TemporaryDirectory() as folder:
        cut(folder, recording())
    live(["bin/smlwalk"])
    used(words)
    for fault in sorted(faults, key=len)[:8]:
        print(fault)
    if faults:
        sys.exit(f"{len(faults)} faults")
    print(f"smlwalk: {rows} payloads by -p, 3 stored outputs; {n:,} random payloads in both ways of searching, {lines:,} lines of leaves and end marks")


main()

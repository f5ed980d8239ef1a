"""bin/smlwhy as its user meets it (document 02, Q-10): each line held to tests/why_reading.py, a second reading that was written from the request and not from the code; what it says of each cause is stored.

The request's vectors, a recording with each cause and each pair of an end's causes, in both ways and several capacities; a recording over many reads; random recordings of frames, noise and damaged frames. Of each: every byte is kept or lost. A live pipe, whose lines come before
the next byte is written, and that a signal ends; options, files, and how it ends. That its memory doesn't grow with the recording is tried with 200 MB under --all.

`python3 tests/test_smlwhy.py N` runs N random recordings; --all 3,000; --store writes the output to tests/expected.
"""
import collections, os, random, re, resource, select, signal, subprocess, sys, tempfile, time

sys.dont_write_bytecode = True
os.chdir(os.path.join(os.path.dirname(os.path.abspath(__file__)), ".."))
sys.path += ["scripts", "oracle"]
import clink
from programs import MAKING_READY
from sml import ESCAPE, START, frame
from why_reading import CAUSES, ENDS, KEPT, MORE, VECTORS, Part, Why, crc, losses

SEED, GATE, ALL = 20261119, 150, 3000
LIMIT, CAPACITY, READ = 1048576, 4096, 65536  # the last is how many bytes the program reads at once
B5 = b"\x1b" + frame(bytes.fromhex("12345678"))
faults, seen = [], collections.Counter()


def held(what, said, wanted):
    if said != wanted:
        faults.append(f"{what}\n  wanted   {str(wanted)[:600]}\n  answered {str(said)[:600]}")


def held_lines(what, output, wanted):
    """Of long outputs the first line that differs is told."""
    for k, (one, other) in enumerate(zip(output.split("\n") + [None], wanted.split("\n") + [None]), 1):
        if one != other:
            return held(f"{what}, line {k}", one, other)


def told(errors):
    """What is left on standard error beside what is said while a command makes ready."""
    return "".join(one for one in errors.splitlines(keepends=True) if not one.startswith(MAKING_READY))


def ran(words, data=b"", **more):
    """Status, standard output and standard error."""
    run = subprocess.run(words, input=data, capture_output=True, **more)
    return run.returncode, run.stdout.decode(), told(run.stderr.decode())


# ---- the program by the reading

MEANS = {
    "noise": "no frame begins here",
    "unfinished": "the recording ends inside a frame",
    "hidden": "a frame's start lies here, and a 1b before it hid it",
    "cut": "a new frame begins before this one's end",
    "escape": "an escape that means nothing",
    "room": "the frame doesn't fit in the buffer",
    "crc": "the CRC is wrong",
    "misaligned": "the end isn't at a multiple of four bytes",
    "pads": "the number of padding bytes is wrong",
}
OWN_FAULT = "since the CRC is right, the meter's own fault if it happens again, ask its maker; else bytes were "
LOOK = "; if it goes on, look at the reading head, the cable and the baud rate"
DAMAGED = "bytes were lost, doubled or changed on the line" + LOOK
ADVICE = {
    "noise": "nothing to do on an idle line, behind another loss, or where the recording begins inside a frame; if it goes on, look at the baud rate and the parity",
    "unfinished": "record longer; if it is cut then, its end was lost on the line",
    "hidden": "search in the second way, -2; behind room give the larger buffer first",
    "cut": "the meter began anew, or bytes up to the end were lost or changed on the line" + LOOK,
    "escape": "bytes inside the frame were lost, doubled or changed on the line" + LOOK,
    "crc": DAMAGED,
    "misaligned": OWN_FAULT + "lost or doubled on the line",
    "pads": OWN_FAULT + "changed on the line",
}
FULL = "there is no larger one: the frame's end was lost on the line, or no meter sent this"
LARGER = "give a larger one, -c 1048576 is the largest; if the frame is lost with that too, its end was lost on the line"


def advice(causes, capacity):
    if causes == ("room",):
        return FULL if capacity == LIMIT else LARGER
    if len(causes) == 1:
        return ADVICE[causes[0]]
    return DAMAGED if "crc" in causes else OWN_FAULT + "lost, doubled or changed on the line"


def lines(parts, capacity):
    """The line of each loss."""
    for causes, first, last in losses(parts):
        seen["+".join(causes)] += 1
        yield f"{'+'.join(causes)} {first} {last}: {', '.join(MEANS[cause] for cause in causes)}; {advice(causes, capacity)}\n"


def count(n, what):
    return f"{n} {what}" + "s" * (n != 1)


def sum_of(parts):
    """The last line. All bytes are kept or lost: `parts` are the whole recording."""
    kept, lost = ([part.last - part.first + 1 for part in parts if (part.causes == KEPT) == is_kept] for is_kept in (True, False))
    return f"kept {sum(kept)} of {count(sum(kept) + sum(lost), 'byte')} in {count(len(kept), 'frame')}, lost {sum(lost)} in {count(len(lost), 'piece')}\n"


def printed(data, way=1, capacity=CAPACITY):
    parts = Why(way, capacity).parts(data)
    held("the reading's parts", sum_of(parts).split(" ")[3], str(len(data)))
    return "".join(lines(parts, capacity)) + sum_of(parts)


def options(way, capacity):
    return ["-2"] * (way == 2) + ["-c", str(capacity)] * (capacity != CAPACITY)


# ---- stored output


def bent(whole, k, b=None):
    """A frame with a byte changed."""
    return whole[:k] + bytes([whole[k] ^ 0x55 if b is None else b]) + whole[k + 1 :]


def closed(data, pads):
    """A start, any data, and an end with the right CRC and so many pads."""
    whole = START + data + ESCAPE + bytes([0x1A, pads])
    return whole + crc(whole).to_bytes(2, "little")


def recording():
    """Each cause, and each that an end sequence may have with others; whole frames between them."""
    meter = open("captures/two-byte-length.bin", "rb").read()
    whole = frame(b"payload")
    ends = [closed(b"12345", 0), closed(b"1234", 4), closed(b"", 1), closed(b"12345", 9)]
    ends += [bent(one, len(one) - 1) for one in (whole, *ends)]
    parts = [b"\xff\0\7", whole, meter, b"\x1b\x1b", whole, b"\0", whole, START + b"cut", whole, START + ESCAPE + bytes([2, 0, 0, 9]), *ends, frame(b"long " * 1000), whole, START + b"1234"]
    return b"".join(parts)


def stored(words, name, data, way=1, capacity=CAPACITY):
    """What is printed is what is stored, and what the reading says."""
    path, what = f"tests/expected/smlwhy-{name}.txt", [*words, *options(way, capacity)]
    status, output, errors = ran(what, data)
    if "--store" in sys.argv:
        open(path, "w", encoding="utf-8").write(output)
    held_lines(path, output, open(path, encoding="utf-8").read())
    held_lines(f"smlwhy {name}", output, printed(data, way, capacity))
    held(f"smlwhy {name}: status and errors", (status, errors), (0, ""))


# ---- the request's vectors, and recordings that are drawn


def vectors(words):
    """Those of `why` of bin/replay: the same losses, in the same words before the colon."""
    asked = [row for row in VECTORS + MORE if not row[3].startswith("refused")]
    for way, capacity, data, wanted in asked:
        what, said = f"smlwhy {options(way, capacity)} of {data.hex()}", ran([*words, *options(way, capacity)], data)
        held(what, " | ".join(one.split(":")[0] for one in said[1].splitlines()[:-1]) or "-", wanted)
        held(what, said, (0, printed(data, way, capacity), ""))
    return len(asked)


def drawn(r):
    """Frames, noise, and what is left of damaged frames."""
    def piece():
        data = bytes(r.choices(b"\x1b\x1b\x1b\1\1\x1a\0\2" + r.randbytes(1), k=r.randrange(30)))
        whole = frame(data)
        k = r.randrange(len(whole))
        return r.choice((whole, whole, data, START + data, whole[:k], bent(whole, k), closed(data, r.randrange(6)), b"\x1b" * r.randint(1, 9), START))
    return b"".join(piece() for _ in range(r.randrange(12)))


def random_recordings(words, n):
    r = random.Random(SEED)
    for _ in range(n):
        data, way, capacity = drawn(r), r.choice((1, 2)), r.choice((CAPACITY, CAPACITY, r.randrange(40)))
        held(f"smlwhy {options(way, capacity)} of {data.hex()}", ran([*words, *options(way, capacity)], data), (0, printed(data, way, capacity), ""))


def many_reads(words):
    """A recording over several reads: a frame, a loss and a start lie across their ends; one loss has more bytes than are read at once."""
    noise = bytes(3 * READ - 5)
    data = noise + frame(b"1234") + bytes(READ - 20) + START + b"12" + frame(bytes(1000)) * 200 + bytes(READ + 1) + frame(b"")[:9]
    held("smlwhy, many reads", ran(words, data), (0, printed(data), ""))
    hidden = b"\x1b" + START + bytes(2 * READ)
    held("smlwhy, a start that many bytes follow", ran(words, hidden), (0, printed(hidden), ""))


def missing():
    """What must be among all these, and how often at least."""
    floors = {cause: 5 for cause in CAUSES} | {"+".join(some): 2 for some in ((*ENDS[:2],), (ENDS[0], ENDS[2]), (*ENDS[1:],), ENDS)}
    return [f"{what}: {seen[what]}, and {n} are wanted" for what, n in floors.items() if seen[what] < n]


# ---- files, pipes and how it ends


def so_far(data):
    """The lines of a recording that goes on: without what its end tells."""
    return "".join(lines([part for part in Why(1, CAPACITY).parts(data) if part.last < len(data) or part.causes not in (("noise",), ("hidden",), ("unfinished",))], CAPACITY))


def started(start):
    return subprocess.Popen(start, stdin=subprocess.PIPE, stdout=subprocess.PIPE, stderr=subprocess.STDOUT, bufsize=0, start_new_session=True)


def heard_of(run, heard, wanted):
    """What was heard before, and what comes until as much as is wanted was heard."""
    while len(heard) < len(wanted) and select.select([run.stdout], [], [], 20)[0]:
        more = os.read(run.stdout.fileno(), 65536).decode()
        heard += told(more)
        if not more:
            break
    return heard


def live(start):
    """Each line comes before the next bytes are written; byte by byte too."""
    whole = frame(b"1234")
    run, pushed, heard = started(start), b"", ""
    for part in [b"noise" + whole[:7], whole[7:8], whole[8:], bent(whole, 9), START + b"1", *(bytes([b]) for b in whole), b"\x1b", whole, b"\0", whole]:
        run.stdin.write(part)
        pushed += part
        wanted = so_far(pushed)
        heard = heard_of(run, heard, wanted)
        if heard != wanted:
            run.kill()
            return held(f"smlwhy, live, behind {len(pushed)} bytes", heard, wanted)
    run.stdin.close()
    held("smlwhy, a live pipe ends", (heard + run.stdout.read().decode(), run.wait(60)), (printed(pushed), 0))


def stopped(start, sent, data):
    """A signal to all processes of a live line, whose bytes don't end: what was lost so far is told as at the end of the input, and the sum."""
    run = started(start)
    run.stdin.write(data)
    heard = heard_of(run, "", so_far(data))
    time.sleep(1)  # the program waits for more then, under an emulator too
    os.killpg(run.pid, sent)
    try:
        run.wait(20)
    except subprocess.TimeoutExpired:
        os.killpg(run.pid, signal.SIGKILL)
    held(f"smlwhy, {sent.name} behind {data.hex()}", (heard + run.stdout.read().decode(), run.wait()), (printed(data), 0))


def signals(start):
    """In a frame, in a search, and behind a frame, while the input goes on; and in a pipe, whose first process the signal ends, too. Its shell goes on, for the status, and what it says itself isn't heard."""
    whole = frame(b"1234")
    for sent in signal.SIGINT, signal.SIGTERM:
        for data in b"noise" + whole + START + b"12", b"noise" + START + whole + b"\x1b\7", b"noise" + whole:
            stopped(start, sent, data)
        stopped(["sh", "-c", 'trap : INT TERM; exec 2>/dev/null; cat | "$@" 2>&1', "sh", *start], sent, b"noise" + whole + START)


# the program over reads and writes that a signal cuts every other time, and that else take a few bytes; the input ends, or can't be read on
CUT = """#include <errno.h>
#include <unistd.h>

static unsigned calls;

static ssize_t cut_read(int in, void *to, size_t n)
{
    errno = EINTR;
    if (calls++ %% 2 == 0)
        return -1;
    ssize_t got = read(in, to, n < 7 ? n : 7);
    errno = 5; /* EIO */
    return got == 0 ? %d : got;
}

static ssize_t cut_write(int out, const void *from, size_t n)
{
    errno = EINTR;
    return calls++ %% 2 == 0 ? -1 : write(out, from, n < 7 ? n : 7);
}

#define read cut_read
#define write cut_write
#include "%s"
"""


def cut(folder, data):
    """Another signal in a read or a write changes nothing, and neither does the size of the chunks. Where the input can't be read on, all is told before that."""
    for end, status, said in (0, 0, ""), (-1, 2, "smlwhy: input: Input/output error\n"):
        source = os.path.join(folder, "cut.c")
        open(source, "w").write(CUT % (end, os.path.abspath("smlwhy/smlwhy.c")))
        held(f"smlwhy with signals, {end} at the end", ran(clink.built(source, os.path.join(folder, "cut")), data), (status, printed(data), said))


def helped():
    """-h and wrong words, for which nothing is built."""
    usage = "smlwhy [-2] [-c CAPACITY] [FILE]"
    for words in ["-h"], ["--help"], ["-2", "-c", "8", "-h"]:
        status, out, errors = ran(["bin/smlwhy", *words])
        held(f"smlwhy {words}", (status, out.split(":")[0], errors), (0, usage, ""))
    for word in *CAUSES, "1048576", "4096", "counted from 1", "K + L = N", "Status: 0", "5 WrongBuffer":
        held(f"smlwhy -h has {word}", word in out, True)
    for words in ["-x"], ["-c"], ["-2", "-c"], ["-c8"], ["a", "b"], ["captures/bare-times.bin", "-h"], ["captures/bare-times.bin", "-2"]:
        status, out, errors = ran(["bin/smlwhy", *words])
        held(f"smlwhy {words}", (status, out, errors.split(":")[0]), (2, "", usage))
    held("smlwhy, no such file", ran(["bin/smlwhy", "target/no-such-file"]), (2, "", "smlwhy: target/no-such-file: No such file or directory\n"))
    held("smlwhy, a folder", ran(["bin/smlwhy", "-2", "-c", "8", "captures"]), (2, "", "smlwhy: captures: Is a directory\n"))


def used(words):
    """The command by its words, and how the program ends where its input or output fails."""
    with tempfile.NamedTemporaryFile() as f:
        f.write(B5)
        f.flush()
        held("smlwhy FILE", ran(["bin/smlwhy", f.name]), (0, printed(B5), ""))
        held("smlwhy -2 -c 7 FILE", ran(["bin/smlwhy", "-2", "-c", "7", f.name]), (0, printed(B5, 2, 7), ""))
        held("smlwhy -c 8 -2 -", ran(["bin/smlwhy", "-c", "8", "-2", "-"], B5), (0, printed(B5, 2), ""))
    held("B5 by its first words", printed(B5).split(":")[0], "hidden 1 21")
    held("smlwhy, nothing", ran(words), (0, "kept 0 of 0 bytes in 0 frames, lost 0 in 0 pieces\n", ""))
    held("smlwhy, the last capacity that is told", ran([*words, "-c", "0", "-c", "8"], B5[1:]), (0, "kept 20 of 20 bytes in 1 frame, lost 0 in 0 pieces\n", ""))
    held("smlwhy, one byte", ran(words, b"\0")[1].split("\n")[1], "kept 0 of 1 byte in 0 frames, lost 1 in 1 piece")
    held("smlwhy -c -h", ran(["bin/smlwhy", "-c", "-h"]), (2, "", "smlwhy: -c -h: not a number\n"))
    for word in "x", "", "-1", "8x", "0x8", "1e3", "8 ":
        held(f"smlwhy -c {word!r}", ran([*words, "-c", word]), (2, "", f"smlwhy: -c {word}: not a number\n"))
    for word in "1048577", "4294967304", "18446744073709551616", "99999999999999999999999":
        held(f"smlwhy -c {word}", ran(["bin/smlwhy", "-c", word]), (2, "", f"smlwhy: -c {word}: 5 WrongBuffer: a capacity over 1048576\n"))
    held("smlwhy, the longest payload", ran([*words, "-c", "0000000000000000001048576"], frame(bytes(LIMIT - 4))), (0, f"kept {LIMIT + 12} of {LIMIT + 12} bytes in 1 frame, lost 0 in 0 pieces\n", ""))
    # one byte more has three bytes of padding, and the fourth byte of its end has no room
    parts = [Part(("room",), 1, LIMIT + 13), Part(("noise",), LIMIT + 14, LIMIT + 16)]
    held("smlwhy, a longer payload", ran([*words, "-c", "1048576"], frame(bytes(LIMIT - 3))), (0, "".join(lines(parts, LIMIT)) + sum_of(parts), ""))
    held("the program, another word", ran([*words, "-x"]), (2, "", "usage: smlwhy [-2] [-c CAPACITY]\n"))
    for ends, out, said in (">/dev/full", "", "output: No space left on device"), (">&-", "", "output: Bad file descriptor"), ("<&-", printed(b""), "input: Bad file descriptor"):
        held(f"smlwhy {ends}", ran(["sh", "-c", f'exec "$@" {ends}', "sh", *words], B5), (2, out, f"smlwhy: {said}\n"))
    # a pipe that nobody reads any more: what ended it is a status, and nothing is told
    read, write = os.pipe()
    os.close(read)
    run = subprocess.run(["bin/smlwhy"], input=B5, stdout=write, stderr=subprocess.PIPE)
    os.close(write)
    held("smlwhy, nobody reads", (run.returncode, told(run.stderr.decode())), (1, ""))


def large(words):
    """200 MB of a frame and a stray byte, over and over: no more memory than a short one takes. Told is how much a child of this test had at the most."""
    unit, times = frame(bytes(1000)) + b"\0", 200000
    held("smlwhy, the unit", printed(unit)[:10], "noise 1017")
    run = subprocess.Popen(words, stdin=subprocess.PIPE, stdout=subprocess.PIPE)
    before = resource.getrusage(resource.RUSAGE_CHILDREN).ru_maxrss
    reader, count, last = os.fork(), 0, ""
    if reader == 0:
        for _ in range(times // 1000):
            run.stdin.write(unit * 1000)
        run.stdin.close()
        os._exit(0)
    run.stdin.close()
    for line in run.stdout:
        count, last = count + 1, line.decode()
    os.waitpid(reader, 0)
    held("smlwhy, 200 MB", (run.wait(), count, last), (0, times + 1, f"kept {times * (len(unit) - 1)} of {times * len(unit)} bytes in {times} frames, lost {times} in {times} pieces\n"))
    grown = resource.getrusage(resource.RUSAGE_CHILDREN).ru_maxrss
    held("smlwhy, 200 MB: its memory in kilobytes is under 100,000", grown < max(100000, before + 1), True)


def main():
    numbers = [int(w) for w in sys.argv[1:] if w.isdigit()]
    if set(sys.argv[1:]) - {"--all", "--store"} - set(map(str, numbers)):
        sys.exit("test_smlwhy.py [N | --all] [--store]")
    n = ALL if "--all" in sys.argv else (numbers + [GATE])[0]
    words = clink.smlwhy()
    helped()
    stored(words, "each", recording())
    stored(words, "each-second-way", recording(), 2)
    stored(words, "each-small", recording(), 1, 8)
    asked = vectors(words)
    many_reads(words)
    random_recordings(words, n)
    faults.extend(missing() if n >= GATE else [])
    with tempfile.TemporaryDirectory() as folder:
        cut(folder, recording())
    live(["bin/smlwhy"])
    signals(["bin/smlwhy"])
    used(words)
    if "--all" in sys.argv:
        large(words)
    for fault in sorted(faults, key=len)[:8]:
        print(fault)
    if faults:
        sys.exit(f"{len(faults)} faults")
    print(f"smlwhy: {asked} vectors of the request, 3 stored outputs; {n:,} random recordings, {sum(seen.values()):,} lines by the second reading" + (", 200 MB through a pipe" if "--all" in sys.argv else ""))


main()

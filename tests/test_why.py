"""Why bytes of a recording were lost (document 02, Q-10), through `why` of bin/replay: held to tests/why_reading.py, a second reading that was written from the
request and not from the code, and which reads a recording twice: by the events of a decoder, and by the bytes alone.

The request's vectors; all recordings of the fewest letters, which are 1b, 01, 1a, 00 and a whole start; a start, data and an escape with all that may follow them;
starts, frames, ends and stray bytes, one behind the other; recordings that are drawn. Each in both ways and with several capacities. Of each: where a part begins
exactly one length of a part is true of anything; the two readings agree; kept frames and pieces lie one behind another and are the whole recording; a 6's count is
its piece's length; asked again from behind a part, the rest is told as before. The program answers as the readings do, and of what is drawn it is asked for the
rest behind each part too. Each wrong reading must be seen, by the vectors and by what is drawn, and so must each wrong truth of a cause.

`python3 tests/test_why.py N` draws N recordings, --all 20,000 and takes more of the fewest letters; the gate's are the first of these. With --model no program of
ours is asked.
"""
import collections, itertools, os, random, subprocess, sys

sys.dont_write_bytecode = True
os.chdir(os.path.join(os.path.dirname(os.path.abspath(__file__)), ".."))
sys.path += ["scripts"]
from programs import MAKING_READY
from why_reading import CAUSES, ENDS, ESCAPE, F, KEPT, LIMIT, MORE, ONES, START, VECTORS, WRONG, WRONG_TRUTHS
from why_reading import Unclear, Why, accounts, asked, command, crc, escaped, line, losses, tells, unlike, vector_faults

SEED, GATE, ALL, BATCH, MOST_TOLD, ENOUGH = 20260214, 150, 20000, 100000, 3000, 3
WAYS, SMALL = (1, 2), range(14)  # capacities that small recordings are tried with
FRAME = bytes.fromhex(F)
BYTES = [b"\x1b", b"\1", b"\x1a", b"\0"]
faults, seen = [], collections.Counter()


def held(what, said, wanted):
    if said != wanted:
        faults.append(f"{what[:600]}\n  wanted   {str(wanted)[:500]}\n  answered {str(said)[:500]}")


# ---- the readings


def counted(what, way, capacity, data):
    """The count of a 6 is the length of its piece."""
    begun, why = 0, Why(way, capacity)
    for n, event, ended in why.events(data):
        behind = why.behind(n, event, ended, begun)
        if event.number == 6:
            held(f"{what}: the count of a 6", event.count, behind - begun)
        begun = behind


def tiled(what, data, parts):
    held(f"{what}: parts one behind the other", [part.first - 1 for part in parts] + [len(data)], [0] + [part.last for part in parts])
    held(f"{what}: parts of no byte", [part for part in parts if part.first > part.last], [])


def closely(way, capacity, data, _):
    """What takes longer. A new decoder from behind any part goes on as the one that ran: gives these cases."""
    what, parts = command(way, capacity, data), Why(way, capacity).parts(data)
    counted(what, way, capacity, data)
    for k, part in enumerate(parts, 1):
        rest = Why(way, capacity).parts(data[part.last :])
        held(f"{what}: from behind byte {part.last}", [one._replace(first=one.first + part.last, last=one.last + part.last) for one in rest], parts[k:])
        yield way, capacity, data[part.last :], line(losses(rest))


def noticed(way, parts):
    seen["parts"] += len(parts)
    for part in parts:
        seen.update(part.causes)
        seen[way, "+".join(part.causes)] += 1
    for before, part in zip(parts, parts[1:]):
        seen["behind", before.causes[0], part.causes[0]] += 1


def readings(data, capacities):
    """A recording by both readings, in both ways and with these capacities: the cases, with their answers."""
    seen["recordings"] += 1
    for way in WAYS:
        try:
            given = accounts(data, way, capacities)
        except Unclear as unclear:
            faults.append(f"{data.hex()}: {unclear}")
            continue
        for capacity in capacities:
            what, parts = command(way, capacity, data), Why(way, capacity).parts(data)
            held(f"{what}: by the bytes alone", line(given[capacity]), line(parts))
            tiled(what, data, parts)
            noticed(way, parts)
            yield way, capacity, data, line(losses(parts))


# ---- recordings


def letters(some, most):
    return (b"".join(one) for n in range(most + 1) for one in itertools.product(some, repeat=n))


def closed(data, pads, other=0):
    """The end that is right behind the last start, or one with another CRC."""
    end = ESCAPE + bytes([0x1A, pads])
    at = max(data.rfind(START), 0)
    return data + end + (crc(data[at:] + end) ^ other).to_bytes(2, "little")


# what follows others in a recording: bytes, or an end by what stands before it
WORDS = [START, FRAME, closed(START, 0), ESCAPE, b"\x1b", b"\x1b" * 2, ONES, b"\0", b"\x1a\0", START + b"\1\2\3\x1b", b"\2\0\0\0"]
WORDS += [lambda data, p=p, other=other: closed(data, p, other) for p, other in ((0, 0), (1, 0), (4, 0), (0, 256))]


def joined(words):
    data = b""
    for word in words:
        data = word(data) if callable(word) else data + word
    return data


def fewest(everything):
    """All recordings of a few letters; a start with all that may follow it, alone and behind data up to an escape, or with an end behind any number of 1b; words."""
    most = 7 if everything else 3
    yield from letters([*BYTES, START], most - 1 if everything else most)
    yield from (START + one for one in letters(BYTES, most))
    for n in range(5):
        yield from (START + bytes(n) + ESCAPE + one for one in letters(BYTES if everything else [b"\x1b", b"\x1a"], most - 1))
        yield from (joined([START, bytes(n), b"\x1b" * k, end]) for k in range(10) for end in WORDS[-4:])
    for n in range(5 if everything else 2):
        yield from map(joined, itertools.product(WORDS, repeat=n))


def few(r, n):
    return bytes(r.choices(b"\x1b\x1b\x1b\1\1\0\x1a\2", k=n))


def data_of(r):
    """Data that often ends with some 1b, and is more often than not a multiple of four."""
    data = few(r, r.choice((0, 1, 2, 3, 4, 4, 5, 8, 12))) + b"\x1b" * r.choice((0, 0, 0, 1, 2, 3, 4, 5))
    return r.choice((data, data, few(r, -len(data) % 4) + data, data[len(data) % 4 :], data + few(r, -len(data) % 4)))


def inside(r):
    data = data_of(r)
    return START + (escaped(data) if r.random() < 0.9 else data)


def bent(r, whole):
    k = r.randrange(len(whole))
    return r.choice((whole[:k], whole[k:], whole[:k] + few(r, 1) + whole[k + 1 :], whole[:k] + whole[k + 1 :], whole[:k] + b"\x1b" + whole[k:]))


def stray(r):
    k = r.randint(1, 7)
    return r.choice((few(r, r.randint(1, 6)), r.randbytes(r.randint(1, 9)), b"\x1b" * r.randint(1, 13), START[:k], START[:k] + few(r, 1), START[k:]))


def word(r):
    """What stands in a recording; of those with an end many have the right CRC, whatever their data and pad count."""
    ended = closed(inside(r), r.choice((0, 0, 1, 2, 3, 4, r.randrange(256))), r.choice((0, 0, 0, 0, 1, 0x8000)))
    return r.choice((stray(r), START, inside(r), inside(r), ended, ended, ended, ended, bent(r, ended), inside(r) + ESCAPE + few(r, r.randint(1, 4)), FRAME))


def drawn(r):
    """A recording and some capacities, among them those that one of its frames just fits or doesn't."""
    data = b"".join(word(r) for _ in range(r.randint(1, 6)))
    data = data[: r.randint(0, len(data))] if r.random() < 0.2 else data
    near = [len(one) + k for one in data.split(START)[1:] for k in (-8, -5, -4, -3)]
    return data, sorted({max(0, r.choice(near or [8])), r.choice(SMALL), r.choice((16, 24, 40, 200))})


# ---- the program


def answers(lines):
    """A line for each, of one run of bin/replay."""
    run = subprocess.run(["bin/replay"], input="".join(one + "\n" for one in lines).encode(), capture_output=True)
    said = run.stdout.decode().split("\n")[:-1]
    told = [one for one in run.stderr.decode(errors="replace").splitlines() if not one.startswith(MAKING_READY)]
    if run.returncode or told or len(said) != len(lines):
        sys.exit(f"test_why: bin/replay, status {run.returncode}, {len(lines)} lines in, {len(said)} out: {' '.join(told)[-300:]}")
    return said


NO_COMMANDS = ["", " ", " 1", " 1 8", " 1 8 ", " 1 -", " 1 8 - ", " 1 8 - -", " 1  8 -", "  1 8 -", " 1 8 0", " 1 8 AB", " 1 8 0g", " x 8 -", " 1 x -", " -1 8 -", " 1 -8 -"]
NO_COMMANDS += [" 1 8 " + "00" * 34997]
# Numbers that no byte or no buffer of the program holds are commands: an unknown way, first, and a capacity over the limit.
TOO_LARGE = [(256, 8, 4), (1, LIMIT + 2, 5), (256, LIMIT + 2, 4), (2**64 + 1, 8, 4), (2, 2**64 + 8, 5)]


def longest(everything):
    """As much as a line holds: noise, hidden starts, kept frames, losses of each kind one behind the other, and a payload that just fits or doesn't."""
    n, room = (70000 - len("why 1 30000 ")) // 2, 30000
    some = [b"\x1b" + FRAME, b"\0", b"\x1b", FRAME, START, START + b"\0", b"\0" + START, closed(START + b"\0", 0), START + ESCAPE + b"\2\0\0\0", START + bytes(9)]
    for way in WAYS:
        yield from ((way, 8, (one * n)[:n]) for one in (some if everything else some[:1]))
        if everything:
            yield from ((way, capacity, bytes(n - room - 12) + closed(START + bytes(room - 4), 0)) for capacity in (room - 1, room))


def questions(everything, *cases):
    """The lines that the program is asked, with their answers."""
    long = ((*one, asked(*one)) for one in longest(everything))
    yield from ((command(*one), wanted) for *one, wanted in itertools.chain(VECTORS, MORE, long, *cases))
    yield from ((command(way, capacity, b""), f"refused {number}") for way, capacity, number in TOO_LARGE)
    yield from (("why" + one, "bad command") for one in NO_COMMANDS)


def compared(asked_, program):
    """The program's answers, in few runs; how many."""
    done = 0
    while some := list(itertools.islice(asked_, BATCH)):
        said = answers([one for one, _ in some]) if program else []
        if said[:1] == ["bad command"]:
            sys.exit(f"test_why: no command of bin/replay: {some[0][0]}")
        for (one, wanted), told in zip(some, said):
            held(f"bin/replay: {one}", told, wanted)
        done += len(some)
    return done


# ---- wrong readings

REFUSALS = {name for name, why in WRONG.items() if "refusal" in vars(why)}  # of these no recording tells


def wrong_readings(cases, enough):
    """How many vectors and cases tell each, counted up to some."""
    told = {}
    for name, tell, one in [(name, tells, why) for name, why in WRONG.items()] + [(name, unlike, truths) for name, truths in WRONG_TRUTHS.items()]:
        told[name] = tell(one, VECTORS + MORE, ENOUGH), tell(one, [] if name in REFUSALS else cases, ENOUGH)
        if not told[name][0]:
            faults.append(f"{name}: no vector tells it from the right reading")
        if not told[name][1] and name not in REFUSALS and enough:
            faults.append(f"{name}: no recording that was drawn tells it from the right reading")
    return told


def missing():
    """What must be among the cases, and how often at least."""
    floors = {"kept": 100} | {(way, cause): 8 for way in WAYS for cause in CAUSES if (way, cause) != (2, "hidden")}
    floors |= {(way, "+".join(some)): 3 for way in WAYS for n in (2, 3) for some in itertools.combinations(ENDS, n)}
    # behind a hidden start or a cut message a new start follows
    floors |= {("behind", one, other): 1 for one in ("kept", *CAUSES[2:]) for other in ("kept", "noise", "room") if other != "noise" or one not in ("hidden", "cut")}
    return [f"{what}: {seen[what]}, and {n} are wanted" for what, n in floors.items() if seen[what] < n]


def main():
    given = [int(w) for w in sys.argv[1:] if w.isdigit()]
    if set(sys.argv[1:]) - {"--all", "--model"} - set(map(str, given)):
        sys.exit("test_why.py [N | --all] [--model]")
    everything, n = "--all" in sys.argv, ALL if "--all" in sys.argv else (given + [GATE])[0]
    held("vectors of the request", len(VECTORS), 20)
    faults.extend(vector_faults())
    r = random.Random(SEED)
    cases = [case for _ in range(n) for case in readings(*drawn(r))]
    behind = [case for one in cases for case in closely(*one)]
    faults.extend(missing() if n >= GATE else [])
    told = wrong_readings(cases[:MOST_TOLD], n >= GATE)
    small = (case for data in fewest(everything) for case in readings(data, SMALL))
    lines = compared(questions(everything, cases, behind, small), "--model" not in sys.argv)
    for one in sorted(faults, key=len)[:8]:
        print(one)
    if faults:
        sys.exit(f"{len(faults)} faults")
    print(f"wrong readings, and how many vectors and cases tell each, counted up to {ENOUGH}: " + ", ".join(f"{name} {a} {b}" for name, (a, b) in told.items()))
    causes = ", ".join(f"{seen[cause]:,} {cause}" for cause in (*KEPT, *CAUSES))
    print(f"why: {len(VECTORS)} vectors of the request and {len(MORE)} more; {seen['recordings'] - n:,} recordings of the fewest letters with {len(SMALL)} capacities in both ways, "
          f"{n:,} recordings drawn and {len(behind):,} times the rest of one; in {seen['parts']:,} parts exactly one length is true, as the events tell: {causes}; "
          f"{lines:,} lines {'compared by the readings alone' if '--model' in sys.argv else 'answered by bin/replay as the second reading says'}; "
          f"{len(WRONG)} wrong readings and {len(WRONG_TRUTHS)} wrong truths seen")


main()

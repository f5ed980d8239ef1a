"""The forms that the library has no call for, by the program of tests/forms, which runs without proof (`rt try`: on an interpreter, as far as its steps reach, and compiled with a check at each index, sum, cast and access): a decoder by value, in place, by slices and by slices in place, an Encoder by value and in place,
the reader of messages by value and through Parser; a whole message, an index, a lookup, a walk and what begins at a place by value; and why bytes were lost, by place and by a watch. Each answers a part of the library's stored vectors as stored, and `limits` every refusal with the record that it leaves. With --all every stored vector, in batches.
"""
import os, re, subprocess, sys, tempfile, time

sys.dont_write_bytecode = True
os.chdir(os.path.join(os.path.dirname(os.path.abspath(__file__)), ".."))
sys.path.append("scripts")
import wrong_answers
from programs import LIBRARY, VECTORS
import walk_reading, why_reading
from index_reading import VECTORS as INDEX
from walk_reading import EndMark, Leaf, List
from whole_reading import MORE, VECTORS as WHOLE

# Of the commands that say the same kinds of things so many short ones are asked in the gate. A run has a minute and may write a megabyte, so that a batch has few lines and little to write.
SHORT, EACH, LINES, ROOM, LONGEST = 500, 3, 2000, 1 << 18, 70000
SAID = re.compile(r"bad command|wrong buffer|refused \d+|noise|unfinished|hidden|cut|room|crc|misaligned \d|pads|payload|discarded|escape|memory|invalid \S+ \S+ \w+|reset|err \w+|none|(?:open|close|list) tid|entry name|end sig")
# what must be among the answers of the commands that have more than one form
PUSHED = ["payload", "discarded", "escape", "memory", " aligned ", " misaligned ", "reset"]
READ = ["open tid", "close tid", "list tid", "entry name", "end sig", "none", "err UnexpectedEOF", "err InvalidTlf", "err TlfMismatch", "err UnexpectedVariant", "err CrcMismatch", "err MsgEndMismatch"]
MUST = {"push": PUSHED, "push2": [*PUSHED[:4], "reset"], "packed": [*PUSHED, "refused 4", "refused 5"], "stream": ["none"], "events": READ, "places": READ, "why": [*why_reading.CAUSES, "-", "refused 4", "refused 5"]}
# the words before a command; without one it is asked by value, and `packed` over the packed form
PUSHES, TWO = ["", "lent ", "slice ", "slice_lent "], ["", "lent "]
FORMS = {"push": PUSHES, "push2": PUSHES, "packed": ["value ", *PUSHES], "stream": TWO, "events": TWO, "places": TWO, "why": ["", "slice "]}
TYPES = {walk_reading.STRING: "string", walk_reading.BOOLEAN: "boolean", walk_reading.INTEGER: "integer", walk_reading.UNSIGNED: "unsigned"}
bad, began = [], time.time()


def asked(pairs):
    """each command in each form that it has, if the line has room for the form's word"""
    return [(form + command, answer) for command, answer in pairs for form in FORMS.get(command.split(" ")[0], [""]) if not form or len(form + command) <= LONGEST]


def batches(pairs):
    part, size = [], 0
    for command, answer in pairs:
        if len(part) == LINES or part and size + len(answer) > ROOM:
            yield part
            part, size = [], 0
        part.append((command, answer))
        size += len(answer) + 1
    yield part


def held(copy, parts):
    """The program is built once, and each batch of commands must answer as stored. Gives how many batches did."""
    cases = os.path.join(copy, "cases")
    os.makedirs(cases)
    for k, pairs in enumerate(parts):
        for end, which in (("", 0), (".stdout", 1)):
            with open(os.path.join(cases, f"batch{k}{end}"), "w", encoding="utf-8", newline="") as f:
                f.write("".join(pair[which] + "\n" for pair in pairs))
    run = subprocess.run(["rt", "try", "--cases", cases], cwd=os.path.join(copy, "crates", wrong_answers.FORMS), capture_output=True, text=True)
    said = dict(re.findall(r"^case=batch(\d+) run=(.*) proved=no$", run.stdout + run.stderr, re.M))
    well = [k for k in range(len(parts)) if re.fullmatch(r"ended status=0 .*output=expected", said.get(str(k), ""))]
    bad.extend(f"batch {k}: {said.get(str(k), 'not run')}" for k in range(len(parts)) if k not in well)
    if run.returncode != 0 or len(well) < len(parts):
        bad.append(f"rt try, status {run.returncode}: " + (run.stdout + run.stderr)[-3000:].replace(copy + os.sep, ""))
    return len(well)


def begun(item):
    """What begins at a place, in the words of `item`."""
    if isinstance(item, EndMark):
        return f"end mark next {item.next}"
    if isinstance(item, List):
        return f"list {item.count} next {item.next}"
    return f"leaf {TYPES[item.kind]} {item.start} {item.len} next {item.next}" if isinstance(item, Leaf) else walk_reading.line(item)


def sample(pairs):
    """A few short commands of each kind of answer: which things are said, once or more often."""
    kinds = {}
    for command, answer in pairs:
        if max(len(command), len(answer)) <= SHORT:
            said = SAID.findall(re.sub(r"(invalid) \w+ \w+", r"\1 - -", answer))
            kinds.setdefault((command.split(" ")[0], *dict.fromkeys(said)), []).append((command, answer))
    return [some[len(some) * k // EACH] for some in kinds.values() for k in range(EACH) if len(some) * k // EACH != len(some) * (k - 1) // EACH]


given, stored = (open(os.path.join(VECTORS[LIBRARY], f), encoding="utf-8", newline="").read().split("\n") for f in ("stdin", "stdout"))
pairs = list(zip(given, stored))
if sys.argv[1:] not in ([], ["--all"]):
    sys.exit("test_forms [--all]")
chosen = asked(pairs if sys.argv[1:] else sample(pairs))
# a whole message by value, in a table of at most 64 numbers
whole = [(f"message {room} {at} {data.hex() or '-'}", answer) for room, at, data, answer in WHOLE + MORE if room <= 64 and at < 1 << 20 and len(data) < LONGEST // 2 - 20]
chosen += whole
# an index and a lookup, by value
index = [(command, answer) for command, answer in INDEX]
chosen += index
# a walk, and what begins at each place of its first bytes, by value; places of up to 16 digits
places = [(at, data, answer) for at, data, answer in walk_reading.VECTORS + walk_reading.MORE if at < 10**16]
walks = [(walk_reading.command(at, data), answer) for at, data, answer in places]
items = [(f"item {at} {data.hex() or '-'}", begun(walk_reading.item(data, at))) for first, data, _ in places for at in range(first, first + 3)]
chosen += walks + items
# why bytes were lost, by value: by place, and by a watch
chosen += asked([(why_reading.command(way, capacity, data), answer) for way, capacity, data, answer in why_reading.VECTORS + why_reading.MORE])
with tempfile.TemporaryDirectory() as tmp:
    wrong_answers.copied(tmp)
    layout = subprocess.run(["rt", "fmt"], cwd=os.path.join(tmp, "crates", wrong_answers.FORMS), capture_output=True, text=True)
    if layout.returncode != 0 or layout.stdout:
        bad.append("not in the layout of rt fmt, of tests/forms: " + (layout.stdout + layout.stderr)[-500:])
    well = held(tmp, list(batches([*chosen, ("limits", wrong_answers.limits()[:-1])])))
answers = {form + word: [a for c, a in chosen if c.startswith(form + word + " ")] for word in FORMS for form in FORMS[word]}
bad += [f"{words}: no answer has {what}" for words, some in answers.items() for what in MUST[words.split(" ")[-1]] if not any(what in a for a in some)]
counts = {word: sum(len(answers[form + word]) for form in FORMS[word]) for word in FORMS}
if not all(any(what in a for _, a in whole) for what in ("| rows 2 next", "refused 4 ", "refused 10 @", "refused 14 @", "refused 20 ")):
    bad.append("message: an answer of a kind that was to be there is missing")
if not all(any(a.startswith(what) for _, a in index) for what in ("rows 6 next", "refused 10 @", "refused 15 @", "refused 20 ", "refused 16", "found ", "none")):
    bad.append("index, lookup: an answer of a kind that was to be there is missing")
if not all(any(a.startswith(what) for _, a in walks + items) for what in ("bytes ", "err UnexpectedEOF 10 @", "err InvalidTlf TlfLengthOverflow 11 @", "err TooDeep 19 @16", "end mark next ", "leaf string ", "leaf boolean ", "leaf integer ", "leaf unsigned ", "list 0 next ")):
    bad.append("walk, item: an answer of a kind that was to be there is missing")
print("\n".join(bad))
print(f"{len(chosen)} answers in {time.time() - began:.0f} s ({', '.join(f'{n} {word}' for word, n in counts.items())}), and those of limits, in {well} batches; {len(bad)} faults")
sys.exit(1 if bad else 0)

"""Each wrong reading is a must-fail edit, or a theorem of a crate's proofs/Wrong.antt that has its name, and is told in docs/WRONG-READINGS.md in four lines and named in docs/STATEMENTS.md. The prover refused each edit at a fact and not at a shape: where the edits were tried (target/ci.log, what the last gate's prover said), and always in the gate, each has its line. A theorem rules out an outcome of the equation that a public function's contract has, or a fake of a claim that marks, places or written makes, or a claim that a part of Marks says is false of ours: its last premise is that; each premise before it speaks of a variable of the theorem, and whether they can all hold is for the reader to see. Each public function has two of them at least."""
import glob, os, re, sys

sys.dont_write_bytecode = True
os.chdir(os.path.join(os.path.dirname(os.path.abspath(__file__)), ".."))
import traits
told = open("docs/WRONG-READINGS.md", encoding="utf-8").read()
mapped = open("docs/STATEMENTS.md", encoding="utf-8").read()
# where the first error says one of these, only the proof's shape or its caller broke, or the prover came to no verdict
SHAPE = ["can be named from here", "was not admitted", "only because a proof file names what the edit took away", "only by a limit of the prover"]
bad, labels, logs = [], set(), 0
tried = "GATE" in os.environ or os.path.isfile("target/ci.log")
log = open("target/ci.log", encoding="utf-8", errors="replace").read() if os.path.isfile("target/ci.log") else ""
verdicts = dict(re.findall(r"^rt: must-fail (\w+/\w+)\.edit: (.*)$", log, re.M))
for edit in sorted(glob.glob("crates/*/must-fail/*.edit")):
    crate, label = edit.split(os.sep)[1], os.path.basename(edit)[:-5]
    if label in labels:
        bad.append(f"{edit}: a second edit of that name")
    labels.add(label)
    target = None
    for line in open(edit, encoding="utf-8").read().split("\n"):
        if line.startswith("file: "):
            target = open(f"crates/{crate}/{line[6:]}", encoding="utf-8").read()
        elif line.startswith("old: ") and target.count(line[5:]) != 1:
            bad.append(f"{edit}: its old text stands {target.count(line[5:])} times in the file")
    if not open(edit, encoding="utf-8").readline().startswith("# "):
        bad.append(f"{edit}: its first line does not name the mistake")
    section = re.search(r"^### %s\n(.*?)(?=^#|\Z)" % re.escape(label), told, re.M | re.S)
    lines = re.findall(r"^- (\w+):", section.group(1), re.M) if section else []
    if lines != ["Belief", "Bytes", "Answers", "Prover"]:
        bad.append(f"{label}: docs/WRONG-READINGS.md does not tell it in four lines")
    if f"`{label}`" not in mapped:
        bad.append(f"{label}: docs/STATEMENTS.md does not say which wrong program it is")
    said = verdicts.get(f"{crate}/{label}")
    if said is not None:
        logs += 1
        first = said.partition("refused, as it must be")[2]
        if not first.strip(": "):
            bad.append(f"{label}: the prover's log has no error: {said[:200]}")
        elif any(s in first for s in SHAPE):
            bad.append(f"{label}: refused at a shape: {first[:200]}")
    elif tried:
        bad.append(f"{label}: target/ci.log has no line of it")


def term(text):
    """An expression as nested lists: what stands in brackets is one list, and so is x.f of a name x."""
    stack = [[]]
    for word in re.findall(r"[(){};=]|[^\s(){};=]+", text):
        if word in "({":
            stack.append([])
        elif word in ")}":
            part = stack.pop()
            stack[-1].append(part[0] if word == ")" and len(part) == 1 else part)
        elif re.fullmatch(r"[a-z][\w']*(\.\w+)+", word):
            stack[-1].append(re.findall(r"^[\w']+|\.\w+", word))
        else:
            stack[-1].append(word)
    return stack[0]


def instance(pattern, one, names, bound):
    """Is `one` the pattern with something for each of these names, the same wherever a name stands twice?"""
    if isinstance(pattern, str):
        return bound.setdefault(pattern, one) == one if pattern in names else pattern == one
    return isinstance(one, list) and len(pattern) == len(one) and all(instance(p, o, names, bound) for p, o in zip(pattern, one))


def whole(side):
    return side[0] if len(side) == 1 else side


def promises(crate):
    """The equations of the crate's public functions: two sides, and the names for which anything may stand: parameters, answer, what is lent."""
    for path in glob.glob(f"crates/{crate}/src/*.rt"):
        for takes, said in re.findall(r'^\s*pub (?:extern "C" )?fn \w+(?:<.*?>)?\((.*?)\)(?: -> \S.*?)?\n\s*ensures \{ (.*?) \}$', traits.spelled(open(path, encoding="utf-8").read()), re.M | re.S):
            for old, new in [(r"\b(\w+)\.new\b", r"\1_left"), (r"\bhanded (\w+)\.entry\b", r"\1_part"), (r"\b(\w+)\.(?:old|now|entry)\b", r"\1"), (r"\bhanded result\b", "r"), (r"\bresult\.(\w+)", r"r_\1"), (r"\bself\.(\w+)", r"self_\1"), (r"\bresult\b", "r")]:
                said = re.sub(old, new, said)
            names = set(re.findall(r"(\w+)(?=:)", takes)) | set(re.findall(r"\bself\b", takes)) | set(re.findall(r"\b(?:\w+_left|\w+_part|r_\w+|self_\w+|r)\b", said))
            if said.count("≡") == 1:
                yield [whole(term(side)) for side in said.split("≡")], names


claims = {
    "marks": set(re.findall(r"^  pub [\w-]+ : ([A-Z]\w*) ", open("crates/marks/specs/Marks.antt", encoding="utf-8").read(), re.M)),
    "places": set(re.findall(r"^  pub [\w-]+ : .*→ ([A-Z]\w*) \(λ s\. ", open("crates/places/specs/Readers.antt", encoding="utf-8").read(), re.M)),
    "written": set(re.findall(r"^  pub [\w-]+ : ([A-Z]\w*) W$", open("crates/written/specs/Writers.antt", encoding="utf-8").read(), re.M)),
    "one_call": set(re.findall(r"^  pub [\w-]+ : ([A-Z]\w*) R$", open("crates/one_call/specs/Readers.antt", encoding="utf-8").read(), re.M)),
    "by_name": {"GoodIndexer", "JudgesTables", "FindsFirst"},
    "causes": {"RefusesWayFirst", "RefusesTooLarge", "AccountsExactly", "LeavesPushes", "WatchesAsCalled", "RefusesAtSlices"},
    "elements": {"MeasuresExactly", "RefusesExactly", "NineFirst", "EndsWithMessages", "ReadsItems", "SeesElements"},
}
# claims that nobody makes, and that a part of a record of Marks says are false of ours
refused = {said for path in glob.glob("crates/marks/specs/Fake*.antt") for said in re.findall(r"^  pub [\w-]+ : ([A-Z]\w* ours) → ⊥$", open(path, encoding="utf-8").read(), re.M)}
theorems = {}
for path in sorted(glob.glob("crates/*/proofs/Wrong.antt")):
    crate = path.split(os.sep)[1]
    if "pub mod Wrong" not in open(f"crates/{crate}/proofs/Lib.antt", encoding="utf-8").read().split("\n"):
        bad.append(f"{path}: proofs/Lib.antt does not list it")
    for law, said in re.findall(r"^([a-z][\w-]*) : (.*) → ⊥$", open(path, encoding="utf-8").read(), re.M):
        theorems[law.replace("-", "_")] = path
        *before, last = re.split(r" → (?![^()]*\))", said)
        sides = [whole(term(side)) for side in last.split("≡")]
        binders = re.findall(r"\((\w[\w ]*) : ([^()]*(?:\([^()]*\)[^()]*)*)\)", said)
        bad += [f"{path}: {law} names a premise: {name} : {what}" for name, what in binders if re.search("[≡<≤⊥]", what)]
        variables = set(" ".join(name for name, _ in binders).split())
        for premise in before:
            if not variables & set(re.findall(r"\w+", premise)):
                bad.append(f"{path}: {law} has a premise of no variable: {premise}")
        if crate in claims:
            if last.split(" ")[0] not in claims[crate] and last not in refused:
                bad.append(f"{path}: {law} is of no claim of {crate}: {last}")
        elif len(sides) != 2 or not any(all(instance(p, o, names, bound) for p, o in zip(promise, sides)) for promise, names in promises(crate) for bound in [{}]):
            bad.append(f"{path}: {law} is of no contract of the crate: {last}")
for name, path in theorems.items():
    if f"### {name}\n" not in told or f"`{name}`" not in mapped:
        bad.append(f"{path}: {name} is not told in docs/WRONG-READINGS.md and docs/STATEMENTS.md")
for name, text in re.findall(r"^### (\w+)\n(.*?)(?=^#|\Z)", told, re.M | re.S):
    if name not in labels and name not in theorems:
        bad.append(f"{name}: told in docs/WRONG-READINGS.md, and neither an edit nor a theorem has that name")
    if re.findall(r"^- (\w+):", text, re.M) != ["Belief", "Bytes", "Answers", "Prover"]:
        bad.append(f"{name}: docs/WRONG-READINGS.md does not tell it in four lines")
# Each public function has two wrong programs at least: those of its row, or of the functions that the row names. A function of crate in_place is told as `push` in place.
own, others, functions = {}, {}, set()
for path in sorted(glob.glob("crates/*/src/**/*.rt", recursive=True)):
    text, place = open(path, encoding="utf-8").read(), " in place" * (path.split(os.sep)[1] == "in_place")
    for m in re.finditer(r'^(\s*)pub (?:extern "C" )?fn (\w+)', text, re.M):
        of = re.findall(r"^impl(?:<.*?>)? (\w+)", text[: m.start()], re.M)
        functions.add((of[-1] + "::" if m.group(1).strip("\n") else "") + m.group(2) + place * (not m.group(2).endswith("_lent")))
    functions.update(f"{of}::parse" for of, _, _ in traits.functions(text))
for row in filter(None, mapped.split("\n| function | edits and theorems |\n")[-1].split("\n\n")[0].split("\n")[1:]):
    who, what = [c.strip() for c in row.strip("|").split("|")]
    words = ["".join(w) for w in re.findall(r"`([\w:<>]+)`( in place)?", what)]
    for name in ["".join(w) for w in re.findall(r"`([\w:<>]+)`( in place)?", who)]:
        own.setdefault(name, set()).update(w for w in words if w in labels or w in theorems)
        others.setdefault(name, set()).update(w for w in words if w in functions)
    bad += [f"docs/STATEMENTS.md: {w}, told of {who}, is no edit, theorem or public function" for w in words if w not in labels and w not in theorems and w not in functions]
for name in sorted(functions):
    ruled = own.get(name, set()).union(*(own.get(other, set()) for other in others.get(name, set())))
    if len(ruled) < 2:
        bad.append(f"docs/STATEMENTS.md: {name} has {len(ruled)} wrong programs, not two")
if not tried:
    print("skipped: the prover's logs of the edits, which the gate makes")
print("\n".join(bad))
print(f"{len(labels)} edits, {logs} logs read, {len(theorems)} theorems, {len(functions)} public functions, {len(bad)} faults")
sys.exit(1 if bad or not labels else 0)

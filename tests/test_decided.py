"""Mark 1's lists are whole and true to the code: `Decided` of each crate has a line for every public function of that crate, over its parameters, its answer and what it changes, and the line's equation is the one of its `ensures`; crate marks joins all but that of bench.
Both mean the same definitions, of the same files, by what each file imports. An impl of a trait is such a function, with the trait's `ensures` at its type (traits.py). So do the marks: each row of docs/STATEMENTS.md's way from a claim to the code names the definition that the operation of our machine in marks is made of, and every function of the row has a contract that cites that definition of that file."""
import glob, os, re, sys

sys.dont_write_bytecode = True
os.chdir(os.path.join(os.path.dirname(os.path.abspath(__file__)), ".."))
import traits


def plain(text):
    """An equation with lent things at the call by their names, at the return as MEMORY and LENT; without module names."""
    for old, new in [(r"\b(?:buf|out|table)\.new\b", "MEMORY"), (r"\b(?:d|e|self|bytes)\.new\b", "LENT"), (r"\bhanded (\w+)\.entry\b", r"\1"), (r"\b(\w+)\.(?:old|now|entry|bytes)\b", r"\1"), (r"\b(?:handed )?result\b", "r"), (r"\br\.memory\b", "MEMORY"),
                     (r"\br(?:\.answer)?\.lent\b", "LENT"), (r"\br\.answer(?:\.answer)?\b", "r"), (r"\b[A-Z]\w*\.(?=\w)", ""), (r"\((\w+)\)", r"\1"), (r"\((\w+)\)", r"\1")]:
        text = re.sub(old, new, text)
    return " ".join(text.split())


def outcome(takes, gives, ensures):
    """An export's outcome: its number with all that it may write beside it, the last outermost; the type, and the equation over it."""
    lent = re.findall(r"(\w+): &(?:'\w+ )?mut (\[[^]]*\]|\w+)", " ".join(takes.split()))
    if not gives:  # a call without a number has one thing to write
        return "List ℕ", ensures.replace(f"{lent[0][0]}.new", "r")
    kind, said = "ℕ", ensures.replace("reply result ", f"reply r{'.answer' * len(lent)} ")
    for i, (name, of) in enumerate(lent):
        kind = f"Beside {kind if i == 0 else f'({kind})'} {'ℕ' if of in ('usize', 'u8') else '(List ℕ)'}"
        said = re.sub(rf"\b{name}\.new\b", f"r{'.answer' * (len(lent) - 1 - i)}.lent", said)
    return kind, re.sub(r"\b(\w+)\.(?:old|now)\b", r"\1", said)


bad, seen = traits.faults(), 0
FN = re.compile(r'^\s*pub (?:extern "C" )?fn (\w+)(?:<.*?>)?\((.*?)\)(?: -> \S.*?)?\n\s*ensures \{ (.*?) \}$', re.M | re.S)


raw = {}  # the equations of the lines as they are written


def lines(crate):
    """The lines of the crate's `Decided`: parameters, type of the answer, equation. A line that goes on is set in deeper."""
    path = f"crates/{crate}/specs/Decided.antt"
    if crate == "marks" or not os.path.isfile(path):
        return {}
    text = re.sub(r"\n {4,}", " ", open(path, encoding="utf-8").read().split("pub record Decided ")[1])
    found = re.findall(r"^  pub (\w+) : (.*?)One \(λ \(r : (.*?)\)\. (.*)\)$", text, re.M)
    if len(found) != len(re.findall(r"^  pub ", text, re.M)):
        bad.append(f"{path}: a line of another form")
    raw.update({name: said for name, _, _, said in found})
    return {name: (set(" ".join(re.findall(r"\(«?(\w[\w ]*)»? :", over)).split()), answer, plain(said)) for name, over, answer, said in found}


def held(crate, paths):
    """Each public function of the crate against its line."""
    left = lines(crate)
    for path in paths:
        text = traits.spelled(open(path, encoding="utf-8").read())
        if len(FN.findall(text)) != len(re.findall(r'^\s*pub (?:extern "C" )?fn ', text, re.M)):
            bad.append(f"{path}: a public function with no equation")
        for name, takes, ensures in FN.findall(text):
            key = name if name in left else name + "_claim"  # where the definition that the line cites has the function's name
            if key not in left:
                bad.append(f"{path}: {name} has no line in the crate's Decided")
                continue
            over, answer, said = left.pop(key)
            if over != set(re.findall(r"(\w+)(?=:)", takes)) | set(re.findall(r"\bself\b", takes)):
                bad.append(f"{crate}: {key} is not over the parameters of {name}")
            # the bytes of a decoder are lent as a record is, beside the memory
            if crate == "sartrogheo" and "mut " in takes:
                wanted = outcome(takes, re.search(r"fn %s\b[^{]*? -> " % name, text), ensures)
                if (answer, " ".join(raw[key].split())) != (wanted[0], wanted[1]):
                    bad.append(f"{crate}: {key} says `{answer}`: `{raw[key]}`, and the contract `{wanted[0]}`: `{wanted[1]}`")
                yield name
                continue
            memory, kept = re.search(r"&mut \[u(?:8|32)\]", takes.replace("bytes: &mut [u8]", "")) is not None, re.search(r"&mut (?:Decoder|Encoder|self)|bytes: &mut", takes)
            if memory != ("With" in answer) or bool(kept) != ("Beside" in answer):
                bad.append(f"{crate}: what {name} changes is not beside its answer")
            if re.search(r"fn %s\b[^{]*? -> &" % name, text) and not (ensures.startswith("handed result ≡ part_at (handed ") and answer == "LentPart"):
                bad.append(f"{crate}: {name} hands back a part, and its place is not decided")
            if said != plain(ensures):
                bad.append(f"{crate}: {key} says `{said}`, and the contract `{plain(ensures)}`")
            yield name
    bad.extend(f"{crate}: no public function has the line {k}" for k in left)


PARAMETER = re.compile(r"\w+(?=:)")


def exported(crate):
    """Each function of the crate is exported by a static library beside it, of its name and `_c`: with the same parameters and answer, word for word the same clause, and a body that is that call. Gives how many are."""
    path = f"crates/{crate}_c/src/lib.rt"
    if not os.path.isfile(path):
        return 0
    one = re.compile(r'^pub (extern "C" )?fn (\w+)\((.*?)\)( -> \S+)?\n(    ensures \{ [^\n]* \})\n\{\n(.*?)^\}', re.M | re.S)
    exports, own = open(path, encoding="utf-8").read(), open(f"crates/{crate}/src/lib.rt", encoding="utf-8").read()
    flat = lambda takes: " ".join(takes.replace(",", ", ").split()).strip(", ")
    calls = {name: (flat(takes), gives, said) for _, name, takes, gives, said, _ in one.findall(own)}
    found = {}
    for extern, name, takes, gives, said, body in one.findall(exports):
        found[name] = (flat(takes), gives, said)
        call = f"{crate}::{name}({','.join(PARAMETER.findall(takes))})"
        if not extern or "".join(body.split()).rstrip(";").replace(",)", ")") != call:
            bad.append(f"{path}: {name} does more than to call that of {crate}")
    if len(found) != len(re.findall(r"\bfn ", exports)) or len(found) != len(re.findall(r"^#\[unsafe\(no_mangle\)\]$", exports, re.M)):
        bad.append(f"{path}: a function of another form, or one that is not exported")
    bad.extend(f"{path}: {name} is not exported as {crate} has it" for name in sorted(calls.keys() | found.keys()) if calls.get(name) != found.get(name))
    # both clauses mean the same definitions
    here, there = imported(exports), imported(own)
    bad.extend(f"{path}: {name}'s clause means other definitions than that of {crate}" for name, (_, _, said) in found.items() if meant(here, said) != meant(there, said))
    return len(found)


joined = open("crates/marks/specs/Decided.antt", encoding="utf-8").read().split("pub record Decided ")
for crate in sorted(c for c in os.listdir("crates") if not c.endswith("_c")):
    count = len(list(held(crate, sorted(glob.glob(f"crates/{crate}/src/**/*.rt", recursive=True)))))
    seen += count
    name = re.search(rf"^use Rattle\.{crate}\.specs\.Decided as (\w+)$", joined[0], re.M)
    if crate != "bench" and bool(count) != bool(name and f" : {name.group(1)}.Decided\n" in joined[1]):
        bad.append(f"{crate}: marks does not join its Decided")
    if name and count and ("pub record Views " in open(f"crates/{crate}/specs/Decided.antt", encoding="utf-8").read()) != (f" : {name.group(1)}.Views\n" in joined[0]):
        bad.append(f"{crate}: marks does not join its Views")
if re.search(r"^marks:.*\bbench\b", open("crates.txt", encoding="utf-8").read(), re.M):
    bad.append("crates.txt: marks stands on bench")
# ---- the definitions that are meant, by what a file imports
WORD = re.compile(r"(?<![.\w])(?:([A-Z]\w*)\.)?([a-zA-Z][\w?']*)(?![\w?']| =)")  # a projection or the name of a field is none


def read(path):
    return open(path, encoding="utf-8").read()


def imported(text):
    """What a name means in a file: the module that defines it, and its name there. A module's short name ends in a dot."""
    names = {}
    for path, given, short in re.findall(r"^(?:ghost )?use ([^\s{;]+?)(?:\.\{([^}]*)\})?(?: as (\w+))?;?$", text, re.M):
        names.update({other or name: (path, name) for name, _, other in (i.partition(" as ") for i in given.split(", ") if i)})
        names.update({short + ".": (path, "")} if short else {})
    return names


def meant(names, said):
    """The definitions that a text names, by the word for each."""
    found = {}
    for short, word in WORD.findall(said):
        target = (names[short + "."][0], word) if short + "." in names else names.get(word)
        found.update({word: target} if target else {})
    return found


def contracts():
    """Of every public function: crate, type or None, name, what its contract names, the contract."""
    for path in sorted(p for p in glob.glob("crates/*/src/**/*.rt", recursive=True) if not p.split(os.sep)[1].endswith("_c")):
        text = traits.spelled(read(path))
        names = imported(text)
        for m in FN.finditer(text):
            of = re.findall(r"^(?:impl(?:<.*?>)? (\w+)|\})", text[: m.start()], re.M)[-1:]
            yield path.split(os.sep)[1], (of[0] if of else "") or None, m.group(1), meant(names, m.group(3)), m.group(3)


CONTRACTS = list(contracts())
exports = sum(exported(crate) for crate in sorted(os.listdir("crates")))
for crate, _, name, cited, ensures in CONTRACTS:
    path = f"crates/{crate}/specs/Decided.antt"
    text = read(path) if os.path.isfile(path) else ""
    line = re.search(r"^  pub %s(?:_claim)? : .*?One \(λ \(r : .*?\)\. (.*?)\)$" % name, re.sub(r"\n {4,}", " ", text.split("pub record Decided ")[-1]), re.M)
    if not line:
        continue  # said above
    decided, words = meant(imported(text), line.group(1)), {w for _, w in WORD.findall(plain(ensures))}
    for w in sorted(words):
        if cited.get(w) != decided.get(w):
            bad.append(f"{crate}: {w} of {name}'s contract is of {cited.get(w, ['no import'])[0]}, and that of its line in Decided of {decided.get(w, ['no import'])[0]}")
    if not [w for w in words if w in cited and re.match(r"Rattle\.(?!std\.)", cited[w][0])]:
        bad.append(f"{crate}: the contract of {name} names no definition of specs/")


# ---- from a claim to the code
def module(path):
    return re.sub(r"^crates/(\w+)/specs/(\w+)\.antt$", r"Rattle.\1.specs.\2", path)


def made_of(path, said, seen):
    """The definitions of rules that a text of a claim is made of: what claims define on the way is opened. `after` only joins an answer, a record and the memory."""
    text = read(path)
    names, found = imported(text), set()
    own = {n: (module(path), n) for n in re.findall(r"^([a-z]\w*)\b[^\n:]* =", text, re.M)}
    for target in meant({**names, **own}, said).values():
        file = re.sub(r"^Rattle\.(\w+)\.specs\.(\w+)$", r"crates/\1/specs/\2.antt", target[0])
        if target in seen or not os.path.isfile(file) or target[1] == "after":
            continue
        seen.add(target)
        clauses = re.findall(r"^%s\b[^\n:]*? =(.*(?:\n[ \t].*)*)" % re.escape(target[1]), re.sub(r"--.*", "", read(file)), re.M)
        if read(file).startswith("-- claim:"):
            for c in clauses:
                found |= made_of(file, c, seen)
        elif clauses:
            found.add(target)
    return found


def operations(path):
    """Of each machine of ours in a file: its operations, and what each is made of."""
    text = re.sub(r"--.*", "", read(path))
    for name, body in re.findall(r"^(our\w*) =(.*(?:\n[ \t].*)*)", text, re.M):
        fields = re.findall(r"(?:[{;]\s*)(\w+) = ((?:[^{};]|\{[^{}]*\})*)", re.sub(r"^\s*record", "", body)) if "record" in body else [("", body)]
        for field, said in fields:
            if not re.fullmatch(r"\s*our\w*\s*", said):  # a machine of ours, told by itself
                yield (field, name), made_of(path, said, set())


machines = {key: made for path in sorted(glob.glob("crates/marks/specs/*.antt")) for key, made in operations(path)}
way, rows = {}, 0
table = read("docs/STATEMENTS.md").split("\n| operation of the claim | definition | function whose contract cites it | file |\n")[-1].split("\n\n")[0]
for row in table.split("\n")[1:]:
    operation, definition, functions, file = [c.strip() for c in row.strip("|").split("|")]
    rows += 1
    told = re.findall(r"`(\w+)`", operation)
    wanted = (module(file.strip("`")), definition.strip("`"))
    way.setdefault((told[0] if len(told) > 1 else "", told[-1]), set()).add(wanted)
    for of, name, place in re.findall(r"`(?:(\w+)::)?(\w+)`( in place)?", functions):
        found = [c for c in CONTRACTS if c[2] == name and (c[0] == "in_place" if place else c[1] == of if of else not c[1] and c[0] != "in_place" or name.endswith("_lent"))]
        if len(found) != 1 or wanted not in found[0][3].values():
            bad.append(f"docs/STATEMENTS.md: {operation}: the contract of {of + '::' if of else ''}{name}{place} does not cite {wanted[1]} of {file}")
for key in sorted(machines.keys() | way.keys()):
    if machines.get(key, set()) != way.get(key, set()):
        bad.append(f"marks: {' of '.join(k for k in key if k)} is made of {sorted(machines.get(key, set()))}, and docs/STATEMENTS.md says {sorted(way.get(key, set()))}")
if not rows or not machines:
    bad.append("docs/STATEMENTS.md: the way from a claim to the code is not found")
print("\n".join(bad))
print(f"{seen} public functions in Decided, {exports} exports of them, {len(machines)} operations of ours and {rows} rows of the way to the code, {len(bad)} faults")
sys.exit(1 if bad or not seen else 0)

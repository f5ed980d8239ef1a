"""Views map a name to itself, so that two fields exchanged in the code and in its view are not proved unseen. A view is a definition of a file labelled `view`, or one that a crate's `Views` names, with what it rests on.
Of a declared struct each field is used once, and gives the field of its own name (exceptions: ANSWERS, WORDS), or, where no record is written out, stands in its declared order. Of a declared variant the values are bound by their declared names and given on in their order; a case of a refusal has the number of its name, a case of so many bits that many bytes. Both are followed into a Result, an Option and an abbreviation of these; so is a pair, whose two parts have no names: each is used once, in their order.
And wherever a record is written out, in specs/ or in the code, no field is given the value that has another's name."""
import glob, os, re, sys

os.chdir(os.path.join(os.path.dirname(os.path.abspath(__file__)), ".."))
# an answer is document 01's number and values of the code's event or count
ANSWERS = ["event", "count"]
# document 01's words for what a decoder's record holds and a refusal's values are; the definitions that tie the record to the state
WORDS = {"stored": "fill", "reg": "crc", "idx": "crc_idx", "raw": "raw_msg_len", "read": "read_crc", "computed": "calculated_crc", "p": "num_padding_bytes"}
STATE = ["mem_of", "setup", "record_with"]
# a view that writes no record out, but goes through the cases of one field, which are read as such
BY_CASES = ["fault_of"]
# what is followed at least: fewer means that a form of the code is not seen here
FLOOR = {"views": 85, "fields": 60, "cases": 80, "pairs": 2}
PAIR = "×"
bad, fields, cases, pairs, literals = [], 0, 0, 0, 0
OF = {}  # the type of a struct's field, as it is written


def declared():
    """The structs of the code with their fields, the variants of its enums with their fields' names, None where they have none."""
    structs, variants = {}, {}
    for path in glob.glob("crates/*/src/**/*.rt", recursive=True):
        crate, text = path.split(os.sep)[1], re.sub(r"//.*", "", open(path, encoding="utf-8").read())
        for name, body in re.findall(r"^(?:pub )?struct (\w+)(?:<[^>]*>)? \{(.*?)^\}", text, re.M | re.S):
            structs[crate, name] = re.findall(r"(\w+):", body)
            OF.update({(crate, name, field): (crate, of) for field, of in re.findall(r"(\w+): (\w+),", body)})
        for name, body in re.findall(r"^(?:pub )?enum (\w+) \{(.*?)^\}", text, re.M | re.S):
            for case, given in re.findall(r"^    (\w+)((?: \{.*?\})?)(?:\([^)]*\))?,$", body, re.M | re.S):
                variants[crate, name, case] = re.findall(r"(\w+):", given) or None
    return structs, variants


def term(text):
    """Words, and what stands in brackets as a list that begins with its bracket; «data» is data, and r.f is the list of (r .f)."""
    stack = [[]]
    for word in re.findall(r"[(){};=]|[^\s(){};=]+", re.sub(r"[«»]", "", text)):
        if word in "({":
            stack.append([word])
        elif word in ")}":
            stack[-2].append(stack.pop())
        elif re.match(r"\.\w", word):  # fields of what stands in the brackets before
            stack[-1].append(["(", stack[-1].pop(), *re.findall(r"\.\w+", word)])
        elif re.fullmatch(r"[a-z][\w']*(\.\w+)+", word):
            stack[-1].append(["(", *re.findall(r"^[\w']+|\.\w+", word)])
        else:
            stack[-1].append(word)
    return stack[0]


def words(terms):
    """The words of terms in their order, without the names of fields that are given."""
    said = []
    for t, behind in zip(terms, terms[1:] + [""]):
        said += words(t[1:]) if isinstance(t, list) else [t] if "=" not in (t, behind) else []
    return said


def put(terms, given):
    """The terms with what is given for some names."""
    return [given.get(t, t) if isinstance(t, str) else [t[0]] + put(t[1:], given) for t in terms]


def record(body):
    """The fields of `record { .. }`, each with its terms, or None."""
    while len(body) == 1 and isinstance(body[0], list) and body[0][0] == "(":
        body = body[0][1:]
    if len(body) != 2 or body[0] != "record" or body[1][0] != "{":
        return None
    parts, found = [[]], {}
    for t in body[1][1:]:
        parts.append([]) if t == ";" else parts[-1].append(t)
    for p in parts:
        if p:
            found[p[0]] = p[2:]
    return found


class File:
    """A file of specs/: what its imports name of the code, and its definitions: type, clauses."""

    def __init__(self, path):
        self.path, self.text = path, re.sub(r"--.*", "", open(path, encoding="utf-8").read())
        self.is_view = open(path, encoding="utf-8").readline().startswith("-- view:")
        self.types, self.cases, self.imports = {}, {}, {}
        for where, given, short in re.findall(r"^use (Rattle\.(?!std\.)[^\s{]+?)(?:\.\{([^}]*)\})?(?: as (\w+))?$", self.text, re.M):
            crate, inner = re.match(r"Rattle\.(\w+)\.specs\.(.*)", where).groups()
            parts, items = inner.split("."), [i.partition(" as ") for i in given.split(", ") if i]
            if parts[0] != "declared":
                self.imports.update({other or name: (crate, parts[0], name) for name, _, other in items})
            elif len(parts) == 3:
                self.cases.update({other or name: (crate, parts[1], name) for name, _, other in items})
                if short:
                    self.cases.update({f"{short}.{c}": (k, n, c) for k, n, c in VARIANTS if (k, n) == (crate, parts[1])})
            else:
                self.types.update({other or name: (crate, name) for name, _, other in items})
                self.types.update({f"{short}.{parts[1]}": (crate, parts[1])} if short else {})
        joined = re.sub(r"\n[ \t]+", " ", self.text)
        self.type = dict(re.findall(r"^(?:abbrev |unfoldable |pub )*([a-zA-Z]\w*) : (.*)$", joined, re.M))
        self.clauses = {}
        for name, left, right in re.findall(r"^(?!pub |use )([a-zA-Z]\w*)((?: [^=\n]*)?) = (.*)$", joined, re.M):
            self.clauses.setdefault(name, []).append((term(left), term(right)))

    def arguments(self, name):
        """What a definition takes, without what is implicit."""
        parts = [[]]
        for t in term(self.type[name]):
            parts.append([]) if t == "→" else parts[-1].append(t)
        return [p for p in parts[:-1] if p and not (isinstance(p[0], list) and p[0][0] == "{")]

    def takes(self, name):
        """The declared types in what a definition takes."""
        return [t for part in self.arguments(name) for t in declared_in(self, part)]


STRUCTS, VARIANTS = declared()
FILES = {}
for path in sorted(glob.glob("crates/*/specs/*.antt")):
    if os.path.basename(path) != "Lib.antt":
        FILES[path.split(os.sep)[1], os.path.basename(path)[:-5]] = File(path)


def found(file, word):
    """The file of a definition that is named in a file, and its name there."""
    if word in file.type:
        return file, word
    crate, module, name = file.imports.get(word, (None, None, None))
    other = FILES.get((crate, module))
    return (other, name) if other and name in other.type else None


def meant(file, name, seen=()):
    """The file and the terms that a name of a type abbreviates, or None."""
    one = found(file, name) if name not in seen else None
    clauses = one[0].clauses.get(one[1], []) if one and one[0].type[one[1]].startswith("Type ") else []
    return (one[0], clauses[0][1]) if len(clauses) == 1 and not clauses[0][0] else None


def declared_in(file, terms, seen=()):
    """The declared types among terms of a type, those that an abbreviation stands for with them."""
    types = []
    for w in words(terms):
        more = meant(file, w, seen) if w not in file.types else None
        types += [file.types[w]] if w in file.types else declared_in(*more, (*seen, w)) if more else []
    return types


def opened(file, pattern, of, within=False):
    """What a pattern binds: names that stand for a declared struct or a pair, with whether they stand in a Result or an Option, and cases of declared enums with what is bound behind them."""
    while len(of) == 1 and isinstance(of[0], list) and of[0][0] == "(":
        of = of[0][1:]
    inner = pattern[1:] if isinstance(pattern, list) else [pattern]
    head = inner[0].split(".")[-1] if inner and isinstance(inner[0], str) else None
    more = meant(file, of[0]) if len(of) == 1 and isinstance(of[0], str) and of[0] not in file.types else None
    if inner and isinstance(inner[0], str) and inner[0] in file.cases:
        yield file.cases[inner[0]], inner[1:], within
        for part in inner[1:]:
            yield from opened(file, part, [], within)
    elif more:
        yield from opened(file, pattern, more[1], within)
    elif head in ("Ok", "Err", "Some") and len(inner) == 2:
        at = 2 if head == "Err" else 1
        yield from opened(file, inner[1], of[at : at + 1] if of and str(of[0]).split(".")[-1] in ("Result", "Option") else [], True)
    elif isinstance(pattern, str) and len(of) == 1 and isinstance(of[0], str) and file.types.get(of[0]) in STRUCTS:
        yield file.types[of[0]], pattern, within
    elif isinstance(pattern, str) and of[1:2] == [PAIR]:
        yield PAIR, pattern, within


def made(file, body):
    """The record that a body writes out, itself or by a definition such as `after`, which only puts its parameters into one; or None."""
    one = found(file, body[0]) if body and isinstance(body[0], str) else None
    if one and len(one[0].clauses.get(one[1], [])) == 1:
        left, right = one[0].clauses[one[1]][0]
        if record(right) and len(left) == len(body) - 1:
            return {f: put(v, dict(zip(left, body[1:]))) for f, v in record(right).items()}
    return record(body)


def of_struct(file, name, struct, x, right, whole, within):
    """Each field that comes from the struct comes from its own name; a view uses each once."""
    global fields
    given = made(file, right)
    used, parts = [], set()
    if whole and not given and not within and len(STRUCTS[struct]) > 1 and name not in BY_CASES:
        bad.append(f"{file.path}: {name} writes no record of {struct[1]} out, so that its fields can't be followed")
    for field, body in (given or {"": right}).items():
        said = words(body)
        from_x = []
        for i in [i for i in range(len(said) - 1) if said[i] == x and said[i + 1].startswith(".")]:
            field_of, part = said[i + 1][1:], said[i + 2][1:] if said[i + 2 : i + 3] and said[i + 2].startswith(".") else None
            opens = part in STRUCTS.get(OF.get((*struct, field_of)), [])  # a struct in a field is taken whole or part by part
            from_x.append(part if opens else field_of)
            if opens and (not given or len(from_x) == 1):
                parts.add(field_of)
        used += from_x[:1] if given else from_x
        if given and from_x:
            fields += 1
            if from_x[0] not in (field, WORDS.get(field)) and not (field == "answer" and from_x[0] in ANSWERS):
                bad.append(f"{file.path}: {name} gives {field} from {from_x[0]}")
    if within and not used and words(right).count(x) == 1:  # given on whole
        return
    own = [n for f in STRUCTS[struct] for n in (STRUCTS[OF[(*struct, f)]] if f in parts else [f])]
    fields += len(used) if within and not given else 0
    if whole and [x] not in (given or {}).values() and (used != own if within and not given else sorted(used) != sorted(own)):
        bad.append(f"{file.path}: {name} uses {', '.join(used)}, and {struct[1]} has {', '.join(STRUCTS[struct])}")


def of_pair(file, name, x, right):
    """The parts of a pair once, in their order, and the pair itself nowhere."""
    global pairs
    pairs += 1
    said = words(right)
    used = [part for w, part in zip(said, said[1:] + [""]) if w == x]
    if used != [".0", ".1"]:
        bad.append(f"{file.path}: {name} does not give the parts of its pair once, in their order")


def of_enum(file, name, case, bound, right):
    """The values of a case by their declared names, once and in their order; numbers and widths as the case is named."""
    global cases
    cases += 1
    said, names = words(right), [n if n not in file.type else "x" for n in VARIANTS[case] or []]
    bound = [b for part in bound for b in (words([part]) if isinstance(part, list) else [part]) if b not in file.cases and b.split(".")[-1] not in ("Some", "None")]
    if names and [WORDS.get(b, b) for b in bound] != names:
        bad.append(f"{file.path}: {name} binds {case[2]}'s {', '.join(names)} as {', '.join(map(str, bound))}")
    if [w for w in said if w in bound] != bound:
        bad.append(f"{file.path}: {name} does not give the values of {case[2]} once, in their order")
    for no in [w for w in said if re.fullmatch(r"\w+_no", w)]:
        if not no[:-3].replace("_", "").endswith(case[2].lower()):
            bad.append(f"{file.path}: {name} gives {case[2]} the number {no}")
    bits = re.fullmatch(r"[A-Z][a-z]*(8|16|32|64)", case[2])
    if bits and str(int(bits.group(1)) // 8) not in said:
        bad.append(f"{file.path}: {name} gives {case[2]} another width")


views = {(f, n) for f in FILES.values() if f.is_view for n in f.type}
for (crate, module), file in FILES.items():
    named = re.search(r"^pub record Views .*?(?=^\S|\Z)", file.text, re.M | re.S) if module == "Decided" and crate != "marks" else None
    views |= {found(file, w) for w in words(term(named.group(0).split("\n", 1)[1])) if found(file, w)} if named else set()
todo = list(views)
while todo:
    file, name = todo.pop()
    for _, right in file.clauses.get(name, []):
        new = {one for one in (found(file, w) for w in words(right)) if one and one[0].takes(one[1])} - views
        views |= new
        todo += new
for file in FILES.values():
    for name in file.type:
        for left, right in file.clauses.get(name, []) if (file, name) in views or name in STATE else []:
            for pattern, of in zip(left, file.arguments(name)):
                for what, bound, within in opened(file, pattern, of):
                    if what == PAIR:
                        of_pair(file, name, bound, right)
                    elif what in STRUCTS:
                        of_struct(file, name, what, bound, right, name not in STATE, within)
                    elif (file, name) in views:
                        of_enum(file, name, what, bound, right)


def written_out(text, head):
    """What stands in the braces behind each such head, without what stands in braces there."""
    for m in re.finditer(head + r" \{", text):
        depth, at = 1, m.end()
        while depth:
            depth += {"{": 1, "}": -1}.get(text[at], 0)
            at += 1
        body = text[m.end() : at - 1]
        while "{" in body:
            body = re.sub(r"\{[^{}]*\}", "", body)
        yield body


# no field has the value that is named after another field of the same record
for path in sorted(glob.glob("crates/*/specs/*.antt") + glob.glob("crates/*/src/**/*.rt", recursive=True)):
    antt = path.endswith(".antt")
    text = re.sub(r"--.*|[«»]" if antt else r"//.*", "", open(path, encoding="utf-8").read())
    for body in written_out(text, "record" if antt else r"(?<!struct )(?<!enum )(?<!impl )\b[A-Z]\w*"):
        given = re.findall(r"(\w+) = (\w+)\s*(?=;|$)" if antt else r"^\s*(\w+): (\w+)\s*$", body if antt else body.replace(",", "\n"), re.M)
        names = re.findall(r"(\w+) = ", body) if antt else re.findall(r"^\s*(\w+)(?::.*)?$", body.replace(",", "\n"), re.M)
        literals += bool(names)
        for field, value in given:
            if value != field and WORDS.get(value, value) != field and WORDS.get(value, value) in names:
                bad.append(f"{path}: the field {field} is given {value}")

print("\n".join(bad))
print(f"{len(views)} views, {fields} fields, {cases} cases, {pairs} pairs, {literals} records written out, {len(bad)} faults")
low = [f"{what}: {got} followed, of at least {FLOOR[what]}" for what, got in [("views", len(views)), ("fields", fields), ("cases", cases), ("pairs", pairs)] if got < FLOOR[what]]
print("\n".join(low), end="\n" if low else "")
sys.exit(1 if bad or low else 0)

"""Counts the places of docs/DESIGN-PASS.md in crates/*/src, as they stand here or at a commit: `python3 tools/forms.py [-l] [COMMIT]`; with -l each place is listed.
It looks for the older language's forms by their shape, so what it finds is where to look and not yet a fault:
1 enums that are an Option or a Result (a case for none or for a refusal beside cases with values), and fields and answers in which a number or a flag stands for none;
2 functions of one crate, or of two, whose text is the same but for names of types, cases, functions and numbers;
3 loops that count an index by hand (`while`);
4 functions that match a value to true and false alone, `if x { true }` and `{ false }` at a branch's end, and chains of `return true` or `return false`;
5 facts that stand in the clauses of three functions of a crate or more, and three parameters that go together through four functions of a crate or more;
6 a length that is a parameter or a field beside the buffer that it is of;
7 a number that says which step to run;
8 answers of proofs/, which are goals that the check did not find alone."""
import glob, os, re, subprocess, sys
from collections import defaultdict

os.chdir(os.path.join(os.path.dirname(os.path.abspath(__file__)), ".."))
LISTED = "-l" in sys.argv
COMMIT = next((a for a in sys.argv[1:] if not a.startswith("-")), None)
NONE = r"Absent|Nothing|NoEvent|Whole|Finished|Good|Invalid|None"
REFUSED = r"Refused|BadState|WrongBuffer|OutOfMemory|OutputTooShort|TooDeep|InputTooLong|PayloadTooLong|BadSpan|TooManyEntries"
VALUES = r"Is|Present|Event|Byte|Frame|Length|To|Good|Count|Lost|Kept|Payload|Entry|Leaf|Item"


def texts(pattern):
    """The files of a pattern, by crate and path, here or at the commit."""
    if COMMIT is None:
        return {p: open(p, encoding="utf-8").read() for p in sorted(glob.glob(pattern, recursive=True)) if p.split(os.sep)[2] != "out"}
    names = subprocess.run(["git", "ls-tree", "-r", "--name-only", COMMIT, "crates"], capture_output=True, text=True, check=True).stdout.split("\n")
    rx = re.compile("^" + re.escape(pattern).replace(r"\*\*/", "(?:.*/)?").replace(r"\*", "[^/]*") + "$")
    return {p: subprocess.run(["git", "show", f"{COMMIT}:{p}"], capture_output=True, text=True, check=True).stdout for p in names if rx.match(p)}


def functions(text):
    """Name, parameters, clauses and body of each function."""
    lines = text.split("\n")
    for i, line in enumerate(lines):
        m = re.match(r"^(\s*)(?:pub(?:\(crate\))? )?(?:extern \"C\" )?fn (\w+)", line)
        if not m:
            continue
        j = i
        while not re.match(r"^(.* )?\{$", lines[j]) or re.match(r"^\s*(requires|ensures)", lines[j]):
            if lines[j].rstrip().endswith(";"):
                break
            j += 1
        end = next((k for k in range(j, len(lines)) if lines[k] == m.group(1) + "}"), j)
        head = "\n".join(lines[i:j + 1])
        yield i + 1, m.group(2), head, "\n".join(lines[j + 1:end])


KEEP = {"match", "if", "else", "return", "let", "mut", "while", "for", "in", "as", "self", "input", "at", "next", "out"}
found = defaultdict(list)
shapes = defaultdict(list)
for path, text in texts("crates/**/*.rt").items():
    crate = path.split("/")[1]
    code = re.sub(r"//.*", "", text)
    for m in re.finditer(r"enum (\w+)(?:<[^>]*>)? \{(.*?)^\}", code, re.M | re.S):
        cases = re.findall(r"^    (\w+)", m.group(2), re.M)
        if any(re.fullmatch(NONE + "|" + REFUSED, c) for c in cases) and any(re.fullmatch(VALUES, c) for c in cases):
            found[1].append(f"{path}: enum {m.group(1)}")
    for m in re.finditer(r"^    (?:pub )?(present|more|has_\w+): (u64|bool),", code, re.M):
        found[1].append(f"{path}: field {m.group(1)}")
    for m in re.finditer(r"^//.*\b(?:0 for any other|stands for none|or NONE|or NO_NAME|0 if there is none|or the length)\b.*$", text, re.M):
        found[1].append(f"{path}:{text.count(chr(10), 0, m.start()) + 1}: {m.group(0)[:90]}")
    facts, groups = defaultdict(set), defaultdict(set)
    for line, name, head, body in functions(text):
        at = f"{path}:{line}: {name}"
        # 2
        shape = re.sub(r"\b\w+\b", lambda w: w.group(0) if w.group(0) in KEEP else ("n" if w.group(0)[0].isdigit() else "x"), body)
        if len(body.split("\n")) >= 3 and crate not in ("sartrogheo_c", "bench_c"):
            shapes[re.sub(r"\s+", " ", shape)].append(at)
        # 3
        for k, l in enumerate(body.split("\n")):
            if re.match(r"\s*while ", l):
                found[3].append(f"{at}: {l.strip()}")
        # 4
        arms = re.findall(r"=> ([^\n,{]+),", body)
        if re.match(r"\s*match ", body) and "return" not in body and arms and all(re.fullmatch(r"true|false|!?\w+|[\w.]+ == \w+", a) for a in arms) and {"true", "false"} & set(arms) and body.rstrip().endswith("}"):
            found[4].append(f"{at}: a match to true and false")
        elif len(re.findall(r"return (true|false);", body)) >= 2:
            found[4].append(f"{at}: a chain of returns")
        elif re.search(r"\{ true \} else|else \{ (true|false) \}|else \{\n\s*(true|false)\n", body):
            found[4].append(f"{at}: true or false at a branch")
        # 5
        for clause in re.findall(r"^\s*requires \{ (.*) \}$", head, re.M):
            for fact in re.split(r" × ", clause):
                if not re.search(r"Given|↔", fact):
                    facts[fact.strip("() ")].add(name)
        params = re.findall(r"(\w+): (&(?:mut )?\[[^\]]*\]|&?(?:mut )?[\w<>]+)", head.split("\n    requires")[0].split("\n    ensures")[0])
        for a in range(len(params) - 2):
            groups[tuple(params[a:a + 3])].add(name)
        # 6
        if re.search(r"(\w+): &(?:mut )?\[[^\]]*\], (len|n|end|count): usize", re.sub(r"\s+", " ", head)):
            found[6].append(at)
        # 7
        if re.search(r"\b(which|kind|state): (u8|u64|usize)\b", head) and re.search(r"match (which|kind|state)\b|if (which|kind|state) ==", body):
            found[7].append(at)
    found[5] += [f"{crate}: the fact {f} in {len(n)} functions" for f, n in sorted(facts.items()) if len(n) >= 3]
    best = {}
    for g, n in groups.items():
        if len(n) >= 4:
            best.setdefault(frozenset(n), g)
    found[5] += [f"{crate}: {', '.join(x for x, _ in g)} through {len(n)} functions" for n, g in best.items()]
    for m in re.finditer(r"\[0u8; \w+\];\n\s*let mut (n|len|room|count) = 0", code):
        found[6].append(f"{path}: an array with {m.group(1)} beside it")
for shape, places in shapes.items():
    if len(places) >= 2:
        found[2].append(f"{len(places)} alike: " + "; ".join(places))
answers = sum(len(re.findall(r"^pub [^:\n]+ : goal\.", t, re.M)) for p, t in (texts("crates/**/Answers.antt")).items())
lines = sum(t.count("\n") for t in texts("crates/**/Answers.antt").values())
for point in range(1, 8):
    print(f"{point}: {len(found[point])}")
    if LISTED:
        print("".join(f"    {x}\n" for x in found[point]), end="")
print(f"8: {answers} answers in {lines} lines")

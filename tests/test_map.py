"""docs/STATEMENTS.md is true to the files: each file that it names is there, and each definition or law of a row stands in that row's file; each name by which a row says what promises it, or where it was tried, is a function, a law, an edit or a file that is there, and an equation told behind a function names what its contract names; each refusal of document 01 and each clause of BadState has its row; README names every crate; the forms of docs/DECISIONS.md stand at their lines; docs/house.svg is the house of crates.txt; the layout is rt fmt's."""
import glob, os, re, shutil, subprocess, sys

sys.dont_write_bytecode = True
os.chdir(os.path.join(os.path.dirname(os.path.abspath(__file__)), ".."))
import traits
bad, rows = [], 0
text = open("docs/STATEMENTS.md", encoding="utf-8").read()
for path in sorted(set(re.findall(r"`(crates/[\w/.+-]+)`", text))):
    if not os.path.exists(path):
        bad.append(f"docs/STATEMENTS.md names {path}, which is not there")
for line in text.split("\n"):
    cells = [c.strip() for c in line.strip("|").split("|")]
    file = re.fullmatch(r"`(crates/[\w/.+-]+)`", cells[-1]) if line.startswith("|") else None
    if not file or not os.path.isfile(file.group(1)):
        continue
    rows += 1
    body = open(file.group(1), encoding="utf-8").read()
    names = re.findall(r"`([A-Za-z][\w'-]*)`", cells[1]) if len(cells) > 2 else []
    names += re.findall(r"(?:theorem|law) `([\w'-]+)`", line)
    for n in names:
        if not re.search(r"^\s*(?:unfoldable |abbrev )*(?:pub )?(?:record |data )?%s\s*(?::|\(|\{)" % re.escape(n), body, re.M):
            bad.append(f"docs/STATEMENTS.md: {n} is not defined in {file.group(1)}")
# ---- what promises a row

# the columns whose names are those of the code, of laws and theorems, of edits or of files
COLUMNS = ["definition", "promised by", "proved by", "claim", "contract", "tried at", "function", "function whose contract cites it", "edits and theorems", "file"]
# document 01's BadState, clause by clause
BAD_STATE = """fill over the recorded C; CRC index over fill; searching with fill not 0 or n over 7; waiting count outside 1 to 3; escape count over 3, or CRC index plus it over fill; raw length under 8 inside a frame;
Encoder position beyond its payload; Init over 8; either escape count over 4; End outside -3 to 8; reader place beyond the input; message start beyond the place; pending over 4,294,967,297"""
DEFINED = r"^(  +(?=pub ))?(?:unfoldable |abbrev |pub |record |data )*([^\s:({]+)\s*[:({]"
functions, laws, definitions = {}, {}, set()
limits = open("tests/expected/limits.txt", encoding="utf-8").read()
for path in glob.glob("crates/*/src/**/*.rt", recursive=True):
    body, of = open(path, encoding="utf-8").read(), ""
    crate, private = path.split(os.sep)[1], path.endswith("main.rt")
    for line, after in re.findall(r"^(.*(?:fn|const|static|impl|^\}).*)\n((?:\s*(?:requires|ensures) .*)?)", re.sub(r"\(\n(?:    .*\n)*?\s*\)", "()", body), re.M):
        impl, item = re.match(r"impl(?:<.*?>)? (\w+)", line), re.match(r'\s*(pub )?(?:extern "C" )?(?:fn|const|static) (\w+)', line)
        of = impl.group(1) if impl else "" if line == "}" else of
        if item and (item.group(1) or private):
            for name in {item.group(2), f"{crate}::{item.group(2)}", f"{of}::{item.group(2)}"}:
                functions.setdefault(name, []).append((crate, after))
    for called, _, said in traits.functions(body):
        functions.setdefault(f"{called}::parse", []).append((crate, said))
for path in glob.glob("crates/*/specs/*.antt") + glob.glob("crates/*/proofs/**/*.antt", recursive=True):
    for inner, name in re.findall(DEFINED, open(path, encoding="utf-8").read(), re.M):
        laws.setdefault(name, set()).add(path)
        definitions |= {name} if not inner and "/specs/" in path else set()
# fields and parameters, which an equation may name, too
written = {w for path in glob.glob("crates/*/src/**/*.rt", recursive=True) for w in re.findall(r"\b(\w+): ", open(path, encoding="utf-8").read())}
edits = {os.path.basename(e)[:-5] for e in glob.glob("crates/*/must-fail/*.edit")}
edits |= {law.replace("-", "_") for law, paths in laws.items() if any(p.endswith("/Wrong.antt") for p in paths)}


def missing(cell):
    """What a cell names that is not there."""
    last = None  # the contracts of the function that was named last
    for name, behind in re.findall(r"`([^`]+)`([^`]*(?:`(?:crates|replay)/[^`]+`)?)", cell):
        file = re.match(r" (?:of|in) `(crates/[^`]+)`", behind)
        if re.fullmatch(r"(?:crates|docs|tests|captures|bin|replay|specs|proofs)/[\w/.+-]+", name):
            if not os.path.exists(name) and not glob.glob("crates/*/" + name):
                yield name
        elif behind.startswith(" lines of"):
            if not re.search(r"^%s " % name, open(re.search(r"`([^`]+)`", behind).group(1)).read(), re.M):
                yield name
        elif " " in name:
            said = set(re.findall(r"(?<![.\w])[a-z]\w*(?! =)\b", name))
            yield from sorted(f"{w} (of {name})" for w in said if "_" in w and w not in definitions and w not in laws and w not in written)
            words = said & definitions
            if last is not None and not any(words <= set(re.findall(r"\w+", said)) for _, said in last):
                yield f"{name} (no contract of that function)"
        elif name in functions and not (file and file.group(1).endswith(".antt")):
            last = [f for f in functions[name] if f[0] == "in_place" or not behind.startswith(" in place")]
            if not last:
                yield f"{name} in place"
        elif file and file.group(1).endswith(".antt"):
            if file.group(1) not in laws.get(name, ()):
                yield f"{name} of {file.group(1)}"
        elif name not in laws and name not in edits and not (name[0] == "_" and any(f.endswith(name) for f in functions)):
            yield name


promised, refusals, clauses = 0, [], []
for table in re.findall(r"(?:^\|.*\n)+", text, re.M):
    lines = [[c.strip() for c in line.strip("|").split("|")] for line in table.strip().split("\n")]
    for cells in lines[2:]:
        refusals += [cells[0]] if lines[0][0] == "no." else []
        clauses += [cells[0].strip('"')] if lines[0][0] == "BadState" else []
        for column, cell in zip(lines[0], cells):
            if column == "run":
                bad += [f"docs/STATEMENTS.md: {words} does not stand in tests/expected/limits.txt" for words in re.findall(r"`([^`]+)`", cell) if not re.search(r"^%s, .*: 4;" % re.escape(words), limits, re.M)]
            elif column in COLUMNS:
                promised += len(re.findall(r"`[^`]+`", cell))
                bad += [f"docs/STATEMENTS.md: {name} is not there ({column} of {cells[0][:60]})" for name in missing(cell)]
bad += [f"docs/STATEMENTS.md: the refusals have {refusals.count(str(n))} rows of {n}" for n in range(1, 17) if refusals.count(str(n)) != 1]
bad += [f"docs/STATEMENTS.md: BadState has no row of its clause {c}" for c in BAD_STATE.replace("\n", " ").split("; ") if c not in clauses]
readme = open("README.md", encoding="utf-8").read()
for line in open("crates.txt", encoding="utf-8"):
    name = " ".join(line.split("#")[0].split(":")[0].split()[:1])  # a static library has a word behind its name
    if name and f"| `{name}` |" not in readme:
        bad.append(f"README.md's map lacks {name}")
for path in ["NOTICE", "docs/DECISIONS.md", "docs/DIFFERENCES.md", "docs/WRONG-READINGS.md"]:
    if not os.path.isfile(path):
        bad.append(f"{path} is missing")
forms = re.findall(r"`(crates/[\w/.]+):(\d+)` \(`([^`]+)`\)", open("docs/DECISIONS.md", encoding="utf-8").read())
for path, line, what in forms:
    if what not in open(path, encoding="utf-8").read().split("\n")[int(line) - 1]:
        bad.append(f"docs/DECISIONS.md: {what} does not stand at {path}:{line}")
if not forms:
    bad.append("docs/DECISIONS.md: no form has a file and a line")
house = subprocess.run([sys.executable, "-B", "docs/house.py", "--check"], capture_output=True, text=True)
if house.returncode != 0:
    bad.append(house.stderr.strip()[-400:])
kit = os.environ.get("RATTLE_HOME") or os.path.dirname(os.path.dirname(os.path.realpath(shutil.which("rt"))))
laid = [path for part in ("src/**/*.rt", "specs/**/*.antt", "proofs/**/*.antt") for path in glob.glob("crates/*/" + part, recursive=True)]
fmt = subprocess.run([os.path.join(kit, "bin/rattle"), "fmt", "--check", *sorted(laid)], capture_output=True, text=True)
if fmt.returncode != 0:
    bad.append("rattle fmt --check: " + (fmt.stdout + fmt.stderr).strip()[-400:])
print("\n".join(bad))
print(f"{rows} rows of the map read, {promised} names in its tables, {len(bad)} faults")
sys.exit(1 if bad or not rows or not promised else 0)

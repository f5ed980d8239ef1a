"""Each file of specs/ says in its first line which of five kinds it is. README's figures and reading order are true: what the contracts of all crates but bench rest on is rule and view alone, what the claims rest on is rule, view and claim, and each file of the order stands behind those that it uses."""
import glob, os, re, sys

sys.dont_write_bytecode = True
os.chdir(os.path.join(os.path.dirname(os.path.abspath(__file__)), ".."))
import traits
KINDS = ["rule", "view", "claim", "check", "cut"]
# what is refused, 1 to 16 of document 01 and 17 to 24 of document 02
NUMBERS = """payload_too_long encode_out_of_memory decoder_out_of_memory bad_state wrong_buffer discarded_bytes invalid_esc invalid_message
input_too_long unexpected_eof invalid_tlf tlf_mismatch unexpected_variant crc_mismatch msg_end_mismatch bad_span
wrong_number output_too_short too_deep too_many_entries cut_short bad_number unknown_version hidden_row""".split()
WORD = re.compile(r"(?:[A-Za-z]\w*\.)?[^\s(){}.;,«»\[\]]+")
bad = []


def module(path):
    """The file that a module's name means, or None for one that isn't of specs/."""
    m = re.match(r"Rattle\.(?!std\.)(\w+)\.specs\.([A-Z]\w*)$", path)
    return f"{m.group(1)}/{m.group(2)}" if m else None


def scope(text):
    """What each imported name is: a file of specs/ and the name there; and the files imported whole."""
    names, whole = {}, {}
    for path, given, short in re.findall(r"^(?:ghost )?use ([^\s{;]+?)(?:\.\{([^}]*)\})?(?: as (\w+))?;?$", text, re.M):
        file = module(path)
        if file and short:
            whole[short] = file
        for item in given.split(", ") if file and given else []:
            name, _, other = item.partition(" as ")
            names[other or name] = (file, name)
    return names, whole


def items(text):
    """The top-level definitions: the name, what else it brings (constructors), its text without comments."""
    found, owner = {}, {}
    for line in re.sub(r"--.*", "", text).split("\n"):
        if not line.strip() or line.startswith(("use ", "pub use ")):
            continue
        if not line[0].isspace():
            words = [w for w in line.split() if w not in ("pub", "abbrev", "unfoldable", "record", "data")]
            name = words[0]
            found.setdefault(name, [])
        elif re.match(r"  \S+ : ", line) and found[name] and re.search(r"\bdata\b", found[name][0]):
            owner[line.split()[0]] = name
        found[name].append(line)
    return {n: "\n".join(l) for n, l in found.items()}, owner


files, kind, lines = {}, {}, {}
for path in sorted(glob.glob("crates/*/specs/*.antt")):
    if os.path.basename(path) == "Lib.antt":
        continue
    text = open(path, encoding="utf-8").read()
    file = path.split(os.sep)[1] + "/" + os.path.basename(path)[:-5]
    m = re.match(r"-- (\w+): \S", text)
    if not m or m.group(1) not in KINDS:
        bad.append(f"{path}: its first line says none of {', '.join(KINDS)}")
        continue
    kind[file] = m.group(1)
    lines[file] = len([l for l in text.split("\n") if l.strip() and not l.startswith(("use ", "pub use ")) and not l.strip().startswith("--")])
    files[file] = (scope(text), items(text), {module(u) for u in re.findall(r"^use ([^\s{]+?)(?:\.\{| as |$)", text, re.M)} - {None})


def meant(text, names, whole, own=None):
    """The definitions that a piece of text names. In `r.f` both words count, as they do apart."""
    for said in WORD.findall(text):
        head, _, name = said.partition(".")
        for word in [said] if not name or head in whole else [head, name]:
            target = (whole[head], name) if name and head in whole else names.get(word)
            if own and word in files[own][1][0]:
                target = (own, word)
            elif own and word in files[own][1][1]:
                target = (own, files[own][1][1][word])
            if target and target[0] in files:
                yield target[0], files[target[0]][1][1].get(target[1], target[1])


def reached(start, but=""):
    """All definitions that these rest on, but for those of a kind."""
    seen, todo = set(), list(start)
    while todo:
        at = todo.pop()
        if at not in seen and at[1] in files[at[0]][1][0] and kind[at[0]] != but:
            seen.add(at)
            todo += meant(files[at[0]][1][0][at[1]], *files[at[0]][0], at[0])
    return seen


FN = re.compile(r'^\s*pub (?:extern "C" )?fn (\w+)[^{]*?\n\s*ensures \{ (.*?) \}$', re.M | re.S)
contracts, everywhere, cited = 0, set(), set()  # cited: what private functions have, a view of their answers as well
for path in sorted(glob.glob("crates/*/src/**/*.rt", recursive=True)):
    text = traits.spelled(open(path, encoding="utf-8").read())
    crate, (names, whole) = path.split(os.sep)[1], scope(text)
    cited |= set(meant(re.sub(r"^ghost .*", "", text, flags=re.M), names, whole))
    for name, said in FN.findall(text):
        contracts += 1
        rests = reached(meant(said, names, whole))
        everywhere |= rests if crate not in ("bench", "bench_c") else set()
        for file in sorted({f for f, _ in rests if kind[f] not in ("rule", "view") and f.split("/")[0] != "bench" or kind[f] == "cut"}):
            bad.append(f"{path}: the contract of {name} rests on {file}, a {kind[file]}")
claims = reached((f, n) for f in files if kind[f] == "claim" and f != "marks/Marks" for n in files[f][1][0])
for file in sorted({f for f, _ in claims if kind[f] in ("check", "cut")}):
    bad.append(f"{file}: a {kind[file]}, and a claim rests on it")
marks = reached([("marks/Marks", "Marks")], "check")
for file in sorted(f for f in files if kind[f] in ("rule", "view")):
    named = everywhere | marks | claims | (cited if kind[file] == "view" else set())
    unused = [n for n in files[file][1][0] if (file, n) not in named]
    if file == "refusals/Numbers":  # document 02's numbers have their names before they have their functions
        given = {n: int(v) for n, v in re.findall(r"^(\w+_no) = (\d+)$", "\n".join(files[file][1][0].values()), re.M)}
        bad += [f"{file}: {n}_no should be {k}" for k, n in enumerate(NUMBERS, 1) if given.get(n + "_no") != k] + [f"{file}: {n} is no number of the documents" for n in given if n[:-3] not in NUMBERS]
        waiting = [n for n in unused if n[:-3] in NUMBERS[16:]]
        unused = [n for n in unused if n not in waiting]
    bad += [f"{file}: nothing rests on {n}" for n in unused]

readme = open("README.md", encoding="utf-8").read()
said = re.search(r"\n## What a reader must believe\n(.*?)\n## ", readme, re.S).group(1)
for k in KINDS:
    row = f"| {k} | {sum(lines[f] for f in files if kind[f] == k):,} | {list(kind.values()).count(k)} |"
    if row not in said:
        bad.append(f"README.md: the row should begin {row}")
order = re.findall(r"`(\w+/[A-Z]\w*)`", said[said.index("\n1. "):])
for n, file in enumerate(order):
    if file not in files or file in order[:n]:
        bad.append(f"README.md: the order has {file}, which is no file of specs/ or stands twice")
    else:
        bad += [f"README.md: {file} stands before {u}, which it uses" for u in sorted(files[file][2]) if u in order[n:] and u != file]
needed = {f for f in files if kind[f] in ("rule", "view")} | {f for f, _ in marks}
bad += [f"README.md: the order lacks {f}" for f in sorted(needed - set(order))] + [f"README.md: the order has {f}, on which nothing rests" for f in sorted(set(order) - needed)]
unread = sum(files["refusals/Numbers"][1][0][n].count("\n") + 1 for n in waiting)
for figure in [f"{sum(lines[f] for f in files if kind[f] in ('rule', 'view')) - unread:,} lines of rule and view", f"{unread} more name" if unread else "", f"{sum(lines[f] for f in needed if kind[f] == 'claim'):,} lines of claim"]:
    if figure not in " ".join(said.split()):
        bad.append(f"README.md: it should say {figure}")

print("\n".join(bad))
print(f"{contracts} contracts, {len(files)} files, {len(bad)} faults")
sys.exit(1 if bad or not contracts else 0)

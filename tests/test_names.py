"""One name means one thing: no two files of specs/ and proofs/ give one name to a definition, a constructor or a public law, but for what every crate has (Decided and Views, and their proofs); and a function of a library that has the name of a definition is proved to be that."""
import collections, glob, os, re, sys

os.chdir(os.path.join(os.path.dirname(os.path.abspath(__file__)), ".."))
EVERYWHERE = {"Decided", "Views", "decided", "views"}
found, private, defined, bad = collections.defaultdict(set), collections.defaultdict(set), set(), []
for path in sorted(glob.glob("crates/*/specs/**/*.antt", recursive=True) + glob.glob("crates/*/proofs/**/*.antt", recursive=True)):
    if re.search(r"/proofs/.*/(Invariants|Answers|Proof)\.antt$", path):  # what is proved of one function, named after it and its goals
        continue
    of = module = None  # the data type whose constructors follow, and whether laws of a module do
    for line in open(path, encoding="utf-8"):
        top = re.match(r"((?:unfoldable |abbrev |pub )*)(record |data )?([^\s:({]+)\s*[:({]", line)
        constructor = re.match(r"  ([^\s:({]+) : ", line) if of else None
        if line[:1].strip():
            of, module = top.group(3) if top and top.group(2) == "data " else None, line.startswith("module ")
        law = re.match(r"  +pub ([^\s:({]+) : ", line) if module else None
        if top and (top.group(1) or top.group(2)):
            found[top.group(3)].add(path)
            if "/specs/" in path or top.group(1).strip() != "pub" or top.group(2):
                defined.add(top.group(3))
        elif law:
            found[law.group(1)].add(path)
        elif constructor:
            found[constructor.group(1)].add(f"{path} ({of})")
        elif top and top.group(3) not in ("use", "unfolding", "module", "--"):
            private[top.group(3)].add(path)
for name, paths in sorted(found.items()):
    paths = paths | {f"{p} (private)" for p in private[name] if p not in paths}
    if len(paths) > 1 and name not in EVERYWHERE:
        bad.append(f"{name}: {', '.join(sorted(paths))}")

# the code and the definitions write names alike, but for two whose name is a parameter's or a field's in the definition's own file
APART = {"is_within": "span_within", "look_up": "look_up_in"}
FN = re.compile(r"^\s*(?:pub )?fn (\w+)[^{]*?\n((?:\s*(?:requires|ensures) \{.*\}\n)+)", re.M)
functions = 0
for path in sorted(glob.glob("crates/*/src/lib.rt")):
    for name, said in FN.findall(open(path, encoding="utf-8").read()):
        functions += 1
        one = APART.get(name, name)
        if one in defined and not re.search(r"(?<![\w.])%s(?!\w)" % re.escape(one), said):
            bad.append(f"{path}: {name} has the name of a definition that its contract does not cite")
print("\n".join(bad))
print(f"{len(found)} names, {functions} functions, {len(bad)} faults")
sys.exit(1 if bad or not found or not functions else 0)

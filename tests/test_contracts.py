"""No public function relies on its caller, and each has a statement on what it answers; functions are short, and each of a library has its line; no file names a machine's path or a registry."""
import glob, os, re, subprocess, sys

os.chdir(os.path.join(os.path.dirname(os.path.abspath(__file__)), ".."))
bad, count = [], 0
PROGRAMS = [c for c in os.listdir("crates") if os.path.isfile(f"crates/{c}/src/main.rt")]
FN = re.compile(r'^(\s*)(pub\s+|pub\(crate\)\s+)?(?:extern\s+"C"\s+)?fn\s+(\w+)')
for path in sorted(glob.glob("crates/*/src/**/*.rt", recursive=True)):
    lines = open(path, encoding="utf-8").read().split("\n")
    for i, line in enumerate(lines):
        m = FN.match(line)
        if not m:
            continue
        clauses, j = [], i
        while not (lines[j].strip() == "{" or (lines[j].rstrip().endswith("{") and not re.match(r"\s*(requires|ensures)\b", lines[j]))):
            clauses += re.findall(r"^\s*(requires|ensures)\b", lines[j])
            j += 1
        end = next(k for k in range(j, len(lines)) if lines[k] == m.group(1) + "}")
        if end - j > 40:
            bad.append(f"{path}:{i + 1}: {m.group(3)} has {end - j} lines")
        above = i - 1
        while lines[above].strip().startswith("#["):
            above -= 1
        if path.split(os.sep)[1] not in PROGRAMS and not lines[above].strip().startswith("//"):
            bad.append(f"{path}:{i + 1}: {m.group(3)} has no line that says which function of the Rust it is, or why it is there")
        if m.group(2) and m.group(2).startswith("pub "):
            count += 1
            if "requires" in clauses:
                bad.append(f"{path}:{i + 1}: {m.group(3)} is public and has a requires")
            if "ensures" not in clauses:
                bad.append(f"{path}:{i + 1}: {m.group(3)} is public and has no ensures")
files = subprocess.run(["git", "ls-files", "-co", "--exclude-standard"], capture_output=True, text=True).stdout.split("\n")
for path in files:
    if path and os.path.isfile(path):
        text = open(path, encoding="utf-8", errors="replace").read()
        for m in re.finditer(r"(?<![\w.])/(?:work|root|home|opt)/\w+|crates\.io|pypi\.org|npmjs|index\.golang", text):
            if path != "tests/test_contracts.py":
                bad.append(f"{path}: names {m.group(0)}")
print("\n".join(bad))
print(f"{count} public functions, {len(bad)} faults")
sys.exit(1 if bad or not count else 0)

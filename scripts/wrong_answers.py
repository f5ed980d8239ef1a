"""The wrong readings of docs/WRONG-READINGS.md: what is told of each, and both answers to the command that tells it from ours. Ours are those of the library and the proved programs; the wrong one is that of
the edited code, built and run without proof by `rt try`: on an interpreter, as far as its steps reach, and compiled with a check at each index, sum, cast and access. bin/wrong, tests/test_answers.py and tests/test_forms.py share this."""
import glob, os, re, shutil, subprocess, tempfile
import clink, programs

ROOT = programs.ROOT
# the one form of the line
LINE = re.compile(r"^Answers: `([^`]+)` gives `([^`]+)`; the wrong one `([^`]+)`\.$")
# The program of tests/forms, and the crates that it asks; it reads lines and writes fields as replay_parts does.
FORMS = "forms"
ASKED = "crc_x25 encoder decoder decoder_slice in_place packed losses refusals tlf octet_string value walk common message streaming parser whole index bench"
SHARED = ["line.rt", "fields.rt"]
# Who answers a command, by its first word. A command that begins with no such word is told in words, and nothing runs it.
PROGRAMS = programs.ANSWERS | dict.fromkeys(["limits", "chunks", "memory", "long_sum"], FORMS) | {"smlcat": "smlcat"}


def told(name):
    """the lines of docs/WRONG-READINGS.md: belief, bytes, answers, prover"""
    text = open(os.path.join(ROOT, "docs/WRONG-READINGS.md"), encoding="utf-8").read()
    m = re.search(r"^### %s\n(.*?)(?=^#|\Z)" % re.escape(name), text, re.M | re.S)
    return [l[2:] for l in m.group(1).split("\n") if l.startswith("- ")] if m else []


def answers(name):
    """the command, our answer and the wrong one, as they are told, or None"""
    found = [m.groups() for m in map(LINE.match, told(name)) if m]
    return found[0] if len(found) == 1 else None


def edits():
    """the edits, by name: the crate, and the file"""
    found = {}
    for path in sorted(glob.glob(os.path.join(ROOT, "crates/*/must-fail/*.edit"))):
        found[os.path.basename(path)[:-5]] = (path.split(os.sep)[-3], path)
    return found


def changes(edit):
    """what an edit changes: file, old text, new text"""
    target = old = None
    for line in open(edit, encoding="utf-8").read().split("\n"):
        if line.startswith("file: "):
            target = line[6:]
        elif line.startswith("old: "):
            old = line[5:]
        elif line.startswith("new:"):
            yield target, old, line[4:].removeprefix(" ")


def replace(path, old, new):
    text = open(path, encoding="utf-8").read()
    if text.count(old) != 1:
        raise ValueError("the edit no longer fits " + path)
    open(path, "w", encoding="utf-8").write(text.replace(old, new))


def program_of(command):
    return PROGRAMS.get(command.split(" ")[0])


def can_run(name):
    """Is it an edit of code, and not of a definition or a promise alone, whose command a program knows?"""
    changed = changes(edits()[name][1]) if name in edits() else []
    return any(target.startswith("src/") and "≡" not in old for target, old, _ in changed) and program_of(answers(name)[0]) is not None


def input_of(command):
    """what the program that answers reads; `limits` has one answer to all that is asked of it"""
    word, _, rest = command.partition(" ")
    return bytes.fromhex(rest) if word == "smlcat" else b"limits\n" if word == "limits" else command.encode() + b"\n"


def answer_in(command, wrote):
    """the answer in what the program wrote: its lines, or of `limits` what stands behind the words of the command"""
    word, _, rest = command.partition(" ")
    lines = [l.strip() for l in wrote.split("\n")[:-1]]
    if word == "limits":
        lines = [l[len(rest) + 1 :].strip() for l in lines if l.startswith(rest + ":")]
    return "; ".join(l for l in lines if l) or "nothing"


def built(name):
    """the path of what answers, as it was built last, or None"""
    path = clink.REPLAY if name == programs.LIBRARY else programs.built(name)
    return path if os.path.exists(path) else None


def ours(commands):
    """Our answers, by command: the library's and the proved programs', as they were built last. What isn't built, and the program of tests/forms, is run as the code stands."""
    found = {}
    for name, alone in dict.fromkeys((program_of(c), takes_all(c)) for c in commands):
        asked = [c for c in commands if (program_of(c), takes_all(c)) == (name, alone)]
        for given in dict.fromkeys(map(input_of, asked)) if alone else [b"".join(map(input_of, asked))]:
            part = [c for c in asked if not alone or input_of(c) == given]
            path = built(name)
            if path:
                run = subprocess.run(programs.program(path), input=given, capture_output=True)
                wrote = run.stdout.decode()
                if run.returncode != 0 or not alone and wrote.count("\n") != len(part):
                    raise ValueError(f"{os.path.basename(path)}: status {run.returncode}, {wrote.count(chr(10))} lines")
            else:
                wrote = as_it_stands(name, given)
            lines = [wrote] * len(part) if alone else [line + "\n" for line in wrote.split("\n")]
            found.update((c, answer_in(c, line)) for c, line in zip(part, lines))
    return found


def takes_all(command):
    """Is the answer more than a line? Then it is all that one input brings."""
    return command.split(" ")[0] in ("smlcat", "limits")


def as_it_stands(name, given):
    with tempfile.TemporaryDirectory() as tmp:
        copied(tmp)
        return tried(tmp, in_rattle(name), given)


def in_rattle(name):
    """what answers in the copy, where there is no library"""
    return FORMS if name == programs.LIBRARY else name


def copied(copy):
    """a repository that has the code alone, and the program of tests/forms as a crate of it"""
    for path in glob.glob(os.path.join(ROOT, "crates/*/src")):
        shutil.copytree(path, os.path.join(copy, os.path.relpath(path, ROOT)))
    crates = open(os.path.join(ROOT, "crates.txt"), encoding="utf-8").read()
    open(os.path.join(copy, "crates.txt"), "w", encoding="utf-8").write(f"{crates}{FORMS}: {ASKED}\n")
    src = os.path.join(copy, "crates", FORMS, "src")
    os.makedirs(src)
    for path in glob.glob(os.path.join(ROOT, "tests/forms/*.rattle")):
        shutil.copy(path, os.path.join(src, os.path.basename(path).replace(".rattle", ".rt")))
    for name in SHARED:
        shutil.copy(os.path.join(ROOT, "crates/replay_parts/src", name), src)


def tried(copy, name, given):
    """What a program of the copy writes, or a line that says why it stops."""
    run = subprocess.run(["rt", "try"], cwd=os.path.join(copy, "crates", name), input=given, capture_output=True)
    said = run.stderr.decode(errors="replace")
    # the interpreter's line stands first, where its steps reached
    stop = re.search(r"^\w+: fault kind=\S+ in=(\S+?)(?: at=\S+)?: (?:undefined behavior \(.*?\): )?(.*?)(?:, called from .*)?$", said, re.M)
    if run.returncode == 4 and stop:
        where = f", in {stop[1]}"
        return f"stops: {stop[2].replace('`', '').removesuffix(where)}{where}\n"
    if run.returncode == 5:
        return "no answer: its two runs differ\n"
    if run.returncode == 6:
        return "never ends\n"
    if run.returncode != 0:
        raise ValueError(f"rt try, status {run.returncode}: " + said[-2000:].replace(copy + os.sep, ""))
    return run.stdout.decode()


def limits():
    """our answer to `limits`, and the end of its line"""
    return open(os.path.join(ROOT, "tests/expected/limits.txt"), encoding="utf-8").read() + "\n"


def edited(crate, changed, command):
    """the answer of the code with these changes of a crate"""
    with tempfile.TemporaryDirectory() as tmp:
        copied(tmp)
        for target, old, new in changed:
            if target.startswith("src/"):
                replace(os.path.join(tmp, "crates", crate, target), old, new)
        wrote = tried(tmp, in_rattle(program_of(command)), input_of(command))
    return wrote.strip() if re.match("stops: |never ends|no answer: ", wrote) else answer_in(command, wrote)


def wrong(name):
    """the answer of the edited code"""
    (crate, edit), (command, _, _) = edits()[name], answers(name)
    return edited(crate, changes(edit), command)

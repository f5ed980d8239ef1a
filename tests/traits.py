"""What an impl of SmlParse promises: the contract of the trait's `parse` at its type. The tests that read contracts read these functions as if each were written out, `u8_parse` with its own `ensures`.
`Option<T>` is one impl for all T; it is written out for those whose optional fields the code reads, beside the impl of T."""
import glob, os, re

IMPL = re.compile(r"^impl SmlParse for (\w+) \{\n(.*?)^\}", re.M | re.S)
ANY = re.compile(r"^impl(?:<[^{]*?>)? ([\w:]+)(?:<[^{]*?>)? for ([^{]*?) \{\n(.*?)^\}", re.M | re.S)
MEMBER = re.compile(r"^    ghost (\w+) = \{ (.*) \};$", re.M)
SOURCES = {p: open(p, encoding="utf-8").read() for p in sorted(glob.glob("crates/*/src/**/*.rt", recursive=True))}
TRAIT = next((t for t in SOURCES.values() if "\npub trait SmlParse" in t), "")
# the trait's promise, and what the impl of Option puts for its members
PROMISE = re.search(r"^pub trait SmlParse.*?fn parse\(input: &\[u8\], at: usize\) -> ResTy<Self>\n\s*ensures \{ (reads_as means result ≡ read_at input\.now at) \};\n\}", TRAIT, re.M | re.S)
OPTION = re.search(r"^impl<T: SmlParse> SmlParse for Option<T> \{\n(.*?)^\}", TRAIT, re.M | re.S)
FIELDS = {t for text in SOURCES.values() for t in re.findall(r"\bOption::<(\w+)>::parse\(", text)}


def name(of):
    return re.sub(r"(?<=[a-z0-9])(?=[A-Z])", "_", of).lower()


def closed(term):
    return f"({term})" if " " in term else term


def promise(means, read_at):
    return PROMISE.group(1).replace("means", closed(means), 1).replace("read_at", read_at, 1)


def functions(text):
    """Of each impl of the file, and of the optional fields of its type: the type as it is called, the name that stands for it in Decided, and its equation."""
    for of, body in IMPL.findall(text):
        given = dict(MEMBER.findall(body))
        yield of, name(of) + "_parse", promise(given["means"], given["read_at"])
        if of in FIELDS:
            option = dict(MEMBER.findall(OPTION.group(1)))
            yield f"Option<{of}>", f"option_{name(of)}_parse", promise(option["means"].replace("T.means", closed(given["means"])), option["read_at"].replace("T.read_at", closed(given["read_at"])))


def spelled(text):
    """The file with these functions written out. What the trait's and Option's words mean is what they mean in the trait's file."""
    found = list(functions(text))
    if not found:
        return text
    words = {w for _, _, said in found for w in re.findall(r"[a-z]\w*", said)}
    here = {w for given in re.findall(r"^ghost use [^{;]*\.\{([^}]*)\};$", text, re.M) for w in re.split(r", | as ", given)}
    uses = [f"ghost use {path}.{{{w}}};" for path, given in re.findall(r"^ghost use ([^{;]*)\.\{([^}]*)\};$", TRAIT, re.M) for w in given.split(", ") if w in words - here]
    return text + "\n" + "\n".join(uses) + "\n" + "".join(f"\npub fn {key}(input: &[u8], at: usize) -> ResTy<T>\n    ensures {{ {said} }}\n{{\n}}\n" for _, key, said in found)


# derives are the language's own; a From says what it gives; a program prints by Display
DERIVES = {"Clone", "Copy", "PartialEq", "Eq", "PartialOrd", "Ord", "Drop"}


def unknown(path, text):
    """What these tests would not see: a public trait beside SmlParse, an impl of a trait that isn't known here."""
    crate = [t for p, t in SOURCES.items() if p.split(os.sep)[1] == path.split(os.sep)[1]]
    own = {name for t in crate for name in re.findall(r"^(?:pub\(crate\) )?trait (\w+)", t, re.M)}
    for trait, body in re.findall(r"^pub trait (\w+)[^{]*\{\n(.*?)^\}", text, re.M | re.S):
        if trait != "SmlParse" or re.findall(r"^    fn (\w+)", body, re.M) != ["parse"]:
            yield f"{path}: the public trait {trait} is not read by these tests, or a function of it"
    for trait, of, body in ANY.findall(text):
        known = trait in own or trait == "SmlParse" or trait == "From" and "    ghost from_gives = {" in body
        if not known and not (trait == "fmt::Display" and os.path.exists(os.path.join(*path.split(os.sep)[:3], "main.rt"))):
            yield f"{path}: the impl of {trait} for {of} is not read by these tests"
    if len(re.findall(r"^impl[ <].* for .*", text, re.M)) != len(ANY.findall(text)):
        yield f"{path}: an impl of another form"
    for given in re.findall(r"#\[derive\((.*?)\)\]", text):
        if set(given.split(", ")) - DERIVES:
            yield f"{path}: a derive of {given}"


def faults():
    """An impl whose function is not the trait's, or that gives no meaning; and what these tests would not see."""
    if not PROMISE or not OPTION:
        return ["the trait SmlParse, or its impl for Option, is not found as the tests read it"]
    bad = []
    for path, text in SOURCES.items():
        bad += unknown(path, text)
        if len(re.findall(r"^impl.* SmlParse for ", text, re.M)) != len(IMPL.findall(text)) + ("SmlParse for Option<T>" in text):
            bad.append(f"{path}: an impl of SmlParse of another form")
        for of, body in IMPL.findall(text):
            if set(dict(MEMBER.findall(body))) != {"Meaning", "means", "read_at"} or not re.search(r"^    fn parse\(input: &\[u8\], at: usize\) -> ResTy<%s> \{$" % of, body, re.M):
                bad.append(f"{path}: the impl for {of} has not the trait's members and `parse` alone")
    return bad

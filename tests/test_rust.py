"""The Rust crate (rust/) over the library: its own tests and the examples in its comments; what it says beside the unchanged crate sml-rs on the same bytes; the collector's output, which is that of the C one; no call that panics in what is compiled; a build by cargo; declarations as in the header.

All else is built by rustc alone. Linked is what scripts/native gives, on x86-64 the library. Where rustc or an archive is not at hand the test is skipped (status 77), and where sml-rs or cargo is not, the comparison or that build.
"""
import glob, os, platform, random, re, shutil, subprocess, sys

os.chdir(os.path.join(os.path.dirname(os.path.abspath(__file__)), ".."))
sys.dont_write_bytecode = True
sys.path.append("oracle")
import messages
from generate import damaged, piece
from places import over_32_bits
from sml import frame

SEED, INPUTS, RECORDINGS = 20261116, 4000, 60
# where oracle/build looks for what it links
OUT = "target/oracle"
LIBRARY = f"{OUT}/libsartrogheo.rlib"
# the header's types of parameters in the crate's words
TYPES = {"sgh_decoder *": "*mut State", "const sgh_decoder *": "*const State", "sgh_encoder *": "*mut Encoder", "sgh_reader *": "*mut Reader", "sgh_event *": "*mut Event", "const sgh_event *": "*const Event", "sgh_writer *": "*mut Writer", "sgh_message *": "*mut Message", "sgh_index *": "*mut Index", "sgh_item *": "*mut Item", "sgh_walked *": "*mut Walked", "sgh_watch *": "*mut Watch", "sgh_loss *": "*mut Loss", "sgh_row *": "*mut Row", "uint32_t *": "*mut u32", "const uint32_t *": "*const u32", "uint8_t *": "*mut u8", "const uint8_t *": "*const u8",
         "size_t *": "*mut usize", "size_t ": "usize", "uint8_t ": "u8", "uint64_t [SGH_VALUES]": "*mut Values", "uint32_t": "u32", "uint16_t": "u16", "void": ""}
faults = []


def run(*words, **more):
    done = subprocess.run(words, capture_output=True, text=True, **more)
    if done.returncode != 0:
        sys.exit(f"test_rust: status {done.returncode}: {' '.join(words)}\n{done.stdout}{done.stderr}")
    return done.stdout


def rustc(*words):
    return run("rustc", "--edition", "2021", "-O", "-D", "warnings", *words)


def declared():
    """Numbers and functions as the header has them: nothing else would tell of a wrong one."""
    header, own = (open(path, encoding="utf-8").read() for path in ("include/sartrogheo.h", "rust/src/ffi.rs"))
    numbers = {name: int(n) for name, n in re.findall(r"^#define SGH_(\w+) (\d+)u", header, re.M)}
    found = re.findall(r"^pub const (\w+): \w+ = ([\d_]+);", own, re.M)
    faults.extend(f"rust/src/ffi.rs: {name} is {n}, in the header {numbers.get(name)}" for name, n in found if numbers.get(name) != int(n))
    wanted = {}
    for gives, name, takes in re.findall(r"^(\w+) (sgh_\w+)\((.*)\);", header, re.M):
        types = [re.fullmatch(r"(.*?)(\w+)((?:\[\w+\])?)", t) for t in takes.split(", ")]
        wanted[name] = [TYPES[t[1] + t[3]] for t in types], TYPES[gives]
    given = {name: (re.findall(r"\w+: ([^,]+?),?\s*(?=\w+:|$)", takes), gives) for name, takes, gives in re.findall(r"pub fn (sgh_\w+)\((.*?)\)(?: -> (\w+))?;", own, re.S)}
    faults.extend(f"rust/src/ffi.rs: {name} is {given.get(name)}, in the header {wanted.get(name)}" for name in wanted.keys() | given.keys() if given.get(name) != wanted.get(name))
    return len(found), len(wanted)


def tell():
    print("".join(fault + "\n" for fault in faults[:20]), end="")


def skip(why):
    tell()
    print(f"skipped: the Rust crate, since {why}")
    sys.exit(1 if faults else 77)


def archive(started):
    """The words for the folder with the archive."""
    folder, _ = started.communicate()
    if started.returncode == 3:
        skip("there is no archive for this machine")
    if started.returncode != 0:
        sys.exit("test_rust: no archive is built")
    return ["-L", "native=" + folder.strip()]


def script():
    """build.rs links the archive that it is told of, else that of the repository or of the folder in which the crate is installed, and says what is missing."""
    program, room = os.path.abspath(f"{OUT}/build_script"), os.path.abspath(f"{OUT}/rooms")
    rustc("rust/build.rs", "-o", program)
    repository, installed = f"{room}/repository/target/staticlib", f"{room}/installed/lib"
    for path in f"{repository}/libsartrogheo.a", f"{installed}/libsartrogheo.a", f"{room}/foreign/target/staticlib/libsartrogheo.a", f"{room}/repository/crates.txt", f"{room}/repository/include/sartrogheo.h":
        os.makedirs(os.path.dirname(path), exist_ok=True)
        open(path, "w").close()
    x86, none = "x86_64 linux 64", "belongs to a crate at this place"
    cases = [(x86, "repository/rust", None, repository), (x86, "installed/share/sartrogheo/rust", None, installed), ("aarch64 linux 64", "repository/rust", installed, installed),
             ("x86_64 linux 32", "foreign/rust", installed, installed), (x86, "foreign/rust", None, none), (x86, "installed/share/other/rust", None, none), (x86, "installed/a/b/sartrogheo", None, none),
             (x86, "nowhere/share/sartrogheo/rust", None, f"in {room}/nowhere/lib: build it"), (x86, "repository/rust", room, f"SARTROGHEO_LIB_DIR, {room}"),
             (x86, "repository/rust", "", repository), (x86, "repository/rust", "../../installed/lib", f"{room}/repository/rust/../../installed/lib"), (x86, "repository/rust", "lib", f"SARTROGHEO_LIB_DIR, {room}/repository/rust/lib\n"),
             *((other, "repository/rust", None, f"this is {other}: set") for other in ("aarch64 linux 64", "x86_64 windows 64", "x86_64 linux 32"))]
    for target, own, told, wanted in cases:
        given = {"CARGO_MANIFEST_DIR": f"{room}/{own}", **{f"CARGO_CFG_TARGET_{part}": word for part, word in zip(("ARCH", "OS", "POINTER_WIDTH"), target.split())}, **({} if told is None else {"SARTROGHEO_LIB_DIR": told})}
        os.makedirs(f"{room}/{own}", exist_ok=True)
        done = subprocess.run([program], env=given, cwd=f"{room}/{own}", capture_output=True, text=True)
        linked = done.returncode == 0 and f"cargo:rustc-link-search=native={wanted}\ncargo:rustc-link-lib=static=sartrogheo\n" in done.stdout
        refused = done.returncode == 1 and wanted in done.stderr
        if not (linked if os.path.normpath(wanted) in (repository, installed) else refused):
            faults.append(f"build.rs with {given}: {done}")


def build(folder):
    """The library, and what is still to be waited for: the comparison over it."""
    rustc("--crate-type", "rlib", "--crate-name", "sartrogheo", "--cfg", 'feature="alloc"', *folder, "-l", "static=sartrogheo", "rust/src/lib.rs", "-o", LIBRARY)
    rustc("--crate-type", "rlib", "--crate-name", "random", "rust/compare/random.rs", "-o", f"{OUT}/librandom.rlib")
    # oracle/build doesn't know that the library is new
    if os.path.exists(f"{OUT}/compare"):
        os.remove(f"{OUT}/compare")
    return subprocess.Popen(["sh", "oracle/build"], env={**os.environ, "DRIVER": "rust/compare/compare.rs"}, stdout=subprocess.PIPE, text=True)


def own_tests(folder):
    """The tests, and the examples in comments and in docs/MOVING.md."""
    uses = ["--extern", f"sartrogheo={LIBRARY}"]
    rustc("--test", "--cfg", 'feature="alloc"', "rust/tests/library.rs", *uses, "-o", f"{OUT}/library")
    said = run(f"{OUT}/library")
    for file in "rust/src/lib.rs", "docs/MOVING.md":
        said += run("rustdoc", "--edition", "2021", "--test", "--crate-name", "sartrogheo", file, *uses, *folder)
    return sum(map(int, re.findall(r"(\d+) passed; 0 failed", said)))


def panics():
    """The crate without its feature and with it, and its functions but `decode` made for some types: no call that panics, or ends the program, is left in any.

    With the feature a Vec grows behind try_reserve, so that there is room: the compiler doesn't see that, and leaves raw_vec::handle_error in the crate."""
    for feature, spared in ([], b""), (["--cfg", 'feature="alloc"'], b"raw_vec12handle_error"):
        rustc("--crate-type", "rlib", "--crate-name", "sartrogheo", *feature, "--emit", f"obj={OUT}/plain.o,link={OUT}/libplain.rlib", "rust/src/lib.rs")
        rustc("--crate-type", "rlib", *feature, "--extern", f"sartrogheo={OUT}/libplain.rlib", "--emit", f"obj={OUT}/instances.o", "rust/compare/instances.rs")
        for name, spare in ("plain.o", spared), ("instances.o", b""):
            calls = re.findall(rb"\w*(?:panic|_fail|handle_error|alloc_error|capacity_overflow)\w*", open(f"{OUT}/{name}", "rb").read())
            faults.extend(f"{name}, {feature}: {call.decode()} is called" for call in sorted(set(calls)) if not spare or spare not in call)


def by_cargo(folder):
    """cargo, without the network, builds the collector in a folder as scripts/install makes it; the archive beside the crate is found on x86-64, and told on others."""
    if not shutil.which("cargo"):
        return print("skipped: the crate built by cargo, which is not at hand")
    room, native = os.path.abspath(f"{OUT}/by_cargo"), os.path.abspath(folder[1].partition("=")[2])
    shutil.rmtree(room, ignore_errors=True)
    shutil.copytree("rust", f"{room}/share/sartrogheo/rust", ignore=shutil.ignore_patterns("target", "Cargo.lock", "compare"))
    os.makedirs(f"{room}/lib")
    shutil.copy(f"{native}/libsartrogheo.a", f"{room}/lib")
    given = {name: value for name, value in os.environ.items() if name != "SARTROGHEO_LIB_DIR"}
    told = {} if platform.machine() == "x86_64" else {"SARTROGHEO_LIB_DIR": native}
    run("cargo", "build", "--offline", "--quiet", "--all-features", "--example", "collector", "--manifest-path", f"{room}/share/sartrogheo/rust/Cargo.toml", "--target-dir", f"{room}/target", env={**given, **told})
    path = "captures/two-byte-length.bin"
    if ended(f"{room}/target/debug/examples/collector", [path]) != ended(f"{OUT}/collector", [path]):
        faults.append("the collector that cargo builds prints something else")


def recordings(r):
    """Frames of messages, right, damaged and behind stray bytes, and noise."""
    some = [lambda: frame(messages.file(r)), lambda: frame(messages.file(r)), lambda: damaged(r, frame(messages.file(r))), lambda: b"\x1b" * r.randrange(1, 6) + frame(messages.file(r)), lambda: piece(r)[0]]
    for _ in range(RECORDINGS):
        yield b"".join(r.choice(some)() for _ in range(r.randrange(40)))


def ended(program, words, data=b""):
    done = subprocess.run([program, *words], input=data, capture_output=True)
    return done.returncode, done.stdout, done.stderr


def collector(folder):
    """The collector prints and ends as the C one, and of the captures what is stored."""
    own, c, archive = f"{OUT}/collector", f"{OUT}/collector-c", os.path.join(folder[1].partition("=")[2], "libsartrogheo.a")
    rustc("rust/examples/collector.rs", "--extern", f"sartrogheo={LIBRARY}", "-o", own)
    run("cc", "-std=c11", "-O2", "-Iinclude", "examples/collector.c", archive, "-o", c)
    for path in sorted(glob.glob("captures/*.bin")):
        stored = open(f"tests/expected/collector-{os.path.basename(path)[:-4]}.txt", "rb").read()
        if ended(own, [path]) != (0, stored, b""):
            faults.append(f"collector {path}: {ended(own, [path])}")
    asked = [([], data) for data in recordings(random.Random(SEED))] + [(words, b"\0") for words in (["-h"], ["-x"], ["a", "b"], ["-"], ["none"], ["captures"])]
    answers = [(ended(own, *one), ended(c, *one)) for one in asked]
    faults.extend(f"collector {words} of {data.hex()[:200]}:\n  {ours}\n  in C {theirs}" for (words, data), (ours, theirs) in zip(asked, answers) if ours != theirs)
    return sum(theirs[1].count(b"\n") for _, theirs in answers)


def inputs(path):
    """Messages, valid, bent and cut, inside the domain of docs/DIFFERENCES.md: no list or length over 32 bits."""
    r, left = random.Random(SEED), INPUTS
    with open(path, "w") as f:
        while left:
            data = messages.file(r)
            if not messages.BEYOND.search(data) and not over_32_bits("events " + data.hex()):
                f.write(data.hex() + "\n")
                left -= 1


def compared(built):
    said, _ = built.communicate()
    if built.returncode == 3:
        return print("skipped: the Rust crate beside sml-rs, whose source is not at hand")
    if built.returncode != 0:
        sys.exit(f"test_rust: oracle/build failed\n{said}")
    done = subprocess.run([f"{OUT}/compare", f"{OUT}/messages.in", str(SEED)], stdout=subprocess.PIPE, text=True)
    print(done.stdout, end="")
    if done.returncode != 0:
        faults.append(f"compare ended with status {done.returncode}")


def main():
    numbers, functions = declared()
    if not shutil.which("rustc"):
        skip("rustc is not at hand")
    started = subprocess.Popen([sys.executable, "-B", "scripts/native"], stdout=subprocess.PIPE, text=True)
    os.makedirs(OUT, exist_ok=True)
    inputs(f"{OUT}/messages.in")
    folder = archive(started)
    built = build(folder)
    tests, lines = own_tests(folder), collector(folder)
    panics(), script(), by_cargo(folder)
    compared(built)
    tell()
    print(f"{numbers} numbers and {functions} functions of the header, {tests} tests of the crate, {lines} lines of the collector, {len(faults)} faults")
    sys.exit(1 if faults or not numbers or not functions or not tests or not lines else 0)


main()

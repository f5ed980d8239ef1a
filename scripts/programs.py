"""What the commands of bin/ share: a program is proved and built where that hasn't been done, and run. Its input is standard input, or a file."""
import fcntl, os, shutil, subprocess, sys, time

ROOT = os.path.dirname(os.path.dirname(os.path.abspath(__file__)))
# who answers a command of bin/replay, by its first word: the library's calls, through replay/replay.c, or a program in Rattle
LIBRARY = "library"
COMMANDS = {LIBRARY: ["encode", "encode_cap", "stream", "crc", "push", "push2", "packed", "events", "places", "rewrite", "message", "index", "lookup", "walk", "item", "why"], "replay_parts": ["leaf", "tlf", "unpack", "pack"]}
ANSWERS = {word: name for name, words in COMMANDS.items() for word in words}
# where the stored vectors of each stand, stdin and stdout
VECTORS = {LIBRARY: "replay", "replay_parts": "crates/replay_parts"}


# how a line begins that a command of bin/ may write to standard error while it makes ready: on a slow machine, or the first time
MAKING_READY = ("waiting for another command of bin/", "proving ")


def turn():
    """The lock of this directory, held until it is closed: two checks at once disturb each other, and the commands of a pipe begin at once."""
    lock, began, told = os.open(ROOT, os.O_RDONLY), time.monotonic(), False
    while True:
        try:
            fcntl.flock(lock, fcntl.LOCK_EX | fcntl.LOCK_NB)
            return lock
        except BlockingIOError:
            if not told and time.monotonic() - began > 5:
                told = True
                print("waiting for another command of bin/, which proves", file=sys.stderr, flush=True)
            time.sleep(0.05)


def kit():
    """The toolchain's folder, which rt stands in."""
    found = shutil.which("rt")
    if not found:
        refuse("rt, the command of the Rattle toolchain, is not at hand")
    return os.path.dirname(os.path.dirname(os.path.realpath(found)))


def tools(*path):
    """A file of the toolchain's compiler, linker and C library."""
    return os.path.join(kit(), "toolchain", *path)


def rt(command, name, at_once=False):
    """A run of rt in a crate's folder, which proves what it works on where that hasn't been done; its words are shown where it fails."""
    if not shutil.which("rt"):
        refuse("rt, the command of the Rattle toolchain, is not at hand")
    run = subprocess.Popen(["rt", command], cwd=os.path.join(ROOT, "crates", name), stdin=subprocess.DEVNULL, stdout=subprocess.PIPE, stderr=subprocess.STDOUT)
    try:
        said = run.communicate(timeout=0 if at_once else 5)[0]
    except subprocess.TimeoutExpired:
        print(f"proving {name}, once, which takes minutes where the crates below it weren't proved before", file=sys.stderr, flush=True)
        said = run.communicate()[0]
    if run.returncode != 0:
        print(b"\n".join(said.split(b"\n")[-20:]).decode(errors="replace"), file=sys.stderr)
        sys.exit(1)


def built(name):
    """Where rt leaves a program."""
    return os.path.join(ROOT, "crates", name, "out", name)


def build(names):
    """Proves and builds what isn't. Where nothing is left to do that takes less than a second, and nothing is said. `rt run` runs the program too, on an empty input."""
    lock = turn()
    for name in names:
        rt("run", name, not os.path.exists(built(name)))
    os.close(lock)


def program(name):
    """The words that run a built program, one of a crate's or one of a path: under the toolchain's loader, and its emulator where it has one, since programs are x86-64."""
    emulator = tools("bin/qemu-x86_64")
    loader = [tools("lib/ld-linux-x86-64.so.2"), "--library-path", tools("lib")]
    return [emulator] * os.access(emulator, os.X_OK) + loader + [name if os.path.isabs(name) else built(name)]


def refuse(said):
    print(said, file=sys.stderr)
    sys.exit(2)


def take_input(usage, options=(), valued=()):
    """The arguments: first options, -h among them, which prints the usage, and those of `valued`, which a word follows; then FILE, if any, which becomes standard input, and - is standard input itself. Gives the options that were found, with those words."""
    words, found = sys.argv[1:], []
    while words and words[0] in (*options, *valued, "-h", "--help"):
        found.append(words.pop(0))
        if found[-1] in ("-h", "--help"):
            print(usage.strip())
            sys.exit(0)
        if found[-1] in valued:
            if not words:
                refuse(usage.strip())
            found.append(words.pop(0))
    if len(words) > 1 or words and words[0].startswith("-") and words != ["-"]:
        refuse(usage.strip())
    if words and words != ["-"]:
        try:
            os.dup2(os.open(words[0], os.O_RDONLY), 0)
            os.read(0, 0)
        except OSError as e:
            refuse(f"{os.path.basename(sys.argv[0])}: {words[0]}: {e.strerror}")
    return found


def start(name, usage, options=()):
    """Becomes the program, which is given the options that were found."""
    found = take_input(usage, options)
    build([name])
    words = program(name) + found
    os.execv(words[0], words)

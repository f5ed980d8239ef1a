"""bin/replay, and what else stands in bin/: the examples of docs/REPLAY.md, a mixed batch in its order, what is no command, no input, a live pipe, pipes at once, a long batch, files, options, and the stored vectors."""
import os, random, re, select, subprocess, sys

sys.dont_write_bytecode = True
os.chdir(os.path.join(os.path.dirname(os.path.abspath(__file__)), ".."))
sys.path.append("scripts")
from programs import COMMANDS, LIBRARY, MAKING_READY, VECTORS

faults, count = [], 0


def same(what, said, wanted):
    global count
    count += 1
    if said != wanted:
        faults.append(f"{what}: {said[:200]!r}, wanted {wanted[:200]!r}")


def started(name, given, *words):
    run = subprocess.run(["bin/" + name, *words], input=given, capture_output=True)
    return run.returncode, run.stdout, told(run.stderr)


def told(errors):
    """What is left on standard error beside what is said while a command makes ready."""
    return b"".join(line for line in errors.splitlines(keepends=True) if not line.startswith(tuple(map(str.encode, MAKING_READY))))


def live(name, parts, *words):
    """Each part of the input must bring its line before the next is written; nothing is left behind the last."""
    run = subprocess.Popen(["bin/" + name, *words], stdin=subprocess.PIPE, stdout=subprocess.PIPE, bufsize=0)
    for part, line in parts:
        run.stdin.write(part)
        heard, more = b"", True
        while more and not heard.endswith(b"\n") and select.select([run.stdout], [], [], 60)[0]:
            more = run.stdout.read(65536)
            heard += more
        same(f"{name}, live, {part!r}", heard, line)
    run.stdin.close()
    same(f"{name}, a live pipe ends", (run.wait(60), run.stdout.read()), (0, b""))


def answers(given):
    status, said, errors = started("replay", given)
    same("status and standard error", (status, errors), (0, b""))
    return said


# the page: a command behind `> `, and its answer in the next line
page = open("docs/REPLAY.md", encoding="utf-8").read()
examples = re.findall(r"^    > (.*)\n    (.*)$", page, re.M)
said = answers("".join(c + "\n" for c, _ in examples).encode()).decode().split("\n")
for (command, answer), line in zip(examples, said + [""] * len(examples)):
    same(f"docs/REPLAY.md: {command}", line, answer)
named = dict(re.findall(r"^\| `((?:replay|crates)/\w+).*\| (.*) \|$", page, re.M))
same("who answers, on the page", {folder: re.findall(r"`(\w+)`", c) for folder, c in named.items()}, {"replay/replay": COMMANDS[LIBRARY], "crates/replay_parts": COMMANDS["replay_parts"]})
tables = {LIBRARY: re.findall(r'^    \{"(\w+)", takes_', open("replay/replay.c").read(), re.M)}
tables["replay_parts"] = re.findall(r'^        b"(\w+)" =>', open("crates/replay_parts/src/main.rt").read(), re.M)
same("the tables of commands", tables, COMMANDS)
for c in sum(COMMANDS.values(), []):
    same(f"an example of {c}", any(e.startswith(c + " ") for e, _ in examples), True)

# both lists of vectors, mixed: every answer as stored, in the order of the commands
pairs = []
for folder in VECTORS.values():
    given, stored = (open(f"{folder}/{f}", "rb").read().split(b"\n") for f in ("stdin", "stdout"))
    pairs += zip(given, stored)
random.Random(20250711).shuffle(pairs)
said = answers(b"\n".join(c for c, _ in pairs)).split(b"\n")
same("lines of a mixed batch", len(said), len(pairs) + 1)
for (command, stored), line in zip(pairs, said):
    same(f"{command[:80]!r}, in a mixed batch", line, stored)

same("no input", answers(b""), b"")
same("no command", answers(b"\n \nhello\ncrc 31\n" + b"x" * 200000 + b"\ncrc " + b"31" * 34999 + b"\ncrc 31"), b"bad command\n" * 3 + b"d072\n" + b"bad command\n" * 2 + b"d072\n")
same("a long batch", answers(b"crc 31\nevents -\n?\n" * 50000), b"d072\nnone\nbad command\n" * 50000)
same("many long answers of one, and then the other's", answers(b"leaf u8 62ff\n" + (b"encode " + b"1b" * 30000 + b"\n") * 100 + b"leaf u8 62ff\n").count(b"\n"), 102)

live("replay", [(command.encode() + b"\n", answer.encode() + b"\n") for command, answer in examples[:3] + examples[-6:-3]])

os.makedirs("target/compare", exist_ok=True)
open("target/compare/replay.in", "w").write("crc 31")
same("a file", started("replay", b"", "target/compare/replay.in"), (0, b"d072\n", b""))
same("standard input by name", started("replay", b"crc 31", "-"), (0, b"d072\n", b""))
for words, status in [["target/compare/none.in"], 2], [["a", "b"], 2], [["-x"], 2], [["-h"], 0], [["captures/bare-times.bin"], 0], [["captures"], 2], [["-h", "a", "b"], 0], [["captures/bare-times.bin", "-h"], 2]:
    for name in "replay", "smlcat":
        code, out, said = started(name, b"", *words)
        same(f"{name} {words}", (code, bool(out), bool(said), b"Traceback" in said), (status, status == 0, status != 0, False))
        if "-h" in words or status == 2 and len(words) > 1:
            same(f"{name} {words}: its usage", (out + said).split(b":")[0], b"replay [FILE]" if name == "replay" else b"smlcat [-2] [FILE]")

# -2 is the second way of searching; without it smlcat is document 01's program
frame = bytes.fromhex("1b1b1b1b01010101123456781b1b1b1b1a00b87b")
open("target/compare/stray.bin", "wb").write(b"\x1b" + frame)
for given, words, wanted in [
    (b"\x1b" + frame, [], b"discarded 21\n"),
    (b"\x1b" + frame, ["-"], b"discarded 21\n"),
    (b"", ["target/compare/stray.bin"], b"discarded 21\n"),
    (b"\x1b" + frame, ["-2"], b"discarded 1\npayload 12345678\n"),
    (b"\x1b" + frame, ["-2", "-"], b"discarded 1\npayload 12345678\n"),
    (b"", ["-2", "target/compare/stray.bin"], b"discarded 1\npayload 12345678\n"),
    (frame, ["-2"], b"payload 12345678\n"),
    (frame[:-1] + b"\x7a\x1b" + frame, ["-2"], b"invalid 7ab8 7bb8 aligned 0\ndiscarded 1\npayload 12345678\n"),
    (b"", [], b""),
    (b"", ["-2"], b""),
]:
    same(f"smlcat {words}, {given.hex()}", started("smlcat", given, *words), (0, wanted, b""))
for words in ["-3"], ["-22"], ["2"], ["-2", "-3"], ["-2", "target/compare/none.in"], ["target/compare/stray.bin", "-2"], ["-2", "a", "b"], ["--", "-"]:
    same(f"smlcat {words}", started("smlcat", frame, *words)[:2], (2, b""))
same("replay -2", started("replay", b"crc 31", "-2")[:2], (2, b""))
live("smlcat", [(frame, b"payload 12345678\n"), (b"\x1b" + frame[:8], b"discarded 1\n"), (frame[8:], b"payload 12345678\n")], "-2")
for command in "bin/wrong | head -n 1", "yes crc 31 | head -n 20000 | bin/replay | head -n 1":
    same(f"{command}, on standard error", told(subprocess.run(["sh", "-c", command], capture_output=True).stderr), b"")
# a closed or full output and a closed input are told
for words, said in ["bin/replay >/dev/full", b"replay: output: No space left on device\n"], ["bin/replay >&-", b"replay: output: Bad file descriptor\n"], ["bin/replay <&-", b"replay: input: Bad file descriptor\n"]:
    run = subprocess.run(["sh", "-c", words], input=b"crc 31\n", capture_output=True)
    same(words, (run.returncode, told(run.stderr)), (2, said))
# the commands of a pipe begin at once, and each looks whether its program is proved
pipe = "bin/smlcat captures/two-byte-length.bin | sed -n 's/^payload/places/p' | bin/replay | sed 's/ | .*//'"
at_once = [subprocess.Popen(["sh", "-c", pipe], stdout=subprocess.PIPE, stderr=subprocess.PIPE) for _ in range(4)]
for run in at_once:
    out, said = run.communicate()
    same(pipe, (out, told(said)), (b"open tid=x032b180f group=0 abort=0 codepage=- client=- file=x010e5d5b server=x090149534b0004112233 time=- version=-\n", b""))
same("bin/wrong of an unknown name", (lambda r: (r.returncode, r.stdout))(subprocess.run(["bin/wrong", "no_such_reading"], capture_output=True)), (2, b""))
print("\n".join(faults[:20]))
print(f"{count} answers held, {len(examples)} of them on the page, {len(faults)} faults")
sys.exit(1 if faults else 0)

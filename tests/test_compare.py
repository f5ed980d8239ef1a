"""The crate and bin/replay answer the same random commands alike, but for some that are left out, and the generator gives the same commands for the same seed. Where the crate is not at hand that is skipped (status 77), and where the meters' frames are not, those are."""
import os, re, subprocess, sys

os.chdir(os.path.join(os.path.dirname(os.path.abspath(__file__)), ".."))
SEED, COUNT = "7", "3000"
for more in [], ["messages"]:
    command = [sys.executable, "-B", "oracle/generate.py", SEED, COUNT] + more
    twice = [subprocess.run(command, capture_output=True, check=True).stdout for _ in range(2)]
    if twice[0] != twice[1] or twice[0].count(b"\n") != int(COUNT):
        sys.exit("test_compare: two runs of the generator differ")
    run = subprocess.run([sys.executable, "-B", "oracle/compare", SEED, COUNT] + more, stdout=subprocess.PIPE, text=True)
    print(run.stdout, end="", flush=True)
    code, left_out = run.returncode, re.search(r"left out (\d+) ", run.stdout)
    if code == 0 and int(left_out[1]) == 0:
        sys.exit("test_compare: no command is left out, so that nothing is held of those")
    if code == 77:
        print("skipped: the same random commands to the crate and to bin/replay, and the meters' frames")
    if code != 0:
        sys.exit(code)

# meter frames that are not shipped are run from where they stand: each frame pushed, and its payload read to its end
FRAMES = os.environ.get("SML_CAPTURES", "../shared/captures/frames.hex")
if os.path.isfile(FRAMES):
    pushes = ["push 4096 b%s,f" % f for f in open(FRAMES).read().split()]
    said = subprocess.run(["target/oracle/oracle"], input="\n".join(pushes).encode(), capture_output=True, check=True).stdout.decode().split("\n")
    payloads = [a.split("payload ")[1] for a in said if "payload " in a]
    if len(payloads) != len(pushes):
        sys.exit("test_compare: a capture has no payload")
    os.makedirs("target/compare", exist_ok=True)
    with open("target/compare/captures.in", "w") as f:
        f.writelines(c + "\n" for c in pushes + ["events " + x for x in payloads])
    sys.exit(subprocess.run([sys.executable, "-B", "oracle/compare", "target/compare/captures.in"]).returncode)
print("skipped: the meters' frames, which are not at hand")

"""Each wrong reading of docs/WRONG-READINGS.md has one line of answers: a command, our answer and the wrong one, which is another. Our answer is held to the library and the proved programs, or where only tests/forms asks it to that program over the code as it stands; the wrong one to the edited code, run without proof: here that of a few edits, and with --all of every edit of code. An edit that changes nothing, which the prover refuses too, is seen by its answer."""
import os, re, subprocess, sys, time
from concurrent.futures import ThreadPoolExecutor

sys.dont_write_bytecode = True
sys.path.insert(0, os.path.join(os.path.dirname(os.path.abspath(__file__)), "../scripts"))
import clink, programs, wrong_answers

# a field (replay_parts), frames and limits (tests/forms), lines (smlcat), one whose code stops, and document 01's fifth 1b
SAMPLE = ["full_width_refused", "pad_not_against_length", "first_byte_again", "slice_noise_without_matched", "pad_count_in_hex", "fifth_1b_keeps_four"]
# an edit of the line that `later_type_not_tested` edits, the same for every byte
EQUAL = "tlf", [("src/lib.rt", "if b / 16 % 8 != 0 {", "if b % 128 / 16 != 0 {")], "leaf oct 8014aabb"
SAME = "err InvalidTlf TlfNextByteTypeMismatch"
# what bin/wrong is tried on: theorems, of which nothing is left to prove; the second by its name without fake_
SHOWN = {"low_byte_first": "low_byte_first", "half_row_is_room": "fake_half_row_is_room"}
bad, began = [], time.time()


def held(what, got, wanted):
    if got != wanted:
        bad.append(f"{what}: it answers {got}, and the line says {wanted}")


def tried(run, *what):
    try:
        return run(*what)
    except ValueError as e:
        return f"nothing: {e}"


page = open(os.path.join(wrong_answers.ROOT, "docs/WRONG-READINGS.md"), encoding="utf-8").read()
names = re.findall(r"^### (\w+)$", page, re.M)
lines = {name: wrong_answers.answers(name) for name in names}
bad += [f"{name}: docs/WRONG-READINGS.md has no line of answers, or two, or one that has another form" for name, line in lines.items() if not line]
lines = {name: line for name, line in lines.items() if line}
bad += [f"{name}: both answers are the same" for name, (_, ours, theirs) in lines.items() if ours == theirs]
asked = {name: line for name, line in lines.items() if wrong_answers.program_of(line[0])}
programs.build(["replay_parts", "smlcat"])
clink.replay()
answers = tried(wrong_answers.ours, [command for command, _, _ in asked.values()])
for name, (command, ours, _) in asked.items():
    held(f"{name}, our code, {command}", answers[command] if isinstance(answers, dict) else answers, ours)
runs = [name for name in lines if wrong_answers.can_run(name)]
chosen = runs if sys.argv[1:] == ["--all"] else [name for name in runs if name in SAMPLE]
with ThreadPoolExecutor(int(os.environ.get("RT_JOBS") or min(4, os.cpu_count() or 1))) as pool:
    equal = pool.submit(tried, wrong_answers.edited, *EQUAL)
    for name, got in zip(chosen, pool.map(lambda name: tried(wrong_answers.wrong, name), chosen)):
        held(f"{name}, the edited code, {lines[name][0]}", got, lines[name][2])
    held("an edit that changes nothing", equal.result(), SAME)
bad += [f"{name}: of the sample, and can't be run" for name in SAMPLE if name not in runs]
if f"runs all {len(runs)} edits of code " not in page:
    bad.append(f"docs/WRONG-READINGS.md: the figure of --all is not that of {len(runs)} edits of code")
for asked_for, name in SHOWN.items():
    said = subprocess.run([os.path.join(wrong_answers.ROOT, "bin/wrong"), asked_for], capture_output=True, text=True)
    if said.returncode != 0 or not all(part in said.stdout for part in lines.get(name, ["Answers"])):
        bad.append(f"bin/wrong {asked_for} does not print its command and both answers: {said.stderr}")
print("\n".join(bad))
print(f"{len(lines)} lines; {len(asked)} of our answers run, {len(lines) - len(asked)} told in words; {len(chosen)} of {len(runs)} edits of code run, in {time.time() - began:.0f} s; {len(bad)} faults")
sys.exit(1 if bad or not lines else 0)

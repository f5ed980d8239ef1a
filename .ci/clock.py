"""Passes on what `rt ci` prints and notes in FILE how long its parts took. Proofs and edits go side by side, and what came of the edits is told when all have ended: of each crate FILE has the second at which it was proved, after the start, or that an earlier run had proved it;
then the wall clock up to the last proof, from there to the last edit, and from there to the last program or test that was run.

usage: rt ci 2>&1 | clock.py FILE
"""
import re, sys, time

LINES = {
    "checks": re.compile(rb"^rt: (\w+)(?:: its tests are)? proved$"),
    "kept": re.compile(rb"^rt: (\w+) is kept: "),
    "edits": re.compile(rb"^rt: must-fail (\w+)/[\w.-]+\.edit: "),
    "programs": re.compile(rb"^rt: (\w+) ran\b"),
}
began = time.time()
ends, count, crates = {}, dict.fromkeys(LINES, 0), []
for line in sys.stdin.buffer:
    sys.stdout.buffer.write(line)
    sys.stdout.buffer.flush()
    for part, form in LINES.items():
        m = form.match(line.rstrip(b"\n"))
        if m:
            now, crate = time.time() - began, m.group(1).decode()
            ends["checks" if part == "kept" else part] = now
            count[part] += 1
            if part in ("checks", "kept"):
                crates.append(f"{part} {crate}" + (f" {now:.0f} s" if part == "checks" else ""))
with open(sys.argv[1], "w", encoding="utf-8") as out:
    out.writelines(line + "\n" for line in crates)
    at = 0
    for part, what in [("checks", f"{count['checks']} proved, {count['kept']} kept from an earlier run"), ("edits", f"{count['edits']} of them, tried beside the checks and behind the last"), ("programs", f"{count['programs']} runs")]:
        out.write(f"seconds of the {part}: {max(ends.get(part, at) - at, 0):.0f} ({what})\n")
        at = max(ends.get(part, at), at)

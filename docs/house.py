#!/usr/bin/env python3
"""Draws the house from crates.txt: docs/house.svg. A comment `# floor NAME: what` begins a floor, from the ground up; a line goes from each crate to what it stands on directly.

usage: docs/house.py [--check]     with --check nothing is written; status 1 where docs/house.svg is not what would be drawn
"""
import os, sys

os.chdir(os.path.join(os.path.dirname(os.path.abspath(__file__)), ".."))
KIT = {"io", "libc", "os", "bytes", "check"}
# the frames' wing stands beside the messages': left or right of the stairs, and on which row; every other floor is as wide as the house
WINGS = {"wire": (0, 1, 2), "fields": (3, 1, 1), "messages": (3, 2, 2)}
BOX, GAP, HIGH, ROW, EDGE = 128, 16, 30, 104, 14


def floors():
    """the floors from the ground up: name, what it holds, its crates with what these stand on"""
    out = []
    for line in open("crates.txt", encoding="utf-8"):
        if line.startswith("# floor "):
            name, what = line[8:].split(": ", 1)
            out.append((name, what.strip(), {}))
        elif line.strip() and not line.startswith("#"):
            name, stands = line.split("#")[0].split(":")
            out[-1][2][name.split()[0]] = [d for d in stands.split() if d not in KIT]
    return out


def direct(deps):
    """what a crate stands on with no crate between, and how many crates lie below it"""
    below = {}

    def reached(c):
        if c not in below:
            below[c] = set(deps[c]).union(*[reached(d) for d in deps[c]])
        return below[c]

    return {c: [d for d in ds if not any(d in reached(e) for e in ds if e != d)] for c, ds in deps.items()}, {c: len(reached(c)) for c in deps}


def places(plan, depth):
    """the place of each box, and the frame of each floor"""
    wide = max([len(c) for n, _, c in plan if n not in WINGS] + [3 + max(len(c) for n, _, c in plan if WINGS.get(n, (0,))[0] == 3)])
    rows = 1 + max(top for _, _, top in WINGS.values())
    place, frames = {}, []
    for name, what, crates in plan:
        column, low, top = WINGS.get(name, (0, None, None))
        if low is None:
            low = top = 0 if not frames else rows
            rows += 1 if low else 0
        right = wide if name not in WINGS or column == 3 else 3
        frames.append((name, what, column, low, right, top))
        upper = sorted(crates, key=lambda c: depth[c])[-(len(crates) // 2):] if top > low else []
        for row, here in ((low, [c for c in crates if c not in upper]), (top, [c for c in crates if c in upper])):
            for k, c in enumerate(here):
                place[c] = (column + k, row)
    return place, frames, wide, rows


def drawn():
    plan = floors()
    deps, depth = direct({c: ds for _, _, crates in plan for c, ds in crates.items()})
    place, frames, wide, rows = places(plan, depth)
    width, height = 2 * EDGE + wide * (BOX + GAP) + GAP, 2 * EDGE + rows * ROW
    x = lambda column: EDGE + GAP + column * (BOX + GAP)
    y = lambda row: height - EDGE - (row + 1) * ROW + 40
    out = []
    for name, what, left, low, right, top in frames:
        at, up = x(left) - GAP // 2, y(top) - 34
        out.append(f'<rect x="{at}" y="{up}" width="{(right - left) * (BOX + GAP) - 2}" height="{(top - low + 1) * ROW - 8}" rx="6" class="floor"/>')
        out.append(f'<text x="{at + 10}" y="{up + 20}" class="name">{name}</text><text x="{at + 22 + 10 * len(name)}" y="{up + 20}" class="what">{what}</text>')
    for c, stands in deps.items():
        for d in stands:
            (k, i), (l, j) = place[c], place[d]
            a, b = x(k) + BOX // 2, x(l) + BOX // 2
            if i == j:
                out.append(f'<path d="M{a} {y(i) + HIGH} C{a} {y(i) + HIGH + 22} {b} {y(i) + HIGH + 22} {b} {y(j) + HIGH}" class="line"/>')
            else:
                out.append(f'<path d="M{a} {y(i) + HIGH} C{a} {y(i) + HIGH + 44} {b} {y(j) - 44} {b} {y(j)}" class="line"/>')
    for c, (k, i) in place.items():
        out.append(f'<rect x="{x(k)}" y="{y(i)}" width="{BOX}" height="{HIGH}" rx="4" class="crate"/><text x="{x(k) + BOX // 2}" y="{y(i) + 20}" class="crate-name">{c}</text>')
    style = ".floor{fill:#f4f1ea;stroke:#d8d2c4}.name{font:bold 14px sans-serif;fill:#444}.what{font:12px sans-serif;fill:#777}.crate{fill:#fff;stroke:#446}.crate-name{font:13px monospace;fill:#223;text-anchor:middle}.line{fill:none;stroke:#779;stroke-width:1.2;stroke-opacity:.7}"
    return f'<svg xmlns="http://www.w3.org/2000/svg" viewBox="0 0 {width} {height}" width="{width}" height="{height}"><style>{style}</style><rect width="{width}" height="{height}" fill="#fff"/>\n' + "\n".join(out) + "\n</svg>\n"


if __name__ == "__main__":
    if sys.argv[1:] == ["--check"]:
        sys.exit(0 if os.path.isfile("docs/house.svg") and open("docs/house.svg", encoding="utf-8").read() == drawn() else "docs/house.svg is not the house of crates.txt: run docs/house.py")
    open("docs/house.svg", "w", encoding="utf-8").write(drawn())

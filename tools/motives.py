#!/usr/bin/env python3
"""Writes the motive of the `elim` by which a crate's Decided.antt shows that a view can be undone.

usage: motives.py FILE..
"""
import re
import sys


def term(s, i):
    """The end of the term that begins at i."""
    if s[i] in '([{':
        depth = 0
        while True:
            depth += s[i] in '([{'
            depth -= s[i] in ')]}'
            i += 1
            if not depth:
                return i
    while i < len(s) and not s[i].isspace() and s[i] not in ')];':
        i += 1
    return i


def args(s, i, n):
    out = []
    for _ in range(n):
        while s[i].isspace():
            i += 1
        j = term(s, i)
        out.append(s[i:j])
        i = j
    return out, i


HEADS = {'reads_plain': ('OneReading', 3, lambda a: f'OneReading {a[1]} {a[2]} (λ x. x) k ({a[0]} k)'),
         'reads': ('OneReading', 6, lambda a: f'OneReading {a[1]} {a[2]} {a[3]} k ({a[0]} k)')}


def turned(s):
    used = set()
    for head, (word, n, motive) in HEADS.items():
        at = 0
        while True:
            m = re.compile(r'(?<![\w.])' + head + r'\s+(?=\S)').search(s, at)
            if not m:
                break
            at = m.end()
            try:
                got, end = args(s, at, n)
            except IndexError:
                continue
            e = re.compile(r'\s*\(λ (\w+)\. elim \1 \[').match(s, end)
            if e:
                s = s[:end] + f' (λ {e.group(1)}. elim {e.group(1)} as (λ k. {motive(got)}) [' + s[e.end():]
                used.add(word)
    for word in used:
        s = re.sub(r'\{((?:[^{}]*, )?)it_is', lambda m: '{' + m.group(1) + ('' if word in s.split('use ', 1)[0] + m.group(1) else word + ', ') + 'it_is', s, count=1)
    return s


for path in sys.argv[1:]:
    text = open(path).read()
    new = turned(text)
    if new != text:
        open(path, 'w').write(new)
        print(path)

#!/usr/bin/env python3
"""Sets the line numbers in docs/DECISIONS.md that tests/test_map.py holds to the sources: `crates/PATH:LINE` (`WHAT`) gets the line of PATH, nearest to the one that stands there, that has WHAT.

usage: places_of_forms.py [ROOT]
"""
import re
import sys

ROOT = (sys.argv[1:] or ['.'])[0]
page = open(f'{ROOT}/docs/DECISIONS.md', encoding='utf-8').read()


def moved(m):
    path, line, what = m.group(1), int(m.group(2)), m.group(3)
    found = [n for n, text in enumerate(open(f'{ROOT}/{path}', encoding='utf-8').read().split('\n'), 1) if what in text]
    if not found:
        print(f'{path}: nothing has {what}')
        return m.group(0)
    return f'`{path}:{min(found, key=lambda n: abs(n - line))}` (`{what}`)'


new = re.sub(r'`(crates/[\w/.]+):(\d+)` \(`([^`]+)`\)', moved, page)
open(f'{ROOT}/docs/DECISIONS.md', 'w', encoding='utf-8').write(new)

#!/usr/bin/env python3
"""Gives a lemma or a constructor that has the name of another file's definition a name of its own (tests/test_names.py holds all files to that).

usage: apart.py ROOT     a name is renamed in the file that declares it, and in each file that imports it from there
"""
import glob
import re
import sys

ROOT = sys.argv[1]
# the file that declares it, the name there, the new one
WANTED = [
    ('marks/proofs/HeardEvent', 'body_back', 'body_back_heard'), ('marks/proofs/HeardEvent', 'end_back', 'end_back_heard'), ('message/proofs/Decided', 'body_back', 'body_back_lem'),
    ('message/proofs/Decided', 'start_back', 'start_back_lem'), ('index/proofs/Order', 'by_name', 'by_name_lem'), ('encoder/proofs/Ends', 'byte_at', 'byte_at_lem'),
    ('elements/proofs/Spans', 'head_of', 'head_of_lem'), ('elements/proofs/Spans', 'list_of', 'list_of_lem'), ('search/proofs/Matched', 'last_of', 'last_of_lem'),
    ('sartrogheo/proofs/Decided', 'lent_at', 'lent_at_lem'), ('bench/proofs/Events', 'no_more', 'no_more_lem'), ('smlcat/proofs/Lines', 'part_of', 'part_of_lem'),
    ('causes/proofs/Parts', 'piece_of', 'piece_of_lem'), ('elements/proofs/Local', 'rest_of', 'rest_of_lem'), ('elements/proofs/Walkers', 'rest_of', 'rest_of_lem'),
    ('marks/proofs/FakeHosts', 'says_nothing', 'says_nothing_lem'), ('sartrogheo/proofs/Told', 'values_of', 'values_of_lem'),
    *[('since/specs/Exactly', name, name + '_exactly') for name in ('early_end', 'frame_ends', 'goes_on', 'no_escape', 'no_message', 'no_room', 'start_found', 'start_inside', 'tidy')],
    *[('since/proofs/KeptExactly', name, name + '_exactly') for name in ('kept', 'reads_act', 'reads_behind', 'reads_fresh', 'reads_from', 'second_most_matched')],
    ('since/proofs/CountsExactly', 'record_reads', 'record_reads_exactly'),
]


def renamed(text, name, new, own):
    """The word where it stands for itself: not the field of a record that is written out, nor the name of an implicit argument."""
    def one(m):
        before, behind = text[: m.start()].rsplit('\n', 1)[-1], text[m.end() : m.end() + 3]
        given = behind.startswith(' = ') and (before.endswith(('{', '{ ', '; ')) or before.strip() == '' and len(before) > (2 if own else 0))
        return name if given else new
    return re.sub(r"(?<![\w.'-])" + re.escape(name) + r"(?![\w'-])", one, text)


files = {path: open(path, encoding='utf-8').read() for path in glob.glob(ROOT + '/crates/*/**/*.antt', recursive=True) if '/out/' not in path}
files |= {path: open(path, encoding='utf-8').read() for path in glob.glob(ROOT + '/crates/*/src/**/*.rt', recursive=True)}
was = dict(files)
for place, name, new in WANTED:
    module = 'Rattle.' + place.replace('/', '.')
    own = f'{ROOT}/crates/{place}.antt'
    if own not in files or not re.search(r"^[ \w]*\b%s(?: [({].*?)? :" % re.escape(name), files[own], re.M):
        print(f'{place}: no {name}')
        continue
    for path in files:
        text = files[path]
        uses = [m for m in re.finditer(r'^(?:ghost )?use %s(?:\.\{([^}]*)\})?(?: as (\w+))?;?$' % re.escape(module), text, re.M)]
        if path == own or any(m.group(1) and name in m.group(1).split(', ') for m in uses):
            text = renamed(text, name, new, path == own)
        for m in uses:
            if m.group(2):
                text = re.sub(r"(?<![\w.])%s\.%s(?![\w'-])" % (m.group(2), re.escape(name)), f'{m.group(2)}.{new}', text)
        files[path] = text
changed = [path for path in files if files[path] != was[path]]
for path in changed:
    open(path, 'w', encoding='utf-8').write(files[path])
print(f'{len(changed)} files changed')

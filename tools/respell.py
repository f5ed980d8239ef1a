#!/usr/bin/env python3
"""Spells the repository's own words as today's Rattle does: functions, lemmas, fields and constructors of specs/ and proofs/ in
snake case, facts and types in camel case.

usage: respell.py [--names] ROOT

Run once, after port.py. Its names are those that a file of specs/ or proofs/ declares itself; a word of the kit's libraries keeps
its spelling, and so do functions of src/, exported names, strings, and the text of comments but for names in camel case.
--names prints old and new names and writes nothing. A line that begins `clash:` names a file that held the new name beside the old one.
"""
import glob
import os
import re
import sys

WORD = re.compile(r'[^\s(){}\[\].,;"«»`]+')
DECLARED = re.compile(r'^ *((?:(?:abbrev|unfoldable|pub|opaque|data|record) )*)([^\s:(){},;.]+)(?: [({].*?)? : (.*)$')
USE = re.compile(r'^\s*(?:ghost )?(?:pub )?use (\S+?)\.\{(.*)\}')
# Where the new name would be a variable's in the same file.
WORDS_APART = {'isWithin': 'span_within', 'lookUp': 'look_up_in'}
NOT_NAMES = {'--', 'let', 'in', 'λ', 'if', 'then', '(', '→', 'module'}


def shared(root):
    """The files of specs/ and proofs/ that others import: not what belongs to one function."""
    found = glob.glob(root + '/crates/*/specs/**/*.antt', recursive=True) + glob.glob(root + '/crates/*/proofs/*.antt')
    return sorted(found)


def in_specs(root):
    names = set()
    for path in glob.glob(root + '/crates/*/specs/**/*.antt', recursive=True):
        for line in open(path):
            m = DECLARED.match(line.rstrip('\n'))
            if m:
                names.add(m.group(2))
    return names


def proof_files(root):
    return sorted(glob.glob(root + '/crates/*/*/**/*.antt', recursive=True))


def declared(root):
    """Each name that a shared file declares, and whether it is a type."""
    names = {}
    for path in shared(root):
        for line in open(path):
            m = DECLARED.match(line.rstrip('\n'))
            if m and m.group(2) not in NOT_NAMES:
                is_type = bool(re.search(r'(^|→ )Type( \d)?( where)?$', m.group(3)))
                names[m.group(2)] = names.get(m.group(2), False) or is_type
    return names


def imported(root):
    """Names that come from the kit's libraries."""
    names = set()
    for path in proof_files(root) + glob.glob(root + '/crates/*/src/*.rt'):
        for line in open(path):
            m = USE.match(line)
            if m and not own(m.group(1), root):
                names.update(n.strip().split(' as ')[0] for n in m.group(2).split(','))
    return names


def own(module, root):
    m = re.match(r'Rattle\.(\w+)', module)
    return bool(m) and os.path.isdir(os.path.join(root, 'crates', m.group(1)))


def snake(name):
    name = re.sub(r'(?<=[a-z0-9])(?=[A-Z])|(?<=[A-Z])(?=[A-Z][a-z])', '_', name)
    return name.replace('-', '_').lower()


def camel(name):
    return ''.join(p[:1].upper() + p[1:] for p in re.split(r'[-_]', name))


def respelled(root):
    """What each word becomes. Where a lemma or a field would get a definition's name, it gets `_lem` or `_claim` behind it."""
    kept = imported(root)
    wanted = {}
    for name, is_type in declared(root).items():
        if name in kept or not re.fullmatch(r"[A-Za-z0-9_'-]+", name):
            continue
        if is_type:
            wanted[name] = camel(name)
        elif name[0].isupper() and '-' not in name:
            wanted[name] = name  # a constructor that stands for a case of the same name in src/
        else:
            wanted[name] = snake(name)
    rust_words = set(os.listdir(root + '/crates'))
    for path in glob.glob(root + '/crates/*/src/*.rt'):
        text = re.sub(r'^ *(//.*|ghost use .*|(requires|ensures)\b.*)$', '', open(path).read(), flags=re.M)
        rust_words.update(re.findall(r'[A-Za-z_]\w*', text))
    alike = {}
    for name, new in wanted.items():
        alike.setdefault(new, []).append(name)
    stated = in_specs(root)
    table = {}
    for new, names in alike.items():
        first = sorted(names, key=lambda n: ('-' in n or '_' in n, n))[0]
        for name in names:
            own_word = new if name == first else new + ('_claim' if name in stated else '_lem')
            own_word = WORDS_APART.get(name, own_word)
            if own_word != name and name not in rust_words:
                table[name] = own_word
    return table, sorted(n for n in declared(root) if n in kept and (re.search(r'^[a-z].*[A-Z]', n) or '-' in n))


def turned(text, table):
    return WORD.sub(lambda m: table.get(m.group(0), m.group(0)), text)


STEPS = re.compile(r'(?<=[^\s(){},;.]\.)[^\s(){},;.]+')


def walk(text, table):
    """A Proof.antt: what it cites of the steps of its own function is Rattle's, and stays."""
    fields = {k: v for k, v in table.items() if '-' not in k}
    paths = []

    def put_aside(m):
        paths.append(turned(m.group(0), fields))
        return f'\x00{len(paths) - 1}\x00'

    lines = [line if line.startswith('use ') else STEPS.sub(put_aside, line) for line in text.split('\n')]
    text = antt('\n'.join(lines), table)
    return re.sub('\x00(\\d+)\x00', lambda m: paths[int(m.group(1))], text)


def antt(text, table):
    """An .antt file: of a comment only the names in camel case, since English has hyphens too."""
    comments = {k: v for k, v in table.items() if '-' not in k}
    out = []
    for line in text.split('\n'):
        if line.lstrip().startswith('--'):
            out.append(turned(line, comments))
        else:
            code, dashes, rest = line.partition(' -- ')
            out.append(turned(code, table) + dashes + turned(rest, comments))
    return '\n'.join(out)


def rust(text, table):
    """A source: its ghost lines and clauses, and names in camel case in comments; strings stay."""
    comments = {k: v for k, v in table.items() if '-' not in k and re.search('[a-z][A-Z]', k)}
    out, clause = [], False
    for line in text.split('\n'):
        stripped = line.lstrip()
        ghost = stripped.startswith(('ghost ', 'requires', 'ensures'))
        if stripped.startswith('//'):
            out.append(turned(line, comments))
        elif ghost or clause:
            out.append(turned(line, table))
            clause = out[-1].count('{') > out[-1].count('}') or (clause and not line.rstrip().endswith('}'))
        else:
            out.append(line)
    return '\n'.join(out)


def edit(text, table):
    """A must-fail edit: its lines old: and new:, as the file that they change is turned."""
    kind = rust if re.search(r'^file: src/', text, re.M) else None
    out = []
    for line in text.split('\n'):
        m = re.match(r'(old: |new: )(.*)$', line)
        if not m:
            out.append(line)
        elif kind:
            ghost = re.match(r'\s*(requires|ensures|ghost)', m.group(2))
            out.append(m.group(1) + (turned(m.group(2), table) if ghost else m.group(2)))
        else:
            out.append(m.group(1) + turned(m.group(2), table))
    return '\n'.join(out)


def clashes(path, text, table):
    words = set(WORD.findall(text))
    for old, new in table.items():
        if old in words and new in words:
            print(f'clash: {path}: {old} {new}')


def main(args):
    only_names = '--names' in args
    root = [a for a in args if not a.startswith('--')][0]
    table, kept = respelled(root)
    seen = {}
    for old, new in sorted(table.items()):
        seen.setdefault(new, []).append(old)
    for new, olds in seen.items():
        if len(olds) > 1:
            print(f'together: {new}: {", ".join(olds)}')
    if only_names:
        for old, new in sorted(table.items()):
            print(old, new)
        print('kept, since the kit has the word too:', ', '.join(kept))
    changed = 0
    paths = [(p, antt) for p in proof_files(root)] + [(p, rust) for p in glob.glob(root + '/crates/*/src/*.rt')]
    paths += [(p, edit) for p in glob.glob(root + '/crates/*/must-fail/*')]
    for path, turn in paths:
        if path.endswith('/Proof.antt'):
            turn = walk
        text = open(path).read()
        clashes(path, text, table)
        new = turn(text, table)
        if new != text and not only_names:
            open(path, 'w').write(new)
            changed += 1
    print(f'{len(table)} names, {changed} files changed')


if __name__ == '__main__':
    main(sys.argv[1:])

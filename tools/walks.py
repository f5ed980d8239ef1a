#!/usr/bin/env python3
"""Turns the walks proofs/F/Proof.antt of one crate, as far as they only answer goals, into Invariants.antt and Answers.antt.

usage: walks.py NAMES CRATE     NAMES: the names.json that `rt check --generated DIR --old-names` writes in the crate's folder

What an answer says stays; the goals, the steps and the loop's variables get the names that Rattle gives them now. An answer that is only
a search is left out. A walk that goes by hand stays as it is.
"""
import json
import os
import re
import sys

ITEM = re.compile(r'^(?:abbrev )?(?:pub )?([^\s:]+) : (.*)$')
PLAIN = re.compile(r'^\(?search (?:rules|needs|\(\w+(?:, \w+)*\))\)?$')


def items(text):
    """(comment lines, name, signature, unfolding line, body) of each item behind the imports."""
    out, notes = [], []
    lines = text.split('\n')
    i = 0
    uses = []
    while i < len(lines):
        line = lines[i]
        if line.startswith('use '):
            uses.append(line)
        elif line.startswith('--'):
            notes.append(line)
        elif ITEM.match(line):
            block = [line]
            i += 1
            while i < len(lines) and not (lines[i].startswith('use ') or ITEM.match(lines[i]) or lines[i].startswith('--')):
                block.append(lines[i])
                i += 1
            out.append((notes, block))
            notes = []
            continue
        i += 1
    return uses, out


def norm(name):
    return name.replace('-', '_')


MODULES = set()    # the short names of the modules that the file at hand imports
KEPT_STEPS = {'args', 'ranges', 'requires', 'type_inv', 'lifetimes', 'well_formed', 'utf8', 'auto'}
ALIAS = re.compile(r"\blet ([a-z]\w*'?) = ((?:c|[a-z]\w*'?)(?:\.[\w'-]+)+) in\s?")


def new_value(path, params):
    """`.new.1.1.0`, by its place among the parameters, is the third one's new value."""
    path = ['type_inv' if p == 'type-inv' else p for p in path]
    if path[:1] != ['new'] or not params:
        return path
    n = 1
    while n < len(path) and path[n] == '1':
        n += 1
    ones = n - 1
    if n < len(path) and path[n] == '0':
        n += 1
    elif ones == 0:
        return path
    return ['new', params[ones]] + path[n:] if ones < len(params) else path


class Place:
    """A place of the function, with the places before it: how a path of the old walk reads now."""

    def __init__(self, info, old):
        at = {p[0]: k for k, p in enumerate(info['places'])}
        self.chain = []
        while old is not None and old in at:
            k = at[old]
            self.chain.append(k)
            old = info['places'][k][1]
        self.info = info

    def arm(self, step, path):
        """The field of an arm that stands for this path of an old step, and what of the path is left."""
        best = None
        for k in self.chain:
            arm = self.info['arms'][k]
            for field, old, way in (arm[2] if arm else []):
                if norm(old) == step and path[:len(way)] == way:
                    if best is None or len(way) > best[0]:
                        best = (len(way), arm[0], field)
        return best and ([best[1], best[2]], path[best[0]:])

    def known(self, step):
        """The variable whose type says this; not where it has got another value since."""
        newer = set()
        for k in self.chain:
            for var, old in self.info['typed'][k]:
                if norm(old) == step:
                    return None if var in newer else var
                newer.add(var)
        return None

    def of_call(self, step):
        """The parameters of the function that this step calls."""
        for k in self.chain:
            if norm(self.info['places'][k][2][0]) == step:
                return self.info['params'].get(self.info['places'][k][3], [])
        return []

    def turned(self, parts, lost):
        parts = [p for p in parts if p != 'before']
        parts = [parts[0]] + new_value(parts[1:], self.of_call(norm(parts[0]))) if parts else parts
        if not parts:
            return []
        step, path = norm(parts[0]), parts[1:]
        if step == 'args':
            return [step] + [norm(p) for p in path[:1]] + path[1:]
        if step in KEPT_STEPS:
            return [step] + path
        found = self.arm(step, path)
        if found:
            return found[0] + found[1]
        if path[:1] == ['given'] and self.known(step):
            return ['type_inv', self.known(step)] + path[1:]
        for k in self.chain:
            if norm(self.info['places'][k][2][0]) == step:
                return [self.info['places'][k][2][1]] + path
        for loop in self.info['loops']:
            if norm(loop[0][0]) == step:
                return [loop[0][1]] + path
        if step[:1].isupper():
            return self.turned([step[:1].lower() + step[1:]] + path, lost)
        if re.search(r'\d$', step):
            return self.turned([step.rstrip('0123456789')] + path, lost)
        lost.add(parts[0])
        return [step] + path

    def opaque(self, parts):
        """A path that names only a place, or a step of which an arm takes the parts."""
        parts = [p for p in parts if p != 'before']
        if not parts:
            return True
        step = norm(parts[0])
        if step in KEPT_STEPS:
            return False
        arms = [self.info['arms'][k] for k in self.chain]
        ways = [way for arm in arms if arm for _, old, way in arm[2] if norm(old) == step]
        return any(len(way) > len(parts) - 1 for way in ways)


def turn_body(body, place, lost):
    aliases, calls, of_args = {}, {}, set()

    def whole(name):
        return aliases.get(name, [name])

    def note(m):
        name, path = m.group(1), m.group(2).split('.')
        parts = whole(path[0])[:] + path[1:]
        if parts[0] == 'c' and place.opaque(parts[1:]):
            aliases[name] = parts
            return ''
        if parts[0] == 'c' and [p for p in parts[1:] if p != 'before'] == ['args']:
            of_args.add(name)
        bare = [p for p in parts[1:] if p != 'before']
        if parts[0] == 'c' and len(bare) == 1 and place.of_call(norm(bare[0])):
            calls[name] = place.of_call(norm(bare[0]))
        return m.group(0)

    body = ALIAS.sub(note, body)

    def path_of(m):
        path = m.group(0).split('.')
        parts = whole(path[0])[:] + path[1:]
        if parts[0] in MODULES:
            return '.'.join([parts[0]] + [norm(p) for p in parts[1:]])
        if parts[0] in of_args:
            parts[1] = norm(parts[1])
        if parts[0] in calls:
            return '.'.join([parts[0]] + new_value(parts[1:], calls[parts[0]]))
        if parts[0] != 'c':
            return '.'.join([parts[0]] + [p.replace('-', '_') for p in new_value(parts[1:], [])])
        if len(parts) == 1:
            return m.group(0)
        return '.'.join(['c'] + place.turned(parts[1:], lost))

    body = re.sub(r"(?<![\w.-])[a-z]\w*'?(?:\.[^\s(){},;.]+)+", path_of, body)
    # a test of `!b` says what b is
    return re.sub(r'(?:\w+\.)?not[-_](?:true|false|not|yes) [^\s()]+ (c\.if-not-[^\s(){},;]+)', r'\1', body)


def with_helpers(body, helpers):
    """What a walk says of a place by itself stands as a `let` in each answer that cites it: places have no name of their own now."""
    lets, unfolding = [], []
    for name, sig, opened, text in reversed(helpers):
        cited = re.compile(r'(?<![\w.-])' + re.escape(name) + r'(?: [\w-]+)*? (?:\(c(?:\.before)*\)|c(?:\.before)*)(?![\w.-])')
        if not cited.search(body) and not any(cited.search(x) for x in lets):
            continue
        kind = re.match(r'\(c : tie\.[^)]*\) → (.*)$', sig).group(1)
        said = re.match(r'\S+ c =\s*(.*)$', text, re.S)
        if not said:
            continue
        own_word = 'all_' + name.replace('-', '_') if '-' in name else name
        body = cited.sub(own_word, body)
        lets = [cited.sub(own_word, x) for x in lets]
        lets.insert(0, f'    let {own_word} : {kind} =\n      {said.group(1).rstrip()} in')
        unfolding += opened
    if not lets:
        return body, []
    words = ' '.join(dict.fromkeys(w for u in unfolding for w in u.split()[1:]))
    return '    ' + '\n'.join(lets).lstrip() + '\n    ' + body.lstrip(), ([f'unfolding {words}'] if words else [])


def loop_body(params, info, loop, text):
    """The invariant's right side, with the loop's variables as fields of l."""
    (_, new), vars_ = info['loops'][loop]
    changed = info['changed'][loop]
    table = {}
    n = len(vars_)
    late = [v for v, c in zip(vars_, changed) if c]
    for k, p in enumerate(params):
        if k < n:
            table[p] = ('l.initial.' if changed[k] else 'l.') + vars_[k]
        elif k - n < len(late):
            table[p] = 'l.' + late[k - n]
        else:
            table[p] = 'l.' + p
    return re.sub(r"(?<![\w.«-])[A-Za-z_][\w₀₁₂'-]*", lambda m: table.get(m.group(0), m.group(0)), text)


def turn(crate, path, folder, info):
    text = open(path).read()
    if 'tie.close' not in text:
        return 'by hand'
    uses, found = items(text)
    MODULES.clear()
    MODULES.update(m.group(1) for m in (re.match(r'use \S+ as (\S+)$', u) for u in uses) if m)
    uses = [u for u in uses if '.Statement.{' not in u and not u.endswith('.Tie as tie')]
    module = f"Rattle.{crate}.proofs.{folder.replace('/', '.')}"
    needs = {}
    for old, new in info['needs']:
        needs.setdefault(norm(old), new)
    place_of = {}
    for (old, new), (place, _) in zip(info['needs'], info['asked_at']):
        place_of.setdefault(new, place)
    invariants, answers, lost, helpers = [], [], set(), []
    for notes, block in found:
        m = ITEM.match(block[0])
        name, sig = m.group(1), m.group(2)
        unfolding = [b for b in block[1:] if b.startswith('unfolding ')]
        rest = [b for b in block[1:] if not b.startswith('unfolding ')]
        while rest and not rest[-1].strip():
            rest.pop()
        body = '\n'.join(rest)
        if sig.startswith(('tie.invariant-', 'tie.decreases-')):
            kind, old = re.match(r'tie\.(invariant|decreases)-(\S+)', sig).groups()
            at = [k for k, l in enumerate(info['loops']) if norm(l[0][0]) == norm(old)]
            if not at:
                lost.add(sig)
                continue
            new = f"{kind}-{info['loops'][at[0]][0][1]}"
            left, right = re.match(r'\S+((?: \S+)*?) =\s(.*)$', body, re.S).groups()
            said = loop_body(left.split(), info, at[0], right)
            invariants.append('\n'.join(notes + [f'abbrev pub {new} : goal.{new}'] + unfolding + [f'{new} l = {said}']))
        elif sig.startswith('tie.Need-'):
            old = norm(re.match(r'tie\.Need-(\S+)', sig).group(1))
            key = old if old in needs else old.replace('overflow_', '', 1)
            key = key if key in needs else norm(name)
            if key not in needs:
                lost.add(sig)
                continue
            new = needs[key]
            left, right = re.match(r'\S+((?: \S+)*?) =\s?(.*)$', body, re.S).groups()
            if PLAIN.match(' '.join(right.split())):
                continue
            right, more = with_helpers(right, helpers)
            unfolding = [' '.join(unfolding + [m for m in more if m not in unfolding])] if unfolding else more[:1]
            said = turn_body(right, Place(info, place_of[new]), lost)
            notes = [n for n in notes if not n.startswith('-- src/')]
            args = ' '.join(a for a in left.split() if a != 'κs')
            sep = '\n' if right.startswith('   ') else ' '
            answers.append('\n'.join(notes + [f'pub {new} : goal.{new}'] + unfolding + [f'{new} {args} ={sep}{said}']))
        elif name.endswith(('-spec', '_spec')):
            continue
        elif re.match(r'\(c : tie\.[^)]*\) → ', sig):
            helpers.append((name, sig, unfolding, body))
        else:
            answers.append('\n'.join(notes + block[:1] + unfolding + [body]))
    os.remove(path)
    where = os.path.dirname(path)
    for file, kind, parts in (('Invariants', 'Given', invariants), ('Answers', 'Goals', answers)):
        if parts:
            words = '\n'.join(parts)
            keep = [u for u in (cut_use(u, words) for u in uses) if u]
            with open(os.path.join(where, file + '.antt'), 'w') as f:
                f.write('\n'.join(keep + [f'use {module}.{kind} as goal', '']) + '\n' + '\n\n'.join(parts) + '\n')
    if not os.listdir(where):
        os.rmdir(where)
    return ('lost ' + ', '.join(sorted(lost))) if lost else 'turned'


def cut_use(line, words):
    """The import, with only the words that are used; a whole module stays where its name is used."""
    m = re.match(r'use (\S+)\.\{(.*)\}$', line)
    if not m:
        as_ = re.match(r'use \S+(?: as (\S+))?$', line)
        short = as_.group(1) or line.split('.')[-1]
        return line if re.search(r'(?<![\w.])' + re.escape(short) + r'\.', words) else None
    left = []
    for w in m.group(2).split(', '):
        bare = w.split(' as ')[-1]
        parts = [p for p in bare.split('◌') if p]
        if not parts or all(re.search(r"(?<![^\s(){},;.])" + re.escape(p) + r"(?![^\s(){},;.])", words) for p in parts):
            left.append(w)
    return f"use {m.group(1)}.{{{', '.join(left)}}}" if left else None


def main(names_path, crate_dir):
    names = json.load(open(names_path))
    crate = os.path.basename(os.path.abspath(crate_dir))
    for at, _, files in sorted(os.walk(os.path.join(crate_dir, 'proofs'))):
        if 'Proof.antt' not in files:
            continue
        folder = os.path.relpath(at, os.path.join(crate_dir, 'proofs'))
        key = f"Rattle-{crate}-proofs.{folder.replace('/', '.')}.Lts"
        if key not in names:
            print(folder, 'no names')
            continue
        print(folder, turn(crate, os.path.join(at, 'Proof.antt'), folder, names[key]))


if __name__ == '__main__':
    main(*sys.argv[1:])

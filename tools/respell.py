#!/usr/bin/env python3
"""Brings the names of this repository's own definitions and lemmas to the spelling of today's Rattle.

Run once at the top, behind the kit's port.py. Definitions are in snake case, types, facts and modules in camel case,
and a dash stands between two names of definitions only, as in `length-drop`. Names of src/, of generated goals and of
exports stay. It says which names would fall together with another name of a file, and renames those by TAKEN.
"""
import collections
import glob
import os
import re
import subprocess
import sys

LANDED = '30e050a90bd30ac8073d4e9862bb9c2a079ccb70'
TOKEN = re.compile(r"[^\s(){}\[\],.;@`\"⌜⌝↦]+")
DEFINITION = re.compile(r"^( *)((?:abbrev|unfoldable|pub|axiom|record|data|module) +)*([^\s:{}()@`]+(?: [^\s:{}()@`]+)*) :", re.M)
# Names that Rattle makes for a function's proof file.
GENERATED = re.compile(r"^(invariant|decreases|ghost|loop|returns|overflow|bounds|slice_bounds)-|-(spec|requires|preserved|init|smaller)$")
# std's words, beside which a dash may stand.
STD_WORDS = {'length', 'take', 'get_or'}
# Fields of records that would have a definition's name.
FIELDS = {'rows_fit': 'rows_there', 'count-of': 'count_is'}


def names_of(texts):
    found = collections.defaultdict(set)
    for path, text in texts:
        for match in DEFINITION.finditer(text):
            for name in match.group(3).split():
                found[name].add(path)
    return found


def snake(word):
    if not re.match(r"[a-z]", word):
        return word
    word = re.sub(r"([a-z0-9'])([A-Z]+)", lambda m: m.group(1) + '_' + m.group(2).lower(), word)
    return word


def respelled(name, words):
    """A dash stays behind the name of a definition or of a fact that a lemma's name begins with; other words are joined by `_`."""
    parts = [snake('get_or' if part == 'getD' else part) for part in name.split('-')]
    for at in range(len(parts) - 1, 0, -1):
        head = '_'.join(parts[:at])
        if head in words or (at == 1 and re.match('[A-Z]', head)):
            return head + '-' + '_'.join(parts[at:])
    return '_'.join(parts)


def tree_texts(root):
    for path in sorted(glob.glob(root + '/crates/*/specs/**/*.antt', recursive=True)
                       + glob.glob(root + '/crates/*/proofs/**/*.antt', recursive=True)):
        yield path, open(path, encoding='utf-8').read()


def landed_texts():
    listed = subprocess.run(['git', 'ls-tree', '-r', '--name-only', LANDED], capture_output=True, text=True, check=True)
    for path in listed.stdout.split('\n'):
        if path.endswith('.antt'):
            shown = subprocess.run(['git', 'show', LANDED + ':' + path], capture_output=True, text=True, check=True)
            yield path, shown.stdout


def wanted(name):
    if GENERATED.search(name) or not re.match(r"[A-Za-z]", name):
        return False
    if not re.fullmatch(r"[A-Za-z0-9_'′-]+", name):
        return False
    return '-' in name or bool(re.match(r"[a-z].*[A-Z]", name))


def mapping():
    """What each name becomes. A lemma that would have a definition's name gets `_lem`."""
    names = names_of(tree_texts('.'))
    old = names_of(landed_texts())
    defined = {snake(n) for n, at in names.items() if any('/specs/' in p for p in at) and '-' not in n}
    words = {n for n in defined if '_' in n} | STD_WORDS
    to = {}
    for name in list(names) + list(old):
        if wanted(name) and '-' not in name:
            to[name] = snake(name).replace('′', "'")
    made = {to[name] for name in names if name in to}
    for name in names:
        if name in made and not any('/specs/' in p for p in names[name]) and name not in FIELDS:
            to[name] = name + '_lem'
    for name in names:
        if wanted(name) and '-' in name:
            new = respelled(name, words).replace('′', "'")
            to[name] = new + '_lem' if new in made or (new != name and new in names) else new
    for name in old:
        if wanted(name) and name not in to:
            to[name] = name.replace('-', '_').replace('′', "'")
    to.update(FIELDS)
    return to, names


def turn(text, to, path=''):
    def one(match):
        token = match.group(0)
        new = to.get(token, token)
        if new == token:
            return token
        if path.endswith('.rt') and re.fullmatch('[a-z0-9_]+', token):
            return token
        if new.endswith('_lem') and '-' not in token and match.start() > 0 and text[match.start() - 1] == '.':
            return token
        return new
    return TOKEN.sub(one, text)


def together(to):
    """Names that would stand for two things in one file."""
    found = []
    for path in sorted(glob.glob('crates/*/**/*.antt', recursive=True) + glob.glob('crates/*/src/**/*.rt', recursive=True)):
        tokens = set(TOKEN.findall(open(path, encoding='utf-8').read()))
        made = collections.defaultdict(set)
        for token in tokens:
            made[turn(token, to, path)].add(token)
        for new, olds in made.items():
            if len(olds) > 1:
                found.append((path, new, sorted(olds)))
    return found


def crate_name(text):
    """The kit has a library `bytes`, so this repository's is `lent_bytes`."""
    text = re.sub(r"(?<![\w.])bytes::", "lent_bytes::", text)
    return re.sub(r"Rattle\.bytes\.", "Rattle.lent_bytes.", text)


def move_crate():
    if os.path.isdir('crates/bytes'):
        subprocess.run(['git', 'mv', 'crates/bytes', 'crates/lent_bytes'], check=True)
    text = open('crates.txt', encoding='utf-8').read()
    open('crates.txt', 'w', encoding='utf-8').write(re.sub(r"\bbytes\b", "lent_bytes", text))


def main():
    to, _ = mapping()
    if '--look' in sys.argv:
        for name in sorted(to):
            print(name, to[name])
        for path, new, olds in together(to):
            print('together:', path, new, *olds)
        return
    for path in sorted(glob.glob('crates/*/**/*.antt', recursive=True) + glob.glob('crates/*/src/**/*.rt', recursive=True)):
        if '/out/' in path:
            continue
        text = open(path, encoding='utf-8').read()
        new = crate_name(turn(text, to, path))
        if new != text:
            open(path, 'w', encoding='utf-8').write(new)
    move_crate()
    for path in ['README.md'] + sorted(glob.glob('docs/*.md')):
        text = open(path, encoding='utf-8').read()
        new = re.sub(r"`[^`\n]+`", lambda m: turn(m.group(0), to), text)
        if new != text:
            open(path, 'w', encoding='utf-8').write(new)


main()

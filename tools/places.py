#!/usr/bin/env python3
"""Counts in src/ the places of docs/DESIGN-PASS.md, a line for each point; with -v each place too."""
import re
import sys
from collections import defaultdict
from pathlib import Path

TOP = Path(__file__).resolve().parent.parent
VERBOSE = '-v' in sys.argv
TOKEN = re.compile(r'[A-Za-z_]\w*|\d\w*|::|->|=>|[^\sA-Za-z_0-9]')
WORDS = set('as bool break const crate else enum false fn for if impl in let loop match mod mut pub return self struct true u8 u16 u32 u64 '
            'usize i32 i64 use while Some None Ok Err Option Result'.split())


def sources():
    for path in sorted((TOP / 'crates').glob('*/src/**/*.rt')):
        yield path.relative_to(TOP), path.read_text()


def without_comments(text):
    return re.sub(r'//.*', '', text)


def say(point, places):
    print(f'{point}: {len(places)}')
    if VERBOSE:
        for place in places:
            print('   ', place)


def lines(pattern):
    """the lines of code that a pattern fits"""
    found = []
    for path, text in sources():
        for number, line in enumerate(text.split('\n'), 1):
            code = line.split('//')[0]
            if re.search(pattern, code):
                found.append(f'{path}:{number}: {code.strip()}')
    return found


def enums():
    """own enums of two variants, one of which holds a value: the shape of Option or Result"""
    found = []
    for path, text in sources():
        for m in re.finditer(r'enum (\w+) \{\n(.*?)\n\}', without_comments(text), re.S):
            variants = re.findall(r'^    (\w+)(.?)', m.group(2), re.M)
            if len(variants) == 2 and any(mark in '({' for _, mark in variants if mark):
                found.append(f'{path}: {m.group(1)}: {", ".join(name for name, _ in variants)}')
    return found


def functions():
    """each function: its place, name, parameters, body"""
    for path, text in sources():
        code = without_comments(text)
        for m in re.finditer(r'\bfn (\w+)(?:<[^>]*>)?\(', code):
            i, depth = m.end(), 1
            while depth:
                depth += {'(': 1, ')': -1}.get(code[i], 0)
                i += 1
            # the body's brace ends the line of the parameters, or stands alone behind the contract
            head = re.compile(r'[^\n]*\{\n').match(code, i) or re.compile(r'^ *\{\n', re.M).search(code, i)
            if not head:
                continue
            begin = head.end()
            depth, end = 1, begin
            while depth and end < len(code):
                depth += {'{': 1, '}': -1}.get(code[end], 0)
                end += 1
            yield path, m.group(1), code[m.end():i - 1], code[begin:end - 1]


def shape(body):
    """the body with each name by the order in which it comes, numbers and literals as they are"""
    names = {}
    out = []
    for token in TOKEN.findall(body):
        if re.match(r'[A-Za-z_]', token) and token not in WORDS:
            token = names.setdefault(token, f'n{len(names)}')
        out.append(token)
    return ' '.join(out)


def twins():
    """functions whose bodies, of 30 tokens and more, differ in names alone: each but the first of its kind"""
    kinds = defaultdict(list)
    for path, name, _, body in functions():
        key = shape(body)
        if len(key.split()) >= 30:
            kinds[key].append(f'{path}: {name}')
    return [f'{members[0]} = {other}' for members in kinds.values() for other in members[1:]]


def together(*names):
    found = []
    for path, name, params, _ in functions():
        if set(names) <= set(re.findall(r'(\w+)\s*:', params)):
            found.append(f'{path}: {name}')
    return found


def main():
    say('1 own enums of the shape of Option or Result', enums())
    say('1 constants that stand for none or for a kind', lines(r'^\s*(pub )?const (NO_\w+|STD\w+|[A-Z_]+: Family|START_VALUES|GOAL_PAIRS|SOME_VALUE|TWO_VALUES|PRECONDITIONS_HOLD|EFFECTS_HOLD|VALUES_STAY)\b'))
    say('1 families compared as numbers', lines(r'\b(f|family) == '))
    say('2 functions that differ from another in names alone', twins())
    say('3 loops by while', lines(r'^\s*(while|loop)\b'))
    say('4 comparisons, minima and the like by hand', lines(r'\bfn (smaller|larger|one_less|in_word|is_pair|is_same|one_fits|excess_with|awaits_\w+|is_digit|worth|line_end|piece_end)\('))
    say('4 conversions by as', lines(r' as (usize|u8|u16|u32|u64|i32|i64)\b'))
    say('5 parameters file and index', together('file', 'index'))
    say('5 parameters given and truth', together('given', 'truth'))
    say('5 parameters sizes, start, goal and actions', together('sizes', 'start', 'goal', 'actions'))
    say('6 a buffer with its length beside', together('line', 'held'))
    say('7 steps switched by a number', lines(r'\b(f|family|kind) == '))


main()

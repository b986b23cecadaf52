#!/usr/bin/env python3
"""Writes a large text as the Fast Downward translator would: a task at its limits (96 variables, 1,024 values, 96 goal facts, 512 operators with 8 and
8 pairs), about half of the bytes in mutex groups and half in names: largest_text.py [GROUPS NAME_BYTES]."""
import sys

VARIABLES, VALUES, OPERATORS, PAIRS = 96, 1024, 512, 8
FACTS_IN_GROUP = 100
GROUPS, NAME_BYTES = (int(word) for word in sys.argv[1:] or ('52000', '21000'))

# the first variables have one value more, so that all are 1,024
sizes = [VALUES // VARIABLES + (x < VALUES % VARIABLES) for x in range(VARIABLES)]


def long_name(words):
    """A name as the translator makes them, with arguments until it is long enough."""
    return (words + ' place' * (NAME_BYTES // len(' place') + 1))[:max(NAME_BYTES, len(words))]


def variable(x):
    atoms = [long_name(f'Atom at(thing{x}, place{v})') for v in range(sizes[x])]
    return ['begin_variable', f'var{x}', '-1', str(sizes[x])] + atoms + ['end_variable']


def mutex_group(i):
    chosen = [(i + 7 * j) % VARIABLES for j in range(FACTS_IN_GROUP)]
    return ['begin_mutex_group', str(FACTS_IN_GROUP)] + [f'{x} {(i + x) % sizes[x]}' for x in chosen] + ['end_mutex_group']


def operator(a):
    """Pairs in falling order of variable; half of the preconditions are prevail conditions, half are old values."""
    first = a % (VARIABLES - 2 * PAIRS)
    prevails = [first + i for i in reversed(range(PAIRS // 2))]
    changed = [first + PAIRS + i for i in reversed(range(PAIRS))]
    effects = [f'0 {x} {a % sizes[x] if i % 2 else -1} {(a + 1) % sizes[x]}' for i, x in enumerate(changed)]
    return (['begin_operator', long_name(f'move thing{a}'), str(len(prevails))] + [f'{x} {a % sizes[x]}' for x in prevails]
            + [str(len(effects))] + effects + ['1', 'end_operator'])


def write(lines):
    sys.stdout.write('\n'.join(lines) + '\n')


write(['begin_version', '3', 'end_version', 'begin_metric', '1', 'end_metric', str(VARIABLES)])
for number in range(VARIABLES):
    write(variable(number))
write([str(GROUPS)])
for number in range(GROUPS):
    write(mutex_group(number))
write(['begin_state'] + ['0'] * VARIABLES + ['end_state', 'begin_goal', str(VARIABLES)])
write([f'{x} {sizes[x] - 1}' for x in reversed(range(VARIABLES))] + ['end_goal', str(OPERATORS)])
for number in range(OPERATORS):
    write(operator(number))
write(['0'])

#!/usr/bin/env python3
"""Writes the model program's input for the largest formula: 16 variables of 64 values, 16 goal pairs, 512 actions with 8 and 8 pairs,
horizon 64, and a solver's output that states a good schedule with a move at every other step."""
import struct
import sys

VARIABLES, VALUES, ACTIONS, PAIRS, HORIZON = 16, 64, 512, 8, 64
WIDEST_LINE = 78

# each action asks for the value 0 of every second variable, and sets the same variables to it again
sizes = bytes([VALUES] * VARIABLES)
start = bytes(VARIABLES)
goal = b''.join(bytes([x, 0]) for x in range(VARIABLES))
actions = b''
for a in range(ACTIONS):
    pairs = b''.join(bytes([2 * i + a % 2, 0]) for i in range(PAIRS))
    actions += bytes([PAIRS, PAIRS]) + pairs + pairs
contents, at = b'', 16
for body in (sizes, start, goal, actions):
    contents += struct.pack('<HH', at, len(body))
    at += len(body)
task = contents + sizes + start + goal + actions

schedule = [(5 * s) % ACTIONS + 1 if s % 2 else 0 for s in range(HORIZON)]
true = set()
width = VARIABLES * VALUES + ACTIONS
for s in range(HORIZON + 1):
    true.update(s * width + VALUES * x + 1 for x in range(VARIABLES))
    if s < HORIZON and schedule[s]:
        true.add(s * width + VARIABLES * VALUES + schedule[s])
lines, line = ['s SATISFIABLE'], 'v'
for number in [str(i if i in true else -i) for i in range(1, HORIZON * width + VARIABLES * VALUES + 1)] + ['0']:
    if len(line) + 1 + len(number) > WIDEST_LINE:
        lines.append(line)
        line = 'v'
    line += ' ' + number
output = '\n'.join(lines + [line, ''])
sys.stdout.buffer.write(bytes([HORIZON]) + struct.pack('<H', len(task)) + task + output.encode())

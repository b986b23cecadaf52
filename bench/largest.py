#!/usr/bin/env python3
"""Writes the clause program's input for the largest task: 16 variables of 64 values, 16 goal pairs, 512 actions with 8 and 8 pairs, horizon 64."""
import struct
import sys

sizes = bytes([64] * 16)
start = bytes(16)
goal = b''.join(bytes([x, 63]) for x in range(16))
actions = b''
for a in range(512):
    before = b''.join(bytes([2 * i + a % 2, (a + i) % 64]) for i in range(8))
    after = b''.join(bytes([2 * i + a // 2 % 2, (3 * a + i) % 64]) for i in range(8))
    actions += bytes([8, 8]) + before + after
contents, at = b'', 16
for body in (sizes, start, goal, actions):
    contents += struct.pack('<HH', at, len(body))
    at += len(body)
sys.stdout.buffer.write(bytes([64]) + contents + sizes + start + goal + actions)

#!/usr/bin/env python3
"""Times two programs on one input, and tells the most memory that each had on two: measure.py OURS PLAIN LARGEST SMALL."""
import hashlib
import os
import subprocess
import sys
import time

RUNS = 3


def text_of(program, path):
    """The bytes printed, as a hash and a count, so that nobody has to hold them."""
    digest, size = hashlib.sha256(), 0
    with open(path, 'rb') as given, subprocess.Popen([program], stdin=given, stdout=subprocess.PIPE) as running:
        for part in iter(lambda: running.stdout.read(1 << 20), b''):
            digest.update(part)
            size += len(part)
    return digest.hexdigest(), size


def high_water(pid):
    """The most KiB of memory that a running process has had so far; 0 once it has none."""
    try:
        with open(f'/proc/{pid}/status', encoding='ascii') as status:
            return max((int(line.split()[1]) for line in status if line.startswith('VmHWM')), default=0)
    except OSError:
        return 0


def once(program, path):
    """Seconds of the processor, and the most KiB of memory, looked at every millisecond."""
    with open(path, 'rb') as given, open(os.devnull, 'wb') as nowhere:
        running = subprocess.Popen([program], stdin=given, stdout=nowhere)
        most = 0
        while True:
            most = max(most, high_water(running.pid))
            pid, status, used = os.wait4(running.pid, os.WNOHANG)
            if pid:
                break
            time.sleep(0.001)
    if status != 0:
        sys.exit(f'{program} failed')
    return used.ru_utime + used.ru_stime, most


def main():
    ours, plain, largest, small = sys.argv[1:]
    here, there = text_of(ours, largest), text_of(plain, largest)
    if here != there:
        sys.exit('the two programs do not print the same text')
    print(f'{here[1]} bytes, the same by both')
    programs = {'proved': ours, 'plain C': plain}
    # the two take turns, so that a busy machine slows both
    turns = [{name: once(program, largest) for name, program in programs.items()} for _ in range(RUNS)]
    best = {name: min(turn[name][0] for turn in turns) for name in programs}
    for name, program in programs.items():
        most = max(turn[name][1] for turn in turns)
        print(f'{name}: {best[name]:.2f} s, at most {most} KiB; on the folder example {once(program, small)[1]} KiB')
    print(f"proved / plain C: {best['proved'] / best['plain C']:.2f}")


main()

#!/usr/bin/env python3
"""Rehearsals beside a plain Rust program that does the same work, with nothing proved of it.

    bench/peers.py PROGRAM [WORD]

Needs rustc, which builds the peer in bench/peers with -O. Each script (those whose name has WORD, where it is given) is played by
both, which have to print the same; told are the least times of fifteen runs in turns, and the ratio of the first to the second.
"""
import os
import subprocess
import sys
import tempfile
import time

import proved

from scripts import heard_again, in_hand, long_tapes, released

HERE = os.path.dirname(os.path.abspath(__file__))
EXAMPLES = os.path.join(HERE, '..', 'examples')
RUNS = 15

KINDS = [
    ('1,000 numbers in hand', in_hand(1000)),
    ('10,000 numbers in hand', in_hand(10000)),
    ('1,000 numbers released', released(1000)),
    ('8,000 numbers released', released(8000)),
    ('one vote 4,000 times', heard_again(4000)),
    ('100 tapes of 4,096 frames', long_tapes(100)),
]


def printed(command):
    return subprocess.run(command, capture_output=True, check=True).stdout


def seconds(command):
    began = time.perf_counter()
    subprocess.run(command, stdout=subprocess.DEVNULL, check=True)
    return time.perf_counter() - began


def main():
    if len(sys.argv) not in (2, 3):
        sys.exit(__doc__)
    program = proved.program(sys.argv[1])
    word = sys.argv[2] if len(sys.argv) == 3 else ''
    with tempfile.TemporaryDirectory() as work:
        peer, path = os.path.join(work, 'peer'), os.path.join(work, 'script')
        subprocess.run(['rustc', '--edition', '2024', '-O', '-o', peer, f'{HERE}/peers/rehearse.rs'], check=True)
        files = [f'{EXAMPLES}/codes.toml', f'{EXAMPLES}/widths.toml', path]
        both = [[program, 'rehearse', *files], [peer, *files]]
        for name, lines in KINDS:
            if word not in name:
                continue
            with open(path, 'w') as script:
                script.write('\n'.join(lines) + '\n')
            if printed(both[0]) != printed(both[1]):
                sys.exit(f'{name}: the two do not print the same')
            ours, plain = map(min, zip(*[[seconds(command) for command in both] for _ in range(RUNS)]))
            print(f'{name:26} {ours * 1e3:7.1f} ms, plain Rust {plain * 1e3:7.1f} ms, {ours / plain:.2f} times', flush=True)


main()

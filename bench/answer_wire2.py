#!/usr/bin/env python3
"""`answer --wire 2` beside a plain Rust program that does the same work, with nothing proved of it.

    bench/answer_wire2.py PROGRAM [WORD]

Needs rustc, which builds the peer in bench/peers with -O. Each input (those whose name has WORD, where it is given) is answered by
both, which have to print the same; told are the least times of fifteen runs in turns, and the ratio of the first to the second.
Both unpack each tape that they vote for, and pack it again for the reply.
"""
import os
import random
import struct
import subprocess
import sys
import tempfile
import time

import proved

HERE = os.path.dirname(os.path.abspath(__file__))
CIRCUIT, MEMBER = 7, 2
RUNS = 15


def packed(frames):
    """The six bits of each frame, the highest first, and zero bits as far as the end of the last byte."""
    bits = 0
    for frame in frames:
        bits = bits << 6 | frame
    pad = -6 * len(frames) % 8
    return (bits << pad).to_bytes((6 * len(frames) + pad) // 8, 'big')


def lines(count, numbers, frames, seed=1):
    """Half Prepares, and Accepts of tapes of so many frames, one in twenty of a withdrawal; some lines are no packet."""
    drawn, out = random.Random(seed), []
    for i in range(count):
        number, owner, round_ = drawn.randrange(1, numbers + 1), drawn.choice([1, 3, 4, 5]), 1 + i // 200 + drawn.randrange(3)
        head = struct.pack('>HBBIIB', CIRCUIT, owner, MEMBER, number, round_, owner)
        kind = drawn.random()
        if kind < 0.5:
            packet = b'TN\2\1' + head
        elif kind < 0.95:
            tape = [] if drawn.random() < 0.05 else [drawn.randrange(64) for _ in range(frames)]
            packet = b'TN\2\3' + head + struct.pack('>H', len(tape)) + packed(tape)
        else:
            packet = bytes(drawn.randrange(256) for _ in range(20))
        out.append(packet.hex())
    return out


def rounds(count, frames, seed=1):
    """Prepares and Accepts of one number in turns, each of a higher ballot: all are taken, and each vote is reported."""
    drawn, out = random.Random(seed), []
    for round_ in range(1, count // 2 + 1):
        head = struct.pack('>HBBIIB', CIRCUIT, 1, MEMBER, 12, round_, 1)
        tape = [drawn.randrange(64) for _ in range(frames)]
        out.append((b'TN\2\1' + head).hex())
        out.append((b'TN\2\3' + head + struct.pack('>H', frames) + packed(tape)).hex())
    return out


KINDS = [
    ('nothing', lambda: []),
    ('19,500 lines of 100 numbers', lambda: lines(19500, 100, 12)),
    ('19,500 lines of 999,999 numbers', lambda: lines(19500, 999999, 12)),
    ('120 lines of 4,096 frames', lambda: lines(120, 10, 4096)),
    ('60 lines of 16,384 frames', lambda: lines(60, 10, 16384)),
    ('20 rounds of 16,384 frames', lambda: rounds(40, 16384)),
    ('3,000 rounds of 40 frames', lambda: rounds(6000, 40)),
]

# Lines whose replies were worked out by hand.
WORKED = [
    ('544e0203000701020000000c000000010100070420c10c2100', '544e0204000702010000000c000000010100070420c10c2100'),
    ('544e0203000701020000000c000000010100070420c10c2101', 'refused bad-pad'),
    ('544e0203000701020000000d00000001010000', '544e0204000702010000000d00000001010000'),
]


def answered(command, path):
    with open(path) as asked:
        return subprocess.run(command, stdin=asked, capture_output=True, check=True).stdout


def seconds(command, path):
    with open(path) as asked:
        began = time.perf_counter()
        subprocess.run(command, stdin=asked, stdout=subprocess.DEVNULL, check=True)
        return time.perf_counter() - began


def write(path, text):
    with open(path, 'w') as asked:
        asked.writelines(line + '\n' for line in text)


def main():
    if len(sys.argv) not in (2, 3):
        sys.exit(__doc__)
    program = proved.program(sys.argv[1])
    word = sys.argv[2] if len(sys.argv) == 3 else ''
    with tempfile.TemporaryDirectory() as work:
        peer, path = os.path.join(work, 'peer'), os.path.join(work, 'asked')
        subprocess.run(['rustc', '--edition', '2024', '-O', '-o', peer, f'{HERE}/peers/answer_wire2.rs'], check=True)
        seat = [str(CIRCUIT), str(MEMBER)]
        both = [[program, 'answer', *seat, '--wire', '2'], [peer, *seat]]
        write(path, [asked for asked, _ in WORKED])
        for command in both:
            if answered(command, path).decode().splitlines() != [reply for _, reply in WORKED]:
                sys.exit(f'{command[0]} does not answer the worked lines as they are worked out')
        for name, asked in KINDS:
            if word not in name:
                continue
            write(path, asked())
            if answered(both[0], path) != answered(both[1], path):
                sys.exit(f'{name}: the two do not print the same')
            ours, plain = map(min, zip(*[[seconds(command, path) for command in both] for _ in range(RUNS)]))
            print(f'{name:32} {ours * 1e3:7.1f} ms, plain Rust {plain * 1e3:7.1f} ms, {ours / plain:.2f} times', flush=True)


main()

#!/usr/bin/env python3
"""The time and the size of `draw`, of this program beside another, an earlier one.

    bench/drawings.py PROGRAM OTHER

Both draw the same tapes: river.txt so often that the tape has about so many frames, up to 16,384. The times are the least of fifteen runs
in turns, in milliseconds, with the start of a process in them; it is told too, as the time of `--version`. The height is that of the
document in user units.
"""
import os
import re
import subprocess
import sys
import tempfile
import time

import proved

HERE = os.path.dirname(os.path.abspath(__file__))
WIRE = os.path.join(HERE, '..', 'examples', 'wire')
RUNS = 15


def tape_of(program, times):
    """The tape of river.txt so many times over."""
    with open(os.path.join(WIRE, 'river.txt'), 'rb') as file:
        text = file.read()
    asked = [program, 'punch', os.path.join(WIRE, 'codes.toml'), '-', '--most', '16384']
    return subprocess.run(asked, input=text * times, stdout=subprocess.PIPE, check=True).stdout


def timed(asked):
    """How long a command took, and what it wrote."""
    began = time.perf_counter()
    ran = subprocess.run(asked, stdout=subprocess.PIPE, check=True)
    return 1000 * (time.perf_counter() - began), ran.stdout


def beside(programs, words):
    """The least time of each program, and what it wrote."""
    least, wrote = [float('inf')] * len(programs), [b''] * len(programs)
    for _ in range(RUNS):
        for at, program in enumerate(programs):
            took, wrote[at] = timed([program, *words])
            least[at] = min(least[at], took)
    return least, wrote


def main():
    if len(sys.argv) != 3:
        sys.exit(__doc__)
    programs = [proved.program(word) for word in sys.argv[1:]]
    starts, _ = beside(programs, ['--version'])
    print(f'--version: {starts[0]:.1f} ms and {starts[1]:.1f} ms')
    for times in (1, 10, 41):
        with tempfile.NamedTemporaryFile(suffix='.tape') as file:
            tape = tape_of(programs[0], times)
            file.write(tape)
            file.flush()
            words = ['draw', os.path.join(WIRE, 'codes.toml'), os.path.join(WIRE, 'widths.toml'), file.name]
            least, wrote = beside(programs, words)
        for program, took, document in zip(('this', 'other'), least, wrote):
            height = re.search(rb"height='(\d+)'", document).group(1).decode()
            print(f'{len(tape)} frames, {program}: {took:.1f} ms, {len(document) / len(tape):.0f} bytes a frame, {height} units high')
        print(f'{len(tape)} frames: {least[0] / least[1]:.2f} times the time, {len(wrote[0]) / len(wrote[1]):.2f} times the bytes')


if __name__ == '__main__':
    main()

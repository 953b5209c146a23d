#!/usr/bin/env python3
"""How many instructions a station spends on putting one long story on the wire, by valgrind's callgrind: a count, and no time.

    bench/packings.py PROGRAM [BEFORE]

Stations of 3 and of 15 members `serve` on 127.0.0.1, all rows in layout 2, and the first, which runs under callgrind, offers one tape of
16,384 frames. What it spends is told for each count of members, less what it spends where it offers seven frames: what only the
length of the tape costs. With another program behind it the same is told of that one, in turns, and the ratio.
"""
import os
import re
import shutil
import statistics
import subprocess
import sys
import tempfile

import proved

import burst
import sealing

TURNS = 150
ROUNDS = 3


def instructions(program, folder, members, tape):
    """How many instructions the first station ran, which offered the tape; it has to print it."""
    home = tempfile.mkdtemp(dir=folder)
    addresses = [('127.0.0.1', port) for port in burst.free_ports(members)]
    for name in ('codes.toml', 'widths.toml'):
        shutil.copy(os.path.join(burst.EXAMPLES, name), home)
    with open(os.path.join(home, 'offer.tape'), 'wb') as file:
        file.write(tape)
    stations = ''.join(f'[[station]]\nmember = {other}\nip = "{ip}"\nport = {port}\n' for other, (ip, port) in enumerate(addresses, 1))
    for member in range(1, members + 1):
        with open(os.path.join(home, f'station{member}.toml'), 'w') as config:
            config.write(f'circuit = 7\nmember = {member}\ntable = "codes.toml"\nwidths = "widths.toml"\nrows = "station{member}.db"\n{stations}')
    words = ['serve', '--create', '--layout', '2']
    others = [subprocess.Popen([program, *words, f'station{member}.toml', '--turns', '1000000'], cwd=home, stdout=subprocess.DEVNULL, stderr=subprocess.DEVNULL)
              for member in range(2, members + 1)]
    try:
        first = subprocess.run(['valgrind', '--tool=callgrind', '--callgrind-out-file=/dev/null', program, *words, 'station1.toml', '--turns', str(TURNS),
                                '--number', '12', '--tape', 'offer.tape'], cwd=home, capture_output=True, text=True, timeout=600)
    finally:
        for other in others:
            other.kill()
            other.wait()
    if not first.stdout.startswith('release 12 '):
        sys.exit(f'{members} members: nothing was released: {first.stderr}')
    return int(re.search(r'Collected : (\d+)', first.stderr)[1])


def main():
    programs = [proved.program(word) for word in sys.argv[1:]]
    if not 1 <= len(programs) <= 2:
        sys.exit(__doc__)
    short = burst.LINES[0]
    with tempfile.TemporaryDirectory() as folder:
        for members in (3, 15):
            told = []
            for program in programs:
                spent = [instructions(program, folder, members, sealing.LONGEST) - instructions(program, folder, members, short) for _ in range(ROUNDS)]
                told.append(statistics.median(spent))
            line = ', '.join(f'{count / 1e6:.2f} million' for count in told)
            print(f'{members} members: {line}' + (f', {told[0] / told[1]:.2f} times' if len(told) == 2 else ''), flush=True)


if __name__ == '__main__':
    main()

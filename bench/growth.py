#!/usr/bin/env python3
"""How the time of a rehearsal grows with its script.

    bench/growth.py PROGRAM [RUNS]

Each kind of script is played at some length and at twice that: numbers that stay in hand, numbers that are released, and one
vote that is heard again and again. Printed are the least times of so many runs (5 where none are given), and by what the second
is greater than the first: near 2 where the work is as long as the script, and 4 where each step looks at all before it.
"""
import os
import subprocess
import sys
import tempfile
import time

import proved

from scripts import heard_again, in_hand, released

HERE = os.path.dirname(os.path.abspath(__file__))
EXAMPLES = os.path.join(HERE, '..', 'examples')
KINDS = [('numbers in hand', in_hand, 2000), ('numbers released', released, 2000), ('one vote again', heard_again, 8000)]


def seconds(program, lines, runs):
    with tempfile.TemporaryDirectory() as work:
        path = os.path.join(work, 'script')
        with open(path, 'w') as script:
            script.write('\n'.join(lines) + '\n')
        least = float('inf')
        for _ in range(runs):
            began = time.perf_counter()
            subprocess.run(
                [program, 'rehearse', f'{EXAMPLES}/codes.toml', f'{EXAMPLES}/widths.toml', path],
                stdout=subprocess.DEVNULL,
                check=True,
            )
            least = min(least, time.perf_counter() - began)
    return least


def main():
    if len(sys.argv) not in (2, 3):
        sys.exit(__doc__)
    program = proved.program(sys.argv[1])
    runs = int(sys.argv[2]) if len(sys.argv) == 3 else 5
    for name, script, length in KINDS:
        once, twice = (seconds(program, script(n), runs) for n in (length, 2 * length))
        print(f'{name:18} {length:6}: {once * 1e3:7.1f} ms, {2 * length:6}: {twice * 1e3:7.1f} ms, {twice / once:.2f} times')


main()

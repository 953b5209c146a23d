#!/usr/bin/env python3
"""How long a station takes to start over many rows, and to end.

    bench/starts.py PROGRAM [OTHER [ROWS [RUNS]]]

A row file of 100,000 rows at layout 2, where no other count is given, is filled by the stock SQLite library, each row with a tape of
500 frames. Over a copy of it PROGRAM runs `serve --turns 1`, which starts and comes to a good end, 9 times where no other count is
given; and as often after a kill, as the newest rows stand in the log alone. With OTHER, another program, the two go in turns, each
over a copy of its own. Told are the least and the median time by the clock, the least time of the processor, and how the least times
compare. The folder is made where the script runs, and taken away.
"""
import os
import shutil
import socket
import sqlite3
import statistics
import subprocess
import sys
import tempfile
import time

import proved

HERE = os.path.dirname(os.path.abspath(__file__))
EXAMPLES = os.path.join(HERE, '..', 'examples')
STATION = """circuit = 7
member = 1
table = "codes.toml"
widths = "widths.toml"
rows = "station.db"
[[station]]
member = 1
ip = "127.0.0.1"
port = {port}
"""
FRAMES = 500
FLOOD = bytes.fromhex('01020301030204')
SERVE = ['serve', 'station.toml', '--turns']


def packed(frames):
    """Frames as a packet of version 2 has them: the six bits of each, the highest first."""
    bits = ''.join(f'{frame:06b}' for frame in frames)
    bits += '0' * (-len(bits) % 8)
    return bytes(int(bits[at:at + 8], 2) for at in range(0, len(bits), 8))


def fill(path, rows):
    """Puts rows into a row file that was made."""
    tape = (FLOOD * (FRAMES // len(FLOOD) + 1))[:FRAMES]
    packet = packed(tape)
    store = sqlite3.connect(path, isolation_level=None)
    store.execute('BEGIN')
    store.executemany('INSERT INTO acceptor_entry VALUES (?, 1, 1, 1, 1, ?, ?)', ((number, FRAMES, packet) for number in range(1, rows + 1)))
    store.execute('COMMIT')
    store.execute('PRAGMA wal_checkpoint(TRUNCATE)')
    store.close()


class Station:
    """A station over a file of its own."""

    def __init__(self, program, folder, name, port):
        self.program, self.home = proved.program(program), os.path.join(folder, name)
        self.clock, self.processor = {}, {}
        os.mkdir(self.home)
        for file in ('codes.toml', 'widths.toml', 'flood.tape'):
            shutil.copy(os.path.join(EXAMPLES, file), self.home)
        with open(os.path.join(self.home, 'station.toml'), 'w', encoding='utf-8') as config:
            config.write(STATION.format(port=port))

    def take(self, file):
        """A copy of a file that was filled."""
        shutil.copy(file, os.path.join(self.home, 'station.db'))

    def kill_in_life(self, number):
        """Starts it, and kills it once it has released a number."""
        words = [*SERVE, '1000000', '--number', str(number), '--tape', 'flood.tape']
        with subprocess.Popen([self.program, *words], cwd=self.home, stdout=subprocess.PIPE) as serving:
            if not serving.stdout.readline().startswith(f'release {number} '.encode()):
                sys.exit(f'{self.program} did not release {number}')
            serving.kill()

    def time(self, how):
        """Times a start and its good end."""
        began = time.monotonic()
        process = subprocess.Popen([self.program, *SERVE, '1'], cwd=self.home)
        _, status, used = os.wait4(process.pid, 0)
        process.returncode = os.waitstatus_to_exitcode(status)
        if status != 0:
            sys.exit(f'{self.program} ended with {process.returncode}')
        self.clock.setdefault(how, []).append(time.monotonic() - began)
        self.processor.setdefault(how, []).append(used.ru_utime + used.ru_stime)


def main():
    if not 2 <= len(sys.argv) <= 5:
        sys.exit(__doc__)
    programs = sys.argv[1:3]
    rows, runs = [int(word) for word in sys.argv[3:]] + [100000, 9][max(0, len(sys.argv) - 3):]
    folder = tempfile.mkdtemp(prefix='starts-', dir=os.getcwd())
    with socket.socket(socket.AF_INET, socket.SOCK_DGRAM) as probe:
        probe.bind(('127.0.0.1', 0))
        port = probe.getsockname()[1]
    try:
        stations = [Station(program, folder, f'station{place}', port) for place, program in enumerate(programs)]
        subprocess.run([stations[-1].program, 'create', 'station.toml'], cwd=stations[-1].home, check=True, stdout=subprocess.DEVNULL)
        filled = os.path.join(folder, 'filled.db')
        shutil.move(os.path.join(stations[-1].home, 'station.db'), filled)
        fill(filled, rows)
        for station in stations:
            station.take(filled)
            station.time('warm')
        for run in range(runs):
            for station in stations:
                station.time('at rest')
            for station in stations:
                station.kill_in_life(rows + 1 + run)
                station.time('after a kill')
    finally:
        shutil.rmtree(folder)
    for how in ('at rest', 'after a kill'):
        for station in stations:
            clock, processor = station.clock[how], station.processor[how]
            print(f'{how:14} {station.program}: least {1000 * min(clock):7.1f} ms, median {1000 * statistics.median(clock):7.1f} ms,'
                  f' processor {1000 * min(processor):7.1f} ms')
        if len(stations) == 2:
            ours, other = stations
            print(f'{how:14} the first over the other: least {min(ours.clock[how]) / min(other.clock[how]):.3f},'
                  f' medians {statistics.median(ours.clock[how]) / statistics.median(other.clock[how]):.3f}')


if __name__ == '__main__':
    main()

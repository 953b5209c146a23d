#!/usr/bin/env python3
"""Cuts makings of row files off, and looks at what is there after each.

    bench/makings.py PROGRAM [KILLS [CUTS [SEED]]]

First 300 makings, where no other count is given, are killed (SIGKILL), 1 to 3 at once over one path, by `create` and by the first
start of `serve`, each at a moment of its own. Then 100 are cut off by the power, as far as a file system can play that: they run
on an ext4 in a file, which is shut down without a flush of what it holds (FS_IOC_SHUTDOWN), unmounted and mounted again; for these
the script has to be root's, with mkfs.ext4 and loop devices, and says so where it can't.

After each, nothing stands at the path where no making had ended, or a file that a plain start takes and `rows` lists, with no row; and where nothing does,
the next making goes through, whatever the last one left under the other name. No log lies at the path without its file. Printed is
how often there was nothing, and how often the file. The status is 1 where anything was otherwise, and the folder stays.
"""
import fcntl
import os
import random
import shutil
import socket
import struct
import subprocess
import sys
import tempfile
import time

import proved

HERE = os.path.dirname(os.path.abspath(__file__))
EXAMPLES = os.path.join(HERE, '..', 'examples')
FS_IOC_SHUTDOWN, WITHOUT_FLUSH = 0x8004587D, 2
STATION = """circuit = 7
member = 1
table = "{tables}/codes.toml"
widths = "{tables}/widths.toml"
rows = "station1.db"
[[station]]
member = 1
ip = "127.0.0.1"
port = {port}
"""
MADE = 'made station1.db: station 1 of 1 circuit 7 layout 2\n'
CREATE = ['create']
FIRST = ['serve', '--turns', '1', '--create', '--layout', '2']


class Wrong(Exception):
    """Something that may not happen."""


class Makings:
    """Makings of one row file in a folder, over a configuration that stands elsewhere."""

    def __init__(self, program, folder, config, chance):
        self.program, self.folder, self.config, self.chance = program, folder, config, chance
        self.counts = {'nothing': 0, 'the file': 0}

    def begin(self, most):
        """Starts 1 to so many makings at once."""
        calls = [self.chance.choice((CREATE, FIRST)) for _ in range(self.chance.randint(1, most))]
        return [
            subprocess.Popen([self.program, *call, self.config], cwd=self.folder, stdout=subprocess.DEVNULL, stderr=subprocess.DEVNULL)
            for call in calls
        ]

    def time(self):
        """How long one takes: the middle of five."""
        taken = []
        for _ in range(5):
            began = time.monotonic()
            if (made := self.run('create', self.config)) != (0, MADE, ''):
                raise Wrong(f'a making: {made}')
            taken.append(time.monotonic() - began)
            self.clear()
        return sorted(taken)[2]

    def clear(self):
        """Takes the file and its log away."""
        for name in ('station1.db', 'station1.db-wal'):
            if os.path.exists(os.path.join(self.folder, name)):
                os.remove(os.path.join(self.folder, name))

    def run(self, *words):
        """How a run ends, and what it prints on both streams."""
        ran = subprocess.run([self.program, *words], cwd=self.folder, capture_output=True, text=True, timeout=60, check=False)
        return ran.returncode, ran.stdout, ran.stderr

    def look(self, ended):
        """Looks at what is there, makes what is not, and takes all away. Where a making has ended well, the file is there."""
        path = os.path.join(self.folder, 'station1.db')
        if os.path.exists(path):
            self.counts['the file'] += 1
        elif ended:
            raise Wrong('a making has ended, and its file is not there')
        else:
            self.counts['nothing'] += 1
            if os.path.exists(path + '-wal'):
                raise Wrong('a log lies there, and no file')
            if (made := self.run('create', self.config)) != (0, MADE, ''):
                raise Wrong(f'the next making: {made}')
        if (started := self.run('serve', self.config, '--turns', '1')) != (0, '', ''):
            raise Wrong(f'a plain start: {started}')
        if (listed := self.run('rows', 'station1.db')) != (0, 'station 1 of 1 circuit 7\n', ''):
            raise Wrong(f'rows: {listed}')
        self.clear()

    def told(self):
        """What was there how often."""
        return ', '.join(f'{what} {count} times' for what, count in self.counts.items())


def kill_some(makings, most, span):
    """Kills 1 to 3 makings that run at once, each at its moment: two of three moments are within the time that one takes."""
    started = makings.begin(most)
    moments = sorted(makings.chance.uniform(0, 1.5 * span * len(started)) for _ in started)
    began = time.monotonic()
    for process, moment in zip(started, moments):
        time.sleep(max(0.0, began + moment - time.monotonic()))
        process.kill()
    ends = [process.wait() for process in started]
    makings.look(0 in ends)


class Disk:
    """An ext4 in a file, mounted in a folder."""

    def __init__(self, folder, megabytes=32):
        self.image, self.place = os.path.join(folder, 'disk.img'), os.path.join(folder, 'disk')
        os.mkdir(self.place)
        with open(self.image, 'wb') as image:
            image.truncate(megabytes << 20)
        quietly('mkfs.ext4', '-q', self.image)
        self.mount()

    def mount(self):
        quietly('mount', '-o', 'loop', self.image, self.place)

    def unmount(self):
        quietly('umount', self.place)

    def cut(self):
        """Shuts it down with what it has not written, and mounts it again."""
        folder = os.open(self.place, os.O_RDONLY)
        try:
            fcntl.ioctl(folder, FS_IOC_SHUTDOWN, struct.pack('I', WITHOUT_FLUSH))
        finally:
            os.close(folder)


def quietly(*words):
    """Runs a command of the system."""
    subprocess.run(words, check=True, stdout=subprocess.DEVNULL, stderr=subprocess.PIPE)


def cut_one(makings, disk, span):
    """Cuts the power off in a making, and looks once it is on again."""
    started = makings.begin(1)
    time.sleep(makings.chance.uniform(0, 3 * span))
    ended = started[0].poll() == 0
    disk.cut()
    for process in started:
        process.kill()
        process.wait()
    disk.unmount()
    disk.mount()
    makings.look(ended)


def play_kills(program, folder, config, kills, chance):
    """The makings that are killed."""
    place = os.path.join(folder, 'killed')
    os.mkdir(place)
    makings = Makings(program, place, config, chance)
    span = makings.time()
    for _ in range(kills):
        kill_some(makings, 3, span)
    print(f'{kills} makings were killed: {makings.told()}')


def play_cuts(program, folder, config, cuts, chance):
    """The makings whose power is cut off."""
    try:
        disk = Disk(folder)
    except (OSError, subprocess.CalledProcessError) as error:
        print(f'no power was cut off: {error}')
        return
    try:
        makings = Makings(program, disk.place, config, chance)
        span = makings.time()
        for _ in range(cuts):
            cut_one(makings, disk, span)
    finally:
        disk.unmount()
    print(f'{cuts} makings had their power cut off: {makings.told()}')


def main():
    if len(sys.argv) < 2:
        sys.exit(__doc__)
    program = proved.program(sys.argv[1])
    kills, cuts, seed = [int(word) for word in sys.argv[2:]] + [300, 100, 1][len(sys.argv) - 2:]
    folder = tempfile.mkdtemp(prefix='makings-')
    with socket.socket(socket.AF_INET, socket.SOCK_DGRAM) as probe:
        probe.bind(('127.0.0.1', 0))
        port = probe.getsockname()[1]
    for name in ('codes.toml', 'widths.toml'):
        shutil.copy(os.path.join(EXAMPLES, name), folder)
    config = os.path.join(folder, 'one.toml')
    with open(config, 'w') as file:
        file.write(STATION.format(tables=folder, port=port))
    try:
        play_kills(program, folder, config, kills, random.Random(seed))
        play_cuts(program, folder, config, cuts, random.Random(seed))
    except Wrong as wrong:
        sys.exit(f'{wrong}\nsee {folder}')
    shutil.rmtree(folder)


if __name__ == '__main__':
    main()

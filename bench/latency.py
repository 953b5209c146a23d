#!/usr/bin/env python3
"""How long a story takes from its offer to the files of its release, at three plants on one machine.

    bench/latency.py [--renamed] PROGRAM [STORIES]

Three plants `run` on 127.0.0.1 with no network between them but the machine's. 200 stories where no other count is given are
laid into the first plant's folder, one after another, each once the one before it stands in all three folders `releases`. A file
is taken up once two looks half a second apart found it; with --renamed the plants are told that files come by rename alone, and one
look is enough. Told are the least and the median time from the moment at which
the plant opens the offer to read it to the last of the three files `N.tape`, and to the last of the three files `N.galley`; how
long the offer waited until then; and the whole, from its rename to the last galley. The bench sleeps until the system tells it of
a name in a folder, so that it takes no processor from the stations.

Beside them the saves on that path: promise and vote at the offering station, promise and vote at one other, timed alone on the
same disk. They are timed by two programs: by the stock SQLite library with the same durability (journal in a log, each commit
synced), and by bare calls of the system, those that the stations' rows make for a save (a page with its head, a sync, a mark of
one byte behind it, a sync), with no library in between. Both are timed once for each story, while it waits to be taken up (with
--renamed, before it is laid), so that they come out of a rest and in whatever phase the disk is in, as the stations' own do; and 200
times in a row.
"""
import ctypes
import os
import select
import shutil
import socket
import sqlite3
import statistics
import struct
import subprocess
import sys
import tempfile
import time

import proved

HERE = os.path.dirname(os.path.abspath(__file__))
EXAMPLES = os.path.join(HERE, '..', 'examples')
MEMBERS = (1, 2, 3)
TAPE = bytes.fromhex('01020301030204')
# What the system tells of a file in a folder: that it was opened, that it got its name.
OPENED, MOVED_TO = 0x20, 0x80
IN_A_ROW = 200
# What a configuration has where files come by rename alone.
RENAMED = 'renamed = true\n'
# A page of the log of a database, with its head.
PAGE = bytes(24 + 4096 + 8)


def free_ports():
    held = [socket.socket(socket.AF_INET, socket.SOCK_DGRAM) for _ in MEMBERS]
    for own in held:
        own.bind(('127.0.0.1', 0))
    ports = [own.getsockname()[1] for own in held]
    for own in held:
        own.close()
    return ports


def start(program, folder, member, ports, tables):
    """A plant in a folder of its own, whose configuration has this behind the paths of its folders."""
    home = os.path.join(folder, f'plant{member}')
    os.makedirs(os.path.join(home, 'offers'))
    os.makedirs(os.path.join(home, 'releases'))
    for name in ('codes.toml', 'widths.toml'):
        shutil.copy(os.path.join(EXAMPLES, name), home)
    stations = ''.join(f'[[station]]\nmember = {other}\nip = "127.0.0.1"\nport = {port}\n' for other, port in zip(MEMBERS, ports))
    with open(os.path.join(home, 'station.toml'), 'w') as config:
        config.write(f'circuit = 7\nmember = {member}\ntable = "codes.toml"\nwidths = "widths.toml"\nrows = "station.db"\n'
                     f'[folders]\noffers = "offers"\nreleases = "releases"\n{tables}{stations}')
    process = subprocess.Popen([program, 'run', 'station.toml', '--create', '--layout', '2'], cwd=home, stdout=subprocess.DEVNULL, stderr=subprocess.DEVNULL)
    return home, process


class Names:
    """The names of files in folders of which something is told, as the system tells it (inotify)."""

    def __init__(self, folders, what):
        libc = ctypes.CDLL(None, use_errno=True)
        self.file = libc.inotify_init1(os.O_NONBLOCK | os.O_CLOEXEC)
        for folder in folders:
            if self.file < 0 or libc.inotify_add_watch(self.file, os.fsencode(folder), what) < 0:
                raise OSError(ctypes.get_errno(), os.strerror(ctypes.get_errno()), folder)

    def taken(self):
        """Those of which it was told since it was asked last."""
        try:
            told = os.read(self.file, 65536)
        except BlockingIOError:
            return []
        names, at = [], 0
        while at < len(told):
            size, = struct.unpack_from('I', told, at + 12)
            names.append(os.fsdecode(told[at + 16:at + 16 + size].rstrip(b'\0')))
            at += 16 + size
        return names


def saves_alone(saves):
    """How long saves as a story's own take alone, each out of a rest."""
    alone = []
    for each in saves:
        time.sleep(0.15)
        alone.append(each.time())
    return alone


def story(plants, names, saves, number, renamed):
    """Lays a story down, and gives the moments: laid, taken up, the last of its tapes and the last of its galleys released; and how
    long saves as its own take alone, while it waits or before."""
    home, _ = plants[0]
    alone = saves_alone(saves) if renamed else []
    opened, given = names
    part, whole = (os.path.join(home, 'offers', name) for name in (f'.{number}.tape', f'{number}.tape'))
    with open(part, 'wb') as file:
        file.write(TAPE)
    laid = time.monotonic()
    os.rename(part, whole)
    if not renamed:
        alone = saves_alone(saves)
    left = {f'{number}.tape': len(plants), f'{number}.galley': len(plants)}
    moments = {}
    while time.monotonic() < laid + 30:
        select.select([opened.file, given.file], [], [], 1)
        now = time.monotonic()
        if f'{number}.tape' in opened.taken():
            moments.setdefault('read', now)
        for name in given.taken():
            if name in left:
                left[name] -= 1
                moments[name] = now
        if not any(left.values()):
            return laid, moments['read'], moments[f'{number}.tape'], moments[f'{number}.galley'], alone
    sys.exit(f'number {number} was not released within 30 s')


class StockSaves:
    """The saves of a story at two stations, one after the other, by the stock library."""

    def __init__(self, folder):
        self.stores, self.number = [], 0
        for name in ('one.db', 'other.db'):
            store = sqlite3.connect(os.path.join(folder, name), isolation_level=None)
            store.execute('PRAGMA journal_mode = WAL')
            store.execute('PRAGMA synchronous = FULL')
            store.execute('CREATE TABLE acceptor_entry (number INTEGER PRIMARY KEY, promised_round INTEGER NOT NULL, promised_owner INTEGER NOT NULL,'
                          ' vote_round INTEGER, vote_owner INTEGER, length INTEGER, packed BLOB) STRICT')
            self.stores.append(store)

    def time(self):
        """How long those of one more number take."""
        self.number += 1
        begun = time.monotonic()
        for vote in ((None, None, None, None), (1, 1, 7, TAPE)):
            for store in self.stores:
                store.execute('INSERT OR REPLACE INTO acceptor_entry VALUES (?, 1, 1, ?, ?, ?, ?)', (self.number, *vote))
        return time.monotonic() - begun


class BareSaves:
    """What the rows of two stations ask of the disk for the saves of a story, one after the other."""

    def __init__(self, folder, count):
        self.files, self.at = [], 0
        for name in ('one.log', 'other.log'):
            file = os.open(os.path.join(folder, name), os.O_CREAT | os.O_RDWR)
            # As the log of a database, it is made longer ahead of what is written into it.
            os.pwrite(file, bytes(2 * count * (len(PAGE) + 1)), 0)
            os.fsync(file)
            self.files.append(file)

    def time(self):
        """How long those of one more number take."""
        begun = time.monotonic()
        for _ in ('promise', 'vote'):
            for file in self.files:
                os.pwrite(file, PAGE, self.at)
                os.fdatasync(file)
                os.pwrite(file, b'\1', self.at + len(PAGE))
                os.fdatasync(file)
            self.at += len(PAGE) + 1
        return time.monotonic() - begun


def main():
    renamed = '--renamed' in sys.argv
    words = [word for word in sys.argv[1:] if word != '--renamed']
    if not 1 <= len(words) <= 2:
        sys.exit(__doc__)
    program = proved.program(words[0])
    count = int(words[1]) if len(words) > 1 else 200
    folder = tempfile.mkdtemp(dir=os.getcwd())
    ports, plants = free_ports(), []
    try:
        plants = [start(program, folder, member, ports, RENAMED if renamed else '') for member in MEMBERS]
        time.sleep(1)
        names = Names([os.path.join(plants[0][0], 'offers')], OPENED), Names([os.path.join(home, 'releases') for home, _ in plants], MOVED_TO)
        saves = StockSaves(folder), BareSaves(folder, count + IN_A_ROW)
        moments = [story(plants, names, saves, number, renamed) for number in range(1, count + 1)]
        rows = [[each.time() for _ in range(IN_A_ROW)] for each in saves]
    finally:
        for _, process in plants:
            process.kill()
            process.wait()
        shutil.rmtree(folder)
    waits = [read - laid for laid, read, _, _, _ in moments]
    tapes = [told - read for _, read, told, _, _ in moments]
    galleys = [ended - read for _, read, _, ended, _ in moments]
    wholes = [ended - laid for laid, _, _, ended, _ in moments]
    alone = [list(took) for took in zip(*(took for _, _, _, _, took in moments))]
    saved = [('the saves by the stock library', alone[0]), ('in a row', rows[0]), ('the saves by bare calls', alone[1]), ('bare, in a row', rows[1])]
    for what, took in (('taken up after', waits), ('from there to the last tape', tapes), ('to the last galley', galleys), ('from the rename to the last galley', wholes), *saved):
        print(f'{what:34} least {1000 * min(took):7.2f} ms, median {1000 * statistics.median(took):7.2f} ms')
    for what, took in saved:
        over = [f'{statistics.median(path) / statistics.median(took):.2f} ({end})' for end, path in (('tape', tapes), ('galley', galleys))]
        print(f'medians over {what}: {", ".join(over)}')


if __name__ == '__main__':
    main()

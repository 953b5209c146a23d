#!/usr/bin/env python3
"""Cuts the lives of a row file off, and looks at what is there after each, with its log, without it, and beside other ones.

    bench/lives.py PROGRAM [KILLS [CUTS [SEED]]]

First 500 times, where no other count is given, a command over one row file is killed (SIGKILL) at a moment of its own: a making, a
plain start, an offer, a station that works through hundreds of offers, one that works through so many that the database copies its
log into the file (which it does by itself past 1,000 frames) and is cut off about then, an upgrade, a listing, and a station that is
told to stop. A command that came to its end before
its moment is not counted. Then 200 are cut off by the power, as bench/makings.py plays it: on an ext4 in a file, shut down without a
flush; for these the script has to be root's.

After each cut four pairs are tried, three of them on copies: the file without a log, beside a log of an earlier life, and beside the
log of another station, each of which has to be refused, unless the file was at rest; and the file as it is, which has to be taken.
What is taken lists every number that was released so far. Printed is what came how often. The status is 1 where anything was
otherwise, and the folder stays.
"""
import os
import random
import re
import shutil
import socket
import subprocess
import sys
import tempfile
import time

import proved

from makings import EXAMPLES, Disk, Wrong

STATION = """circuit = {circuit}
member = 1
table = "{tables}/codes.toml"
widths = "{tables}/widths.toml"
rows = "station1.db"
{folders}[[station]]
member = 1
ip = "127.0.0.1"
port = {port}
"""
FOLDERS = '[folders]\noffers = "offers"\nreleases = "releases"\n'
AT_REST, IN_USE = 0xC0, 0xC1
REFUSED = ('store: refused\nits log is missing: ', 'store: refused\nits log is of another time: ')
FILES = ('station1.db', 'station1.db-wal')
OFFERS = {'work': 350, 'long': 1500}
# Within how many seconds a command of each kind is cut off, until it is known how long one takes.
SPANS = {'work': 6.0, 'long': 0.6, 'stop': 3.0, 'offer': 0.5}
# How long the log of 1,000 frames of a page is.
LONG_LOG = 32 + 1000 * (24 + 4096)


class Lives:
    """A row file in a folder, and what is known of it."""

    def __init__(self, program, tables, folder, chance):
        self.program, self.tables, self.folder, self.chance = program, tables, folder, chance
        self.released, self.next, self.older = set(), 1, []
        self.counts, self.spans, self.began = {}, dict(SPANS), 0.0

    def count(self, what):
        """One more of what came."""
        self.counts[what] = self.counts.get(what, 0) + 1

    def path(self, name):
        return os.path.join(self.folder, name)

    def read(self, name):
        try:
            with open(self.path(name), 'rb') as file:
                return file.read()
        except FileNotFoundError:
            return None

    def command(self):
        """The words of a command, by chance, and where what it prints tells of releases."""
        if not os.path.exists(self.path('station1.db')):
            self.released, self.older = set(), []
            return 'making', ['create', f'{self.tables}/plain.toml', '--layout', self.chance.choice('12')]
        what = self.chance.choice(2 * ('start', 'offer', 'offer', 'work', 'upgrade', 'rows', 'stop') + ('long',))
        if what == 'offer':
            self.next += 1
            tape = f'{self.tables}/flood.tape'
            return what, ['serve', f'{self.tables}/plain.toml', '--turns', '20', '--number', str(self.next), '--tape', tape]
        if what in ('work', 'long', 'stop'):
            self.lay_offers(what)
            return what, ['run', f'{self.tables}/plant.toml', '--quiet']
        return what, {
            'start': ['serve', f'{self.tables}/plain.toml', '--turns', '1'],
            'upgrade': ['upgrade', 'station1.db'], 'rows': ['rows', 'station1.db']}[what]

    def lay_offers(self, what):
        """New offers in the folder of the plant, or a file that stops it."""
        for name in ('offers', 'releases'):
            os.makedirs(self.path(name), exist_ok=True)
        if what == 'stop':
            open(self.path('offers/stop'), 'w').close()
            return
        for _ in range(OFFERS[what]):
            self.next += 1
            shutil.copy(f'{self.tables}/flood.tape', self.path(f'offers/{self.next}.tape'))

    def start(self):
        """Starts a command, and how long it may go before it is cut off: a little longer than its kind has taken so far."""
        what, words = self.command()
        with open(f'{self.tables}/printed', 'wb') as printed:
            process = subprocess.Popen([self.program, *words], cwd=self.folder, stdout=printed, stderr=subprocess.DEVNULL)
        if what == 'long':
            self.wait_for_frames()
        self.began = time.monotonic()
        return what, process, self.chance.uniform(0, self.spans.get(what, 0.5))

    def wait_for_frames(self):
        """Waits until the log may have 1,000 frames, but for no longer than a minute."""
        until = time.monotonic() + 60
        while time.monotonic() < until:
            try:
                if os.path.getsize(self.path(FILES[1])) >= LONG_LOG:
                    return
            except FileNotFoundError:
                pass
            time.sleep(0.001)

    def ended(self, what):
        """A command came to its end before its moment: the next of its kind gets one that lies before that."""
        self.spans[what] = 1.1 * (time.monotonic() - self.began)

    def cut_off(self, what):
        """A command was cut off, and may take longer than was thought."""
        if what not in ('work', 'long'):
            self.spans[what] = 1.05 * self.spans.get(what, 0.5)
        self.note()

    def note(self):
        """Keeps in mind what was released so far."""
        with open(f'{self.tables}/printed', encoding='utf-8') as printed:
            self.released |= {int(number) for number in re.findall(r'^release (\d+) [0-9a-f]+\n', printed.read(), re.M)}
        if os.path.isdir(self.path('releases')):
            names = os.listdir(self.path('releases'))
            self.released |= {int(name[:-5]) for name in names if re.fullmatch(r'\d+\.tape', name)}

    def run(self, folder, *words):
        ran = subprocess.run([self.program, *words], cwd=folder, capture_output=True, text=True, timeout=120, check=False)
        return ran.returncode, ran.stdout, ran.stderr

    def listed_apart(self, file, log):
        """What `rows` says of a copy of the file beside a copy of this log."""
        place = f'{self.tables}/apart'
        shutil.rmtree(place, ignore_errors=True)
        os.mkdir(place)
        for name, data in zip(FILES, (file, log)):
            if data is not None:
                with open(os.path.join(place, name), 'wb') as out:
                    out.write(data)
        return self.run(place, 'rows', 'station1.db')

    def test_listed(self, listed):
        """A listing has every number that was released so far."""
        lines = {int(line.split()[0]) for line in listed.splitlines()[1:]}
        if lost := self.released - lines:
            raise Wrong(f'numbers that were released are not listed: {sorted(lost)[:5]}')

    def try_tampered(self, file, neighbours):
        """A copy of the file without a log, with an older one, and with a neighbour's, is refused, or was at rest."""
        logs = [('without its log', None), ("beside a neighbour's", neighbours)]
        # A command that was killed before it began a life has left the last one, with its log.
        older = [log for log in self.older if number_of(log) != int.from_bytes(file[61:64], 'big')]
        if older:
            logs.append(('beside an older one', self.chance.choice(older)))
        for how, log in logs:
            status, listed, told = self.listed_apart(file, log)
            if status == 3 and told.startswith(REFUSED):
                self.count(how + ': refused')
            elif file[60] == AT_REST and status == 0:
                self.test_listed(listed)
                self.count(how + ': at rest')
            else:
                raise Wrong(f'the file {how}: {status}, {told!r}, its mark {file[60]:#x}')

    def look(self, neighbours):
        """Looks at what is there after a cut."""
        file, log = self.read(FILES[0]), self.read(FILES[1])
        if file is None:
            self.count('nothing is there')
            if log:
                raise Wrong('a log lies there, and no file')
            return
        if file[60] not in (AT_REST, IN_USE):
            raise Wrong(f'its mark is {file[60]:#x}')
        self.try_tampered(file, neighbours)
        # Half of the lives go on where they were cut off; the others are closed here.
        if self.chance.random() < 0.5:
            status, listed, told = self.run(self.folder, 'rows', 'station1.db')
        else:
            status, listed, told = self.listed_apart(file, log)
        if status != 0:
            raise Wrong(f'rows: {status}, {told!r}')
        self.test_listed(listed)
        self.count('at rest' if file[60] == AT_REST else 'in use')
        if log and len(log) > 56 and log[16:24] == log[40:48]:
            self.older.append(log)
            del self.older[:-5]
        if log and len(log) >= LONG_LOG:
            copied = 'copied' if any(log[12:16]) else 'about to be copied' if log[0] else 'being emptied'
            self.count(f'a log past 1,000 frames, {copied}')

    def told(self):
        return ', '.join(f'{what} {count}' for what, count in sorted(self.counts.items()))

    def clear(self):
        """Now and then the station is another."""
        if self.chance.random() < 0.03:
            for name in os.listdir(self.folder):
                path = self.path(name)
                shutil.rmtree(path) if os.path.isdir(path) and name != 'lost+found' else name == 'lost+found' or os.remove(path)


def number_of(log):
    """The number of the life that a log belongs to."""
    return int.from_bytes(log[16:20], 'big') - int.from_bytes(log[12:16], 'big') - (1 << 30)


def configure(folder):
    """The files of the examples, and the configurations: of a station alone, of a plant, of a neighbour."""
    with socket.socket(socket.AF_INET, socket.SOCK_DGRAM) as probe:
        probe.bind(('127.0.0.1', 0))
        port = probe.getsockname()[1]
    for name in ('codes.toml', 'widths.toml', 'flood.tape'):
        shutil.copy(os.path.join(EXAMPLES, name), folder)
    for name, circuit, folders in (('plain', 7, ''), ('plant', 7, FOLDERS), ('eight', 8, '')):
        with open(os.path.join(folder, f'{name}.toml'), 'w', encoding='utf-8') as file:
            file.write(STATION.format(circuit=circuit, tables=folder, folders=folders, port=port))


def neighbours_log(program, tables):
    """The log of another station, which was killed as it had released a number."""
    place = os.path.join(tables, 'neighbour')
    os.mkdir(place)
    subprocess.run([program, 'create', f'{tables}/eight.toml'], cwd=place, check=True, stdout=subprocess.DEVNULL)
    words = ['serve', f'{tables}/eight.toml', '--turns', '100000', '--number', '12', '--tape', f'{tables}/flood.tape']
    with subprocess.Popen([program, *words], cwd=place, stdout=subprocess.PIPE) as serving:
        serving.stdout.readline()
        serving.kill()
    with open(os.path.join(place, 'station1.db-wal'), 'rb') as log:
        return log.read()


def play_kills(program, tables, kills, chance):
    """The commands that are killed."""
    place = os.path.join(tables, 'killed')
    os.mkdir(place)
    lives, neighbours = Lives(program, tables, place, chance), neighbours_log(program, tables)
    done = 0
    while done < kills:
        what, process, moment = lives.start()
        try:
            process.wait(moment)
            lives.ended(what)
        except subprocess.TimeoutExpired:
            process.kill()
            process.wait()
            done += 1
            lives.count('killed ' + what)
            lives.cut_off(what)
            lives.look(neighbours)
        lives.note()
        lives.clear()
    print(f'{kills} kills: {lives.told()}', flush=True)


def play_cuts(program, tables, cuts, chance):
    """The commands whose power is cut off."""
    try:
        disk = Disk(tables, 256)
    except (OSError, subprocess.CalledProcessError) as error:
        print(f'no power was cut off: {error}')
        return
    try:
        with open(os.path.join(tables, 'neighbour', 'station1.db-wal'), 'rb') as log:
            neighbours = log.read()
        lives = Lives(program, tables, disk.place, chance)
        done = 0
        while done < cuts:
            what, process, moment = lives.start()
            try:
                process.wait(moment)
                lives.ended(what)
            except subprocess.TimeoutExpired:
                disk.cut()
                process.kill()
                process.wait()
                disk.unmount()
                disk.mount()
                done += 1
                lives.count('cut off ' + what)
                lives.cut_off(what)
                lives.look(neighbours)
            lives.note()
            lives.clear()
    finally:
        disk.unmount()
    print(f'{cuts} power cuts: {lives.told()}', flush=True)


def main():
    if len(sys.argv) < 2:
        sys.exit(__doc__)
    program = proved.program(sys.argv[1])
    kills, cuts, seed = [int(word) for word in sys.argv[2:]] + [500, 200, 1][len(sys.argv) - 2:]
    tables = tempfile.mkdtemp(prefix='lives-')
    configure(tables)
    try:
        play_kills(program, tables, kills, random.Random(seed))
        play_cuts(program, tables, cuts, random.Random(seed))
    except Wrong as wrong:
        sys.exit(f'{wrong}\nsee {tables}')
    shutil.rmtree(tables)


if __name__ == '__main__':
    main()

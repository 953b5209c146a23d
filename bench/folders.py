#!/usr/bin/env python3
"""Kills a plant that stays up while files are laid and replaced, and its folders are swapped by copies of themselves.

    bench/folders.py PROGRAM [KILLS] [SEED]

A circuit of one station `run`s on 127.0.0.1 over its folders. Stories, searches and files that are no offers are laid among its offers; some are replaced
by another story while they are taken up or moved; `releases` and `offers` are copied (`cp -a`) and swapped for the copy at random moments, and what stood
there is kept beside. The plant is killed (SIGKILL) at a moment of its own, 300 times where no other count is given, and started again.

At the end, once all that waits has left the offers and the plant was told to stop: each `N.tape` among the releases, those of all folders that stood there,
is the entry that the row file has under N, and each `N.galley` the galley of it; each `N.tape` in `sent` is that entry too; each file that was laid and not
replaced lies in some folder still; and after one more start nothing is left in the folders that stand there under a name of the station's own
except the two files that lie ready, and the passage with its lock. Behind each kill `status` can read the status file.
The status is 1 where anything is otherwise, and the folder stays.
"""
import os
import random
import shutil
import signal
import socket
import subprocess
import sys
import tempfile
import time

import proved

HERE = os.path.dirname(os.path.abspath(__file__))
EXAMPLES = os.path.join(HERE, '..', 'examples')
KILLS = 300
# how long what waits may take at the end
SECONDS = 300
# stories that set by the examples' table and widths, and their galleys
STORIES = {
    '01020301030204': '0001 J 0 0 a b _4 a _4 b\n',
    '05020704010b04': '0001 C 10 11 B\n0002 R 22 0 A\n',
    '01010101010104': '0001 J 0 0 a a a a a a\n',
}
CONFIG = """circuit = 7
member = 1
table = "codes.toml"
widths = "widths.toml"
rows = "station.db"
[folders]
offers = "offers"
releases = "releases"
status = "status.txt"
[[station]]
member = 1
ip = "127.0.0.1"
port = {port}
"""


class Wrong(Exception):
    """Something is otherwise than it has to be."""


class Plant:
    """A plant, what was laid among its offers, and how often it was killed."""

    def __init__(self, program, chance):
        self.program, self.chance, self.folder = program, chance, tempfile.mkdtemp()
        self.laid, self.replaced, self.swaps, self.number, self.statuses, self.process = {}, 0, 0, 0, 0, None
        for name in ('codes.toml', 'widths.toml'):
            shutil.copy(os.path.join(EXAMPLES, name), self.folder)
        for name in ('offers', 'releases'):
            os.mkdir(self.path(name))
        with socket.socket(socket.AF_INET, socket.SOCK_DGRAM) as probe:
            probe.bind(('127.0.0.1', 0))
            port = probe.getsockname()[1]
        with open(self.path('station.toml'), 'w') as file:
            file.write(CONFIG.format(port=port))
        subprocess.run([program, 'create', 'station.toml'], cwd=self.folder, check=True, stdout=subprocess.DEVNULL)
        self.err = open(self.path('log'), 'ab')

    def path(self, *names):
        return os.path.join(self.folder, *names)

    def start(self):
        self.process = subprocess.Popen([self.program, 'run', 'station.toml'], cwd=self.folder, stderr=self.err)

    def is_up(self):
        """Whether it holds the lock of its offers."""
        inode = os.stat(self.path('offers')).st_ino
        with open('/proc/locks', encoding='ascii') as locks:
            return any(f':{inode} ' in line for line in locks)

    def wait_for_start(self):
        """Waits until it is up; a station that ends instead is wrong."""
        while not self.is_up():
            if self.process.poll() is not None:
                raise Wrong(f'it ended with {self.process.returncode}')
            time.sleep(0.01)

    def kill(self):
        self.process.send_signal(signal.SIGKILL)
        if self.process.wait() != -signal.SIGKILL:
            raise Wrong(f'it ended with {self.process.returncode}')
        self.see_status()

    def see_status(self):
        """Whatever a kill cut off, the status file is one that `status` can read."""
        if os.path.exists(self.path('status.txt')):
            asked = subprocess.run([self.program, 'status', 'station.toml'], cwd=self.folder, stdout=subprocess.DEVNULL, stderr=subprocess.PIPE, check=False)
            if asked.returncode not in (0, 1):
                raise Wrong(f'status ends with {asked.returncode}: {asked.stderr}')
            self.statuses += 1

    def put(self, name, data):
        """Lays a file: written under another name, then renamed."""
        with open(self.path('laid'), 'wb') as file:
            file.write(data)
        os.rename(self.path('laid'), self.path('offers', name))

    def lay(self):
        """Lays something of a name of its own."""
        self.number += 1
        kind = self.chance.choice(['tape'] * 6 + ['seek', 'junk'])
        if kind == 'junk':
            name, data = f'junk {self.number}', str(self.number).encode()
        elif kind == 'seek':
            name, data = f'{self.chance.randint(1, self.number)}.seek', b''
        else:
            name, data = f'{self.number}.tape', bytes.fromhex(self.chance.choice(list(STORIES)))
        self.put(name, data)
        if kind != 'seek':
            self.laid[name] = {data}

    def replace(self):
        """Lays another story in place of one of the last that were laid, wherever that is by now."""
        number = max(1, self.number - self.chance.randint(0, 9))
        name, data = f'{number}.tape', bytes.fromhex(self.chance.choice(list(STORIES)))
        if os.path.exists(self.path('offers', name)) or self.chance.random() < 0.3:
            self.put(name, data)
            self.laid[name] = self.laid.get(name, set()) | {data}
            self.replaced += 1

    def swap(self):
        """Puts a copy of a folder in its place, and keeps what stood there beside."""
        self.swaps += 1
        name = self.chance.choice(['releases', 'offers'])
        subprocess.run(['cp', '-a', self.path(name), self.path('copy')], check=False, stderr=subprocess.DEVNULL)
        time.sleep(self.chance.random() * 0.3)
        os.rename(self.path(name), self.path(f'{name}.{self.swaps}'))
        os.rename(self.path('copy'), self.path(name))

    def live(self, seconds):
        """A stretch of its life."""
        until = time.monotonic() + seconds
        while time.monotonic() < until:
            what = self.chance.random()
            if what < 0.5:
                self.lay()
            elif what < 0.8:
                self.replace()
            elif what < 0.85:
                self.swap()
            time.sleep(self.chance.random() * 0.4)

    def settle(self):
        """Waits until all offers have left, and ends the plant well."""
        until = time.monotonic() + SECONDS
        while [name for name in os.listdir(self.path('offers')) if name[0].isdigit() and name.endswith('.tape')]:
            if time.monotonic() > until:
                raise Wrong(f'{len(os.listdir(self.path("offers")))} files wait')
            time.sleep(0.1)
        self.end()

    def end(self):
        """Ends the plant well."""
        self.put('stop', b'')
        if self.process.wait(20) != 0:
            raise Wrong(f'it ended with {self.process.returncode}')

    def entries(self):
        rows = subprocess.run([self.program, 'rows', 'station.db'], cwd=self.folder, stdout=subprocess.PIPE, check=True).stdout.decode()
        lines = [line.split() for line in rows.split('\n')[1:-1]]
        return {int(line[0]): line[3] for line in lines}

    def folders_of(self, name):
        return [self.path(each) for each in os.listdir(self.folder) if each == name or each.startswith(f'{name}.')]

    def see_releases(self, entries):
        count = 0
        for folder in self.folders_of('releases'):
            for name in os.listdir(folder):
                number, _, kind = name.partition('.')
                if kind not in ('tape', 'galley'):
                    continue
                count += 1
                with open(os.path.join(folder, name), 'rb') as file:
                    held = file.read()
                entry = entries.get(int(number))
                wanted = bytes.fromhex(entry) if kind == 'tape' else STORIES[entry].encode()
                if held != wanted:
                    raise Wrong(f'{folder}/{name} holds {held!r:.80}, and its number is {entry}')
        return count

    def see_sent(self, entries):
        for folder in self.folders_of('offers'):
            sent = os.path.join(folder, 'sent')
            for name in os.listdir(sent) if os.path.exists(sent) else ():
                number, _, kind = name.partition('.')
                if kind.startswith('tape'):
                    with open(os.path.join(sent, name), 'rb') as file:
                        if file.read().hex() != entries.get(int(number)):
                            raise Wrong(f'{sent}/{name} is not what stands under its number')

    def see_laid(self):
        """What was laid last under each name lies somewhere; what was replaced meanwhile may be gone by that."""
        held = {}
        for folder in self.folders_of('offers'):
            for where, _, names in os.walk(folder):
                for name in names:
                    with open(os.path.join(where, name), 'rb') as file:
                        held.setdefault(name.split('.tape')[0], set()).add(file.read())
        for name, data in self.laid.items():
            if len(data) == 1 and not data <= held.get(name.split('.tape')[0], set()):
                raise Wrong(f'{name} is lost: {data}')

    def see_own_names(self):
        own = [os.path.join(where, name) for each in ('offers', 'releases') for where, folders, names in os.walk(self.path(each))
               for name in folders + names if name.startswith('.') and not name.startswith('.released') and name not in ('.circuitd', '.lock')]
        if len(own) > 2 or any(not name.startswith(self.path('releases')) for name in own):
            raise Wrong(f'left under names of its own: {own}')


def main():
    program = proved.program(sys.argv[1])
    kills = int(sys.argv[2]) if len(sys.argv) > 2 else KILLS
    seed = int(sys.argv[3]) if len(sys.argv) > 3 else random.randrange(1 << 32)
    plant = Plant(program, random.Random(seed))
    try:
        for _ in range(kills):
            plant.start()
            if plant.chance.random() < 0.8:
                plant.wait_for_start()
            plant.live(plant.chance.random() * 3)
            plant.kill()
        plant.start()
        plant.wait_for_start()
        plant.settle()
        entries = plant.entries()
        count = plant.see_releases(entries)
        plant.see_sent(entries)
        plant.see_laid()
        plant.start()
        plant.wait_for_start()
        time.sleep(1)
        # A kill may come while a search is moved that found nothing.
        plant.end()
        plant.see_own_names()
    except Wrong as wrong:
        print(f'seed {seed}, in {plant.folder}: {wrong}')
        plant.process.kill()
        sys.exit(1)
    print(f'{kills} kills, {plant.swaps} folders swapped, {len(plant.laid)} names laid, {plant.replaced} files replaced, {count} released files: '
          f'none differs, none is lost, nothing lies in sent that was not read, nothing is left, {plant.statuses} statuses behind kills are whole (seed {seed})')
    shutil.rmtree(plant.folder)


if __name__ == '__main__':
    main()

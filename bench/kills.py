#!/usr/bin/env python3
"""Kills stations of running circuits over a bad network, and looks whether a number ever meant two stories or a saved row was lost.

    bench/kills.py PROGRAM [KILLS] [SEED]

Needs the stock SQLite shell (`apt-get install sqlite3`). Circuits of three stations run on 127.0.0.1, one after another, each in a
folder of its own. Each station offers one of three stories for one of twelve numbers, or seeks one, is killed (SIGKILL) at a moment
of its own, 1,000 kills where no other count is given, and started again over its saved rows; the first kills come while the file of
saved rows is made, some of them in layout 2. Between two runs a station's file is upgraded now and then, and half of the upgrades are
killed too; over layout 2 a station withdraws numbers as well. No station sends to another: for each ordered pair there is a socket
here, to which the one sends for the other, and which loses datagrams, repeats, delays and so reorders them. What it passes on goes out
of the socket that the addressee's configuration names for the sender.

After each kill a copy of the station's file is read by the shell. It is whole, or was never made; a file that was once made stays
made, and one that is in layout 2 stays so; no row of an earlier reading is missing or has a lower promise or vote; and all votes at one
ballot, in whichever file and layout, are for one entry. All releases of a number that any station of a circuit ever printed have one
entry. In the end of each circuit the last stations go over, the network passes all on, each released number is sought, and it is told how long it took until all three stations had printed it; then the
stations end by themselves, the shell reads what `rows` prints, and of each released number a majority of the files has the vote. The
status is 1 where anything was otherwise, and the folder of that circuit stays.
"""
import heapq
import os
import random
import re
import selectors
import shutil
import signal
import socket
import subprocess
import sys
import tempfile
import time

import proved

HERE = os.path.dirname(os.path.abspath(__file__))
EXAMPLES = os.path.join(HERE, '..', 'examples')
NUMBERS = range(1, 13)
MEMBERS = (1, 2, 3)
STORIES = ('flood.tape', 'harvest.tape', 'third.tape')
KILLS_OF_A_CIRCUIT = 50
# by layout, what the tables of a file may be, and what the shell is asked of it
TABLES = {1: [['acceptor_row', 'station']], 2: [['acceptor_entry', 'station'], ['acceptor_entry', 'acceptor_row', 'station']]}
ROWS = {
    1: 'SELECT number, promised_round, promised_owner, vote_round, vote_owner, length(tape), hex(tape) FROM acceptor_row ORDER BY number',
    2: 'SELECT number, promised_round, promised_owner, vote_round, vote_owner, length, hex(packed) FROM acceptor_entry ORDER BY number',
}
VOID = 'void'
# what a station of layout 1 tells of datagrams that it can't read
NEWER = re.compile(r'bad-version from member [1-3]: its rows are of layout 2, these of layout 1\n')
# a moment in which nothing happens
NEVER = float('inf')


class Wrong(Exception):
    """Something that may not happen."""


class Network:
    """The sockets between the stations. Where it is calm it passes on all at once."""

    def __init__(self, chance):
        self.chance, self.calm = chance, False
        self.selector, self.waiting = selectors.DefaultSelector(), []
        self.counts = dict.fromkeys(('sent', 'lost', 'repeated', 'delayed', 'of version 2'), 0)
        self.ports = self.free_ports()
        self.between = {}
        for pair in ((a, b) for a in MEMBERS for b in MEMBERS if a != b):
            self.between[pair] = own = socket.socket(socket.AF_INET, socket.SOCK_DGRAM)
            own.bind(('127.0.0.1', 0))
            own.setblocking(False)
            self.selector.register(own, selectors.EVENT_READ, pair)

    @staticmethod
    def free_ports():
        """A port for each station; they are held until all are known."""
        held = [socket.socket(socket.AF_INET, socket.SOCK_DGRAM) for _ in MEMBERS]
        for own in held:
            own.bind(('127.0.0.1', 0))
        ports = {member: own.getsockname()[1] for member, own in zip(MEMBERS, held)}
        for own in held:
            own.close()
        return ports

    def port_of(self, member, other):
        """The port that the configuration of a member names for another, or for itself."""
        return self.ports[member] if member == other else self.between[member, other].getsockname()[1]

    def take(self, pair, datagram):
        """What becomes of a datagram that one of the pair has sent to the other."""
        self.counts['sent'] += 1
        self.counts['of version 2'] += datagram[2] == 2
        now = time.monotonic()
        if self.calm:
            heapq.heappush(self.waiting, (now, self.counts['sent'], pair, datagram))
            return
        if self.chance.random() < 0.1:
            self.counts['lost'] += 1
            return
        copies = 2 if self.chance.random() < 0.1 else 1
        self.counts['repeated'] += copies - 1
        for _ in range(copies):
            late = self.chance.choice((0, 0, 0.02, 0.1)) if self.chance.random() < 0.95 else 2
            self.counts['delayed'] += late > 0
            moment = now + self.chance.uniform(0, late)
            heapq.heappush(self.waiting, (moment, self.chance.random(), pair, datagram))

    def pass_on_until(self, moment):
        """Passes datagrams on until this moment."""
        while (now := time.monotonic()) < moment:
            while self.waiting and self.waiting[0][0] <= now:
                _, _, (sender, to), datagram = heapq.heappop(self.waiting)
                self.between[to, sender].sendto(datagram, ('127.0.0.1', self.ports[to]))
            due = min(moment, self.waiting[0][0] if self.waiting else NEVER)
            for key, _ in self.selector.select(max(0.0, due - now)):
                self.take(key.data, key.fileobj.recv(65536))

    def close(self):
        self.selector.close()
        for own in self.between.values():
            own.close()


class Station:
    """A station, its runs one after another, and what its file had when it was last read."""

    def __init__(self, circuit, member):
        self.circuit, self.member = circuit, member
        self.process, self.until, self.runs = None, 0.0, 0
        self.made, self.rows, self.layout = False, {}, 1

    def start(self, turns, *words):
        """A run, what it prints in a file of its own."""
        self.runs += 1
        if not self.made:
            layout = 2 if self.circuit.network.calm else self.circuit.chance.choice((1, 1, 2))
            words = [*words, '--create', '--layout', str(layout)]
        self.log = self.circuit.path(f'station{self.member}.run{self.runs}')
        with open(self.log, 'wb') as out, open(self.log + '.err', 'wb') as err:
            self.process = subprocess.Popen(
                [self.circuit.program, 'serve', f'station{self.member}.toml', '--turns', str(turns), *words],
                cwd=self.circuit.folder, stdout=out, stderr=err)

    def kill(self):
        """Kills the run, which has not ended before, and sees what it printed and left."""
        self.process.send_signal(signal.SIGKILL)
        if self.process.wait() != -signal.SIGKILL:
            raise Wrong(f'run {self.runs} of station {self.member} ended with status {self.process.returncode}')
        self.process = None
        self.see()

    def go_over(self, spared):
        """Upgrades the file of the station, which does not run. The upgrade is killed at some moment where it is not spared."""
        before = self.rows
        upgrade = subprocess.Popen([self.circuit.program, 'upgrade', f'station{self.member}.db'], cwd=self.circuit.folder,
                                   stdout=subprocess.PIPE, stderr=subprocess.PIPE, text=True)
        try:
            out, err = upgrade.communicate(timeout=60 if spared else self.circuit.chance.uniform(0, 0.012))
        except subprocess.TimeoutExpired:
            upgrade.kill()
            upgrade.communicate()
            self.circuit.cut_upgrades += 1
        else:
            self.circuit.upgrades += 1
            if (upgrade.returncode, out, err) != (0, 'layout 2\n', ''):
                raise Wrong(f'the upgrade of station {self.member} ended with status {upgrade.returncode}: {out!r}, {err!r}')
        rows = self.read()
        if upgrade.returncode == 0 and self.layout != 2:
            raise Wrong(f'the file of station {self.member} was upgraded, and is in layout {self.layout}')
        if list(map(str, rows.values())) != list(map(str, before.values())):
            raise Wrong(f'station {self.member} had {list(map(str, before.values()))}, and has {list(map(str, rows.values()))} after an upgrade')

    def end(self):
        """Starts the station for one turn, and lets it end."""
        self.start(1)
        if self.process.wait(60) != 0:
            raise Wrong(f'the last run of station {self.member} ended with status {self.process.returncode}')
        self.process = None
        self.see()

    def releases(self):
        """The number and the entry of each release of this run. A line that a kill cut off is none."""
        with open(self.log) as text:
            return re.findall(r'^release (\d+) ([0-9a-f]+|void)\n', text.read(), re.MULTILINE)

    def see(self):
        """Takes in what the run printed and what its file has now."""
        with open(self.log + '.err') as err:
            told = err.read()
            if NEWER.sub('', told) if self.layout == 1 else told:
                raise Wrong(f'run {self.runs} of station {self.member} told {told!r}')
        for number, entry in self.releases():
            self.circuit.take_release(int(number), entry)
        rows = self.read()
        if rows is None:
            if self.made:
                raise Wrong(f'the file of station {self.member} was made, and has no tables now')
            return
        for number, row in self.rows.items():
            if not row.stands_in(rows.get(number)):
                raise Wrong(f'station {self.member} lost of number {number} {row}: {rows.get(number)}')
        self.made, self.rows = True, rows
        for number, row in rows.items():
            self.circuit.take_vote(number, row)

    def read(self):
        """The rows of a copy of the file; None where it was not made yet."""
        name = f'station{self.member}.db'
        with tempfile.TemporaryDirectory(dir=self.circuit.folder) as copy:
            for file in os.listdir(self.circuit.folder):
                if file.startswith(name):
                    shutil.copy(self.circuit.path(file), copy)
            path = os.path.join(copy, name)
            if is_half_made(path):
                return None
            if shell(path, 'PRAGMA integrity_check') != ['ok']:
                raise Wrong(f'the file of station {self.member} is damaged')
            tables = shell(path, "SELECT name FROM sqlite_schema WHERE type = 'table' ORDER BY name")
            if not tables:
                return None
            whose = shell(path, 'SELECT layout, circuit, member, members FROM station') if 'station' in tables else None
            layout = next((l for l in TABLES if tables in TABLES[l] and whose == [f'{l}|7|{self.member}|{len(MEMBERS)}']), 0)
            if layout < (self.layout if self.made else 1):
                raise Wrong(f'the file of station {self.member} has the tables {tables} of {whose}, and was in layout {self.layout}')
            self.layout = layout
            return {row.number: row for row in (Row(line, layout) for line in shell(path, ROWS[layout]))}


class Row:
    """What a file has of a number."""

    def __init__(self, line, layout):
        words = line.split('|')
        self.number, self.promised = int(words[0]), (int(words[1]), int(words[2]))
        self.vote = (int(words[3]), int(words[4])) if words[3] else None
        self.entry = entry_of(words[5], words[6], layout)

    def stands_in(self, later):
        """Whether a later row of the number has lost nothing of this one."""
        if later is None or later.promised < self.promised:
            return False
        if self.vote is None or later.vote == self.vote:
            return self.vote is None or later.entry == self.entry
        return later.vote is not None and later.vote > self.vote

    def __str__(self):
        promised, vote = ('.'.join(map(str, ballot)) if ballot else '-' for ballot in (self.promised, self.vote))
        return f'{self.number} {promised} {vote} {self.entry or "-"}'


def entry_of(length, kept, layout):
    """The entry in two columns: the frames in hex, or that of a withdrawal; nothing where there is no vote."""
    if not length:
        return ''
    if layout == 1:
        return kept.lower()
    count, kept = int(length), bytes.fromhex(kept)
    if len(kept) != (3 * count + 3) // 4:
        raise Wrong(f'{count} frames are packed in {len(kept)} bytes')
    bits, pad = int.from_bytes(kept, 'big'), 8 * len(kept) - 6 * count
    if bits & ((1 << pad) - 1):
        raise Wrong('a bit behind the last frame is not zero')
    return bytes(bits >> pad + 6 * (count - 1 - place) & 63 for place in range(count)).hex() if count else VOID


def is_half_made(path):
    """Whether the file lacks SQLite's first letter, which is written last as a database is made."""
    if not os.path.exists(path):
        return True
    with open(path, 'rb') as file:
        return file.read(1) != b'S'


def shell(path, question):
    """The lines that the stock shell prints."""
    run = subprocess.run(['sqlite3', '-batch', path, question], capture_output=True, text=True)
    if run.returncode != 0 or run.stderr:
        raise Wrong(f'{path}: {question}: {run.stderr}')
    return run.stdout.splitlines()


class Circuit:
    """Three stations in a folder, and what was seen of them."""

    def __init__(self, program, chance):
        self.program, self.chance, self.folder = program, chance, tempfile.mkdtemp()
        self.network = Network(chance)
        self.kills = self.early = self.printed = self.upgrades = self.cut_upgrades = 0
        self.offered, self.released, self.voted, self.took = {}, {}, {}, []
        self.stations = [Station(self, member) for member in MEMBERS]
        self.configure()

    def path(self, name):
        return os.path.join(self.folder, name)

    def configure(self):
        for name in ('codes.toml', 'widths.toml', 'flood.tape', 'harvest.tape'):
            shutil.copy(os.path.join(EXAMPLES, name), self.folder)
        with open(self.path('third.tape'), 'wb') as tape:
            tape.write(bytes([1, 1, 1, 1, 1, 1, 4]))
        for member in MEMBERS:
            stations = ''.join(f'[[station]]\nmember = {other}\nip = "127.0.0.1"\n'
                               f'port = {self.network.port_of(member, other)}\n' for other in MEMBERS)
            with open(self.path(f'station{member}.toml'), 'w') as config:
                config.write(f'circuit = 7\nmember = {member}\ntable = "codes.toml"\nwidths = "widths.toml"\n'
                             f'rows = "station{member}.db"\n{stations}')

    def take_release(self, number, entry):
        self.printed += 1
        if self.released.setdefault(number, entry) != entry:
            raise Wrong(f'TWO STORIES of {number}: {entry} and {self.released[number]}')

    def take_vote(self, number, row):
        if row.vote and self.voted.setdefault((number, row.vote), row.entry) != row.entry:
            raise Wrong(f'two entries at one ballot: {row} and {self.voted[number, row.vote]}')

    def stir(self, station):
        """Starts a station with a wish of its own, and says when it is killed."""
        number = self.chance.choice(NUMBERS)
        if station.made and station.layout == 1 and self.chance.random() < 0.2:
            station.go_over(self.chance.random() < 0.5)
        if station.made and station.layout == 2 and self.chance.random() < 0.15:
            self.offered.setdefault(number, set()).add(VOID)
            words = ['--withdraw', str(number)]
        elif self.chance.random() < 0.7:
            story = self.chance.choice(STORIES)
            self.offered.setdefault(number, set()).add(story)
            words = ['--number', str(number), '--tape', story]
        else:
            words = ['--seek', str(number)]
        # most are killed among others' datagrams, some while they start
        span = (0, 0.06) if self.chance.random() < (0.3 if station.made else 0.8) else (0.06, 1.0)
        station.start(1_000_000, *words)
        station.until = time.monotonic() + self.chance.uniform(*span)

    def disturb(self, kills):
        """So many kills. A station that was killed starts again at once, or after a while."""
        for station in self.stations:
            self.stir(station)
        while self.kills < kills:
            station = min(self.stations, key=lambda each: each.until)
            self.network.pass_on_until(station.until)
            if station.process is None:
                self.stir(station)
                continue
            was_made = station.made
            station.kill()
            self.kills += 1
            self.early += not was_made
            station.until = time.monotonic() + self.chance.choice((0, 0, 0.05, 0.3))

    def settle(self):
        """Seeks each released number while nothing is lost, and keeps how long it took until all had printed it."""
        self.network.calm = True
        for station in self.stations:
            if station.made and station.layout == 1:
                if station.process is not None:
                    station.kill()
                station.go_over(True)
            if station.process is None:
                station.start(1_000_000)
        for number in sorted(self.released):
            seeker = self.stations[number % len(MEMBERS)]
            seeker.kill()
            seeker.start(1_000_000, '--seek', str(number))
            begun = time.monotonic()
            while not self.all_have(number) and time.monotonic() < begun + 8:
                self.network.pass_on_until(time.monotonic() + 0.01)
            self.took.append(time.monotonic() - begun if self.all_have(number) else NEVER)
        for station in self.stations:
            station.kill()

    def all_have(self, number):
        return all(str(number) in dict(station.releases()) for station in self.stations)

    def compare(self):
        """The stations end by themselves; what is then in their files is what `rows` prints, and has the votes."""
        for station in self.stations:
            station.end()
            printed = subprocess.run([self.program, 'rows', f'station{station.member}.db'], cwd=self.folder,
                                     capture_output=True, text=True)
            lines = [f'station {station.member} of {len(MEMBERS)} circuit 7', *map(str, station.rows.values())]
            if printed.stdout.splitlines() != lines:
                raise Wrong(f'rows of station {station.member} prints {printed.stdout!r}, the shell {lines}')
        for number, entry in self.released.items():
            votes = sum(number in s.rows and s.rows[number].entry == entry for s in self.stations)
            if 2 * votes <= len(MEMBERS):
                raise Wrong(f'{number} was released, and {votes} files have a vote for its entry')

    def close(self):
        for station in self.stations:
            if station.process is not None:
                station.process.kill()
                station.process.wait()
        self.network.close()


def tell(circuits, seed):
    """Prints what was seen of all circuits."""
    def total(count):
        return sum(map(count, circuits))

    rivals = total(lambda c: sum(len(c.offered.get(number, ())) > 1 for number in c.released))
    took = [moment for circuit in circuits for moment in circuit.took]
    print(f'{total(lambda c: c.kills)} kills in {len(circuits)} circuits, {total(lambda c: c.early)} of them of stations whose'
          f' file was not made yet; seed {seed}')
    print(', '.join(f'{total(lambda c: c.network.counts[what])} {what}' for what in circuits[0].network.counts)
          + ' of the datagrams')
    print(f'{total(lambda c: c.printed)} releases of {total(lambda c: len(c.released))} numbers, {rivals} of which were'
          f' offered as several stories; {total(lambda c: len(c.voted))} votes')
    print(f'{total(lambda c: c.upgrades)} upgrades, and {total(lambda c: c.cut_upgrades)} that were killed;'
          f' {total(lambda c: sum(entry == VOID for entry in c.released.values()))} numbers are withdrawn')
    found = [moment for moment in took if moment < NEVER]
    print(f'{len(found)} of {len(took)} numbers were found again, within {max(found, default=0):.2f} s')


def main():
    if not 2 <= len(sys.argv) <= 4:
        sys.exit(__doc__)
    program = proved.program(sys.argv[1])
    kills = int(sys.argv[2]) if len(sys.argv) > 2 else 1000
    seed = int(sys.argv[3]) if len(sys.argv) > 3 else random.SystemRandom().randrange(1_000_000)
    if shutil.which('sqlite3') is None:
        sys.exit('kills.py: no SQLite shell: apt-get install sqlite3')
    print(f'seed {seed}', flush=True)
    chance, circuits = random.Random(seed), []
    while kills > 0:
        circuit = Circuit(program, chance)
        circuits.append(circuit)
        try:
            circuit.disturb(min(kills, KILLS_OF_A_CIRCUIT))
            circuit.settle()
            circuit.compare()
        except Wrong as wrong:
            print(f'{wrong}; see {circuit.folder}')
            return 1
        finally:
            circuit.close()
        shutil.rmtree(circuit.folder)
        kills -= circuit.kills
    tell(circuits, seed)
    print('no number means two stories, and no saved row was lost')
    return 0


if __name__ == '__main__':
    sys.exit(main())

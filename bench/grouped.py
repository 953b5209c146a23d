#!/usr/bin/env python3
"""Kills plants in the middle of bursts, and cuts their power off, and looks whether one ever sent what it had not saved, and whether anything is lost.

    bench/grouped.py PROGRAM [KILLS] [CUTS] [SEED]
    bench/grouped.py --forge PROGRAM [SEED]

Under `run` steps share a save: what they hand out is sent once the rows of all of them are saved by one commit. Needs the stock SQLite shell
(`apt-get install sqlite3`). Circuits of three plants `run` on 127.0.0.1, one after another, over sockets of this bench as in kills.py, so that it has
each datagram that a plant sends. It passes all on: at once, or in every second circuit some of it up to 20 ms late. Bursts of 60 to 200 stories and
withdrawals are laid at one plant, over all, or under the same numbers at two. Meanwhile plants are killed (SIGKILL), two at once now and then,
500 where no other count is given: half of them at a moment of their own, half as soon as so many datagrams of theirs are here. Each starts again over its rows
and folders. Then the same with the power, 200 times: each plant lies on an ext4 in a file of its own, as makings.py plays it, which is shut down
without a flush in place of the kill, unmounted and mounted again; for these the script has to be root's.

After each kill and cut, before the next start, a copy of the plant's row file and its log is read by the shell, and held against all datagrams that
this plant has sent in all of its lives (told.py): each Prepare, Promise and Nack names a promise that its row has or that is below the row's; each
Accept, Accepted and reported vote is the row's vote, entry and all, or at a lower ballot; each roll counts and lists no more votes than the rows have;
and each Promise reports the greatest vote below it that was ever told. No row of an earlier reading is missing or has a lower promise or vote, and all
votes at one ballot are for one entry. Each file in `releases` that has its last name is whole, all plants' releases of a number are of one entry, for
which a majority has voted at one ballot (by what was sent, or by the plant's own row), and each number in `.released` has its files. Each file that was
laid into `offers` lies there, or in sent or lost, once; in these only if its number was released here, and in the right one.

At the end of a circuit all plants run, and all is passed on: within a minute each offer has to come to sent or lost, and all plants to have the releases
of all numbers. A file `stop` ends each with status 0, and of each number a majority of the row files has the vote. Printed is one line of figures; how
many rows a commit has changed is read of the logs. The status is 1 where anything was otherwise, and the folder of that circuit stays, with all
datagrams in `sent`.

With --forge it is shown that the bench can fail: after some kills it is given copies of row files in which something is missing, datagrams that tell more
than the rows have, releases that nobody voted for, plants that send before their commit is in the log, and plants whose syncs do nothing as the power
is cut off. It has to complain of each. For the plants a C compiler is needed.
"""
import copy
import ctypes
import heapq
import os
import random
import shutil
import socket
import struct
import subprocess
import sys
import tempfile
import time
from collections import Counter

import proved

import plants
from commits import commits_of, end_of, sizes
from kills import MEMBERS, NEVER, ROWS, VOID, Network, Row, Wrong, shell
from makings import Disk
from plants import PLACES, WAITING
from told import Told

import datagrams

CIRCUIT = 7
LINE, LONG = '01020301030204', 1000
# stories that set by the examples' table and widths, and their galleys
STORIES = plants.STORIES | {LINE * LONG: ''.join(f'{line:04d} J 0 0 a b _4 a _4 b\n' for line in range(1, LONG + 1))}
SHORT = sorted(plants.STORIES)
FALLS_OF_A_CIRCUIT = 25
# how many files wait at least, how many a burst has, and the shares of them that are withdrawals, and long
FEW, BURST, VOIDS, LONGS = 30, (60, 200), 0.05, 0.01
# in seconds: how long a life has, and one that ends by a datagram at most; how late a datagram is; how long the end, and that of a plant, may take
LIFE, LONGEST, LATE, MINUTE, ENDS = (0.1, 2.0), 8.0, 0.02, 60, 120
# how often it is looked whether a plant is down
SLICE = 0.005
# where the plants' ports lie
PORTS = range(20_000, 32_000)
# a socket option of root's: a buffer above what the host allows
SO_RCVBUFFORCE, ROOM = 33, 64 << 20


class Relay(Network):
    """The sockets between the plants: all is kept and passed on, and a plant may be struck as it sends."""

    def __init__(self, chance, prompt):
        super().__init__(chance)
        self.calm = prompt
        self.sent, self.traps = {member: [] for member in MEMBERS}, {}
        for own in self.between.values():
            option = SO_RCVBUFFORCE if os.geteuid() == 0 else socket.SO_RCVBUF
            own.setsockopt(socket.SOL_SOCKET, option, ROOM)

    def take(self, pair, datagram):
        sender, to = pair
        self.sent[sender].append((to, datagram))
        self.counts['sent'] += 1
        late = 0 if self.calm or self.chance.random() < 0.8 else self.chance.uniform(0, LATE)
        heapq.heappush(self.waiting, (time.monotonic() + late, self.counts['sent'], pair, datagram))
        if sender in self.traps:
            self.spring(sender)

    @staticmethod
    def free_ports():
        """Ports that the host gives to nobody by itself, so that they stay free while a plant is down."""
        ports = {}
        while len(ports) < len(MEMBERS):
            port = random.SystemRandom().choice(PORTS)
            with socket.socket(socket.AF_INET, socket.SOCK_DGRAM) as probe:
                try:
                    probe.bind(('127.0.0.1', port))
                except OSError:
                    continue
            if port not in ports.values():
                ports[MEMBERS[len(ports)]] = port
        return ports

    def pass_on_until(self, moment):
        """Passes datagrams on until this moment."""
        while (now := time.monotonic()) < moment:
            while self.waiting and self.waiting[0][0] <= now:
                _, _, (sender, to), datagram = heapq.heappop(self.waiting)
                self.between[to, sender].sendto(datagram, ('127.0.0.1', self.ports[to]))
            due = min(moment, self.waiting[0][0] if self.waiting else NEVER)
            for key, _ in self.selector.select(max(0.0, due - now)):
                self.take_one(key.data)

    def take_one(self, pair):
        """Takes a datagram that waits at a socket, unless a stranger sent it, as another bench to a port that was its plant's; whether there was one."""
        try:
            datagram, address = self.between[pair].recvfrom(65536)
        except BlockingIOError:
            return False
        if address == ('127.0.0.1', self.ports[pair[0]]):
            self.take(pair, datagram)
        return True

    def spring(self, sender):
        """Strikes the sender if so many datagrams of it have come."""
        left, strike = self.traps.pop(sender)
        if left == 1:
            strike()
        else:
            self.traps[sender] = left - 1, strike

    def take_rest(self, sender):
        """Takes what a plant has sent that is down."""
        self.traps.pop(sender, None)
        for pair in self.between:
            while pair[0] == sender and self.take_one(pair):
                pass

    def dropped(self):
        """How many datagrams the sockets had no room for."""
        ports = {f':{own.getsockname()[1]:04X}' for own in self.between.values()}
        with open('/proc/net/udp', encoding='ascii') as table:
            rows = [line.split() for line in table][1:]
        return sum(int(row[-1]) for row in rows if row[1][-5:] in ports)


class Plant(plants.Plant):
    """A plant, its lives one after another, and what was seen of it. With a disk of its own it loses its power, else it is killed."""

    def __init__(self, circuit, member, has_disk):
        self.circuit, self.member, self.before = circuit, member, []
        self.base = os.path.join(circuit.folder, f'plant{member}')
        os.makedirs(self.base)
        self.disk = Disk(self.base, 128) if has_disk else None
        self.folder = self.disk.place if has_disk else self.base
        self.process, self.until, self.runs, self.struck, self.laid = None, 0.0, 0, False, {}
        self.told, self.taken, self.rows = Told(CIRCUIT, member), 0, {}
        # the votes that its rows ever had, as numbers and ballots; the releases that a majority stands behind; of each log what its commits are
        self.voted, self.stood, self.logs = set(), set(), {}
        for name in ('offers', 'releases'):
            os.makedirs(self.path(name))

    def create(self):
        subprocess.run([self.circuit.program, 'create', 'station.toml'], cwd=self.folder, check=True, stdout=subprocess.DEVNULL)

    def start(self):
        """Starts a life, and says when it ends: at a moment, or as so many datagrams of it are here."""
        chance, now = self.circuit.chance, time.monotonic()
        self.runs += 1
        self.err = open(os.path.join(self.base, f'run{self.runs}.err'), 'w+')
        self.process = subprocess.Popen([*self.before, self.circuit.program, 'run', 'station.toml'], cwd=self.folder,
                                        stdout=subprocess.DEVNULL, stderr=self.err)
        self.until = now + chance.uniform(*LIFE)
        if chance.random() < 0.5:
            self.until = now + LONGEST
            self.circuit.network.traps[self.member] = int(10 ** chance.uniform(0.3, 3.3)), lambda: self.circuit.strike(self)

    def strike(self):
        """Kills it, or cuts its power off; it did not end before."""
        if self.process.poll() is not None:
            raise Wrong(f'run {self.runs} of plant {self.member} ended with status {self.process.poll()}: {self.said()!r}')
        self.struck = True
        self.circuit.network.traps.pop(self.member, None)
        if self.disk:
            self.disk.cut()
        else:
            self.process.kill()

    def fall(self):
        """It is down: sees what is there, and when it starts again."""
        self.end_process()
        if self.disk:
            self.unmount()
            self.disk.mount()
        self.struck = False
        self.look()
        self.until = time.monotonic() + self.circuit.chance.choice((0, 0, 0.05, 0.3))

    def end_process(self):
        if self.process is not None:
            self.process.kill()
            self.process.wait()
            self.process = None
            self.err.close()

    def lay_all(self, offers):
        """Hands files over: written under other names, then renamed. They are on the disk before any power cut."""
        offers = {name: entry for name, entry in offers.items() if name not in self.laid}
        for name, entry in offers.items():
            with open(self.path('offers', f'.{name}'), 'wb') as file:
                file.write(bytes.fromhex(entry) if entry != VOID else b'')
        self.sync()
        for name in offers:
            os.rename(self.path('offers', f'.{name}'), self.path('offers', name))
        self.sync()
        self.laid |= offers

    def sync(self):
        """Writes all that its disk holds."""
        if self.disk:
            folder = os.open(self.folder, os.O_RDONLY)
            ctypes.CDLL(None).syncfs(folder)
            os.close(folder)

    def waits(self):
        """How many files wait among the offers."""
        return sum(name in self.laid for name in os.listdir(self.path('offers')))

    def look(self):
        """Holds what is on the disk against all that was told before."""
        self.circuit.network.take_rest(self.member)
        self.circuit.take_in()
        rows = self.read()
        self.told.hold(rows)
        for number, row in self.rows.items():
            if not row.stands_in(rows.get(number)):
                raise Wrong(f'LOST: plant {self.member} had of {number} {row}, and has {rows.get(number)}')
        for number, row in rows.items():
            self.circuit.take_vote(number, row)
            self.voted.add((number, row.vote))
        self.rows = rows
        self.see_offers(self.see_releases())

    def read(self):
        """The rows of a copy of the row file; the copy stays until the next."""
        place = os.path.join(self.base, 'copy')
        shutil.rmtree(place, ignore_errors=True)
        os.makedirs(place)
        for name in os.listdir(self.folder):
            if name.startswith('station.db'):
                shutil.copy(self.path(name), place)
        if os.path.exists(log := os.path.join(place, 'station.db-wal')):
            with open(os.path.join(place, 'station.db'), 'rb') as file, open(log, 'rb') as frames:
                file, frames = file.read(), frames.read()
            # a log that is seen again has grown
            self.logs[frames[16:24]] = sizes(file, frames)
        # what the shell does to the copy is done to another
        apart = os.path.join(self.base, 'apart')
        shutil.rmtree(apart, ignore_errors=True)
        shutil.copytree(place, apart)
        return rows_of(os.path.join(apart, 'station.db'))

    def releases(self):
        """The entry of each number that is among the releases; each file is whole."""
        found, galleys = {}, {}
        for name in os.listdir(self.path('releases')):
            number, _, kind = name.partition('.')
            if kind not in ('tape', 'galley', 'void') or not number:
                continue
            with open(self.path('releases', name), 'rb') as file:
                held = file.read()
            if kind == 'galley':
                galleys[int(number)] = held.decode()
            else:
                found[int(number)] = held.hex() if kind == 'tape' or held else VOID
        for number, entry in found.items():
            if entry not in STORIES and entry != VOID:
                raise Wrong(f'the release {number} of plant {self.member} is no story: {entry[:80]}')
        for number, galley in galleys.items():
            if galley != STORIES.get(found.get(number)):
                raise Wrong(f'the galley {number} of plant {self.member} is not that of its tape: {galley[:80]!r}')
        self.see_noted({number for number, entry in found.items() if entry == VOID or number in galleys})
        return found

    def noted(self):
        """The numbers that it keeps as gone out."""
        path = self.path('releases', '.released')
        if not os.path.exists(path):
            return set()
        with open(path, 'rb') as file:
            data = file.read()
        try:
            return set(datagrams.read_released(data)[1])
        except datagrams.NotSpelled as fault:
            raise Wrong(f'.released of plant {self.member}: {fault}') from fault

    def see_noted(self, whole):
        """Each number that is noted as gone out has its files."""
        if lacked := self.noted() - whole:
            raise Wrong(f'.released of plant {self.member} has {sorted(lacked)[:9]}, whose files do not lie there')

    def see_releases(self):
        """All plants' releases of a number are of one entry, and a majority has voted for it."""
        found = self.releases()
        for number, entry in found.items():
            self.circuit.take_release(number, entry)
            if number not in self.stood:
                self.see_majority(number, entry)
                self.stood.add(number)
        return found

    def see_majority(self, number, entry):
        """At some ballot a majority voted for the entry, as they told, or as the own row has it."""
        told = [plant.told.votes.get(number, {}) for plant in self.circuit.plants]
        for ballot in set().union(*told):
            members = {plant.member for plant, votes in zip(self.circuit.plants, told) if votes.get(ballot) == entry}
            if (number, ballot) in self.voted and self.circuit.voted[number, ballot] == entry:
                members.add(self.member)
            if 2 * len(members) > len(MEMBERS):
                return
        raise Wrong(f'{number} was released at plant {self.member}, and no majority has told of votes for {entry[:80]} at one ballot')

    def see_offers(self, released):
        """Each file that was laid lies in one place, and in the right one."""
        places = {}
        for place in PLACES:
            if os.path.isdir(self.path('offers', place)):
                for name in os.listdir(self.path('offers', place)):
                    places.setdefault(name, []).append(place)
        for name, entry in self.laid.items():
            found, stands = places.get(name, []), released.get(int(name.partition('.')[0]))
            if found in WAITING:
                continue
            if found not in (['sent'], ['lost']):
                raise Wrong(f'{name} of plant {self.member} lies in {found}')
            if stands is None or (found == ['sent']) != (stands == entry):
                raise Wrong(f'{name} of plant {self.member} lies in {found[0]}, and what was released is {str(stands)[:80]}')

    def numbers(self):
        """The numbers whose tape, or that there is none, lies among the releases."""
        names = (name.partition('.') for name in os.listdir(self.path('releases')))
        return {int(number) for number, _, kind in names if number and kind in ('tape', 'void')}

    def stop(self):
        """A file `stop` ends it with status 0."""
        with open(self.path('offers', 'stop'), 'w'):
            pass
        begun = time.monotonic()
        while self.process.poll() is None and time.monotonic() < begun + ENDS:
            self.circuit.network.pass_on_until(time.monotonic() + 0.05)
        if self.process.poll() != 0:
            raise Wrong(f'plant {self.member} ended with {self.process.poll()} where it was told to stop: {self.said()!r}')
        self.end_process()
        self.look()

    def unmount(self):
        """Unmounts its disk, which somebody else may look at for a moment."""
        for _ in range(50):
            try:
                return self.disk.unmount()
            except subprocess.CalledProcessError:
                time.sleep(0.1)
        raise Wrong(f'the disk of plant {self.member} stays busy')

    def close(self):
        self.end_process()
        if self.disk:
            self.unmount()


class Circuit(plants.Circuit):
    """Three plants, and what was seen of them."""

    def __init__(self, program, chance, has_disks, prompt=True):
        self.program, self.chance, self.folder = program, chance, tempfile.mkdtemp(prefix='grouped-')
        self.network, self.has_disks = Relay(chance, prompt), has_disks
        self.falls, self.next, self.took = 0, 1, NEVER
        self.released, self.voted, self.offered = {}, {}, {}
        self.plants = []
        for member in MEMBERS:
            self.plants.append(plant := Plant(self, member, has_disks))
            self.configure(plant)
            plant.create()
            plant.sync()

    def configure(self, plant):
        """As plants.py does; but all offers come by a rename, so that a start takes them up at its first look."""
        super().configure(plant)
        with open(plant.path('station.toml'), 'r+') as config:
            words = config.read().replace('[folders]\n', '[folders]\nrenamed = true\n')
            config.seek(0)
            config.write(words)

    def take_in(self):
        """Takes in what the plants have sent."""
        for plant in self.plants:
            sent = self.network.sent[plant.member]
            for to, datagram in sent[plant.taken:]:
                plant.told.take_in(to, datagram)
            plant.taken = len(sent)

    def take_vote(self, number, row):
        """All votes at one ballot are for one entry."""
        if row.vote and self.voted.setdefault((number, row.vote), row.entry) != row.entry:
            raise Wrong(f'two entries at one ballot: {row} and {self.voted[number, row.vote]}')

    def entry(self):
        """What is offered: mostly a short story."""
        what = self.chance.random()
        if what < VOIDS:
            return VOID
        return LINE * LONG if what < VOIDS + LONGS else self.chance.choice(SHORT)

    def lay_burst(self):
        """Lays a burst at one plant, over all, or under the same numbers at two."""
        count, offers = self.chance.randint(*BURST), {plant: {} for plant in self.plants}
        to, each = self.chance.choice(((1, 1), (1, 1), (3, 1), (2, 2)))
        chosen = self.chance.sample(self.plants, to)
        for number in range(self.next, self.next + count):
            for place in range(each):
                entry = self.entry()
                kind = 'withdraw' if entry == VOID else 'tape'
                offers[chosen[(number + place) % to]][f'{number}.{kind}'] = entry
                self.offered.setdefault(number, set()).add(entry)
        self.next += count
        for plant in self.plants:
            plant.lay_all(offers[plant])

    def strike(self, plant):
        """Strikes a plant, and now and then another one with it."""
        plant.strike()
        others = [other for other in self.plants if other.process and not other.struck]
        if others and self.chance.random() < 0.15:
            self.chance.choice(others).strike()

    def disturb(self, falls):
        """So many kills or power cuts in the middle of bursts."""
        for plant in self.plants:
            plant.start()
        while self.falls < falls:
            if sum(plant.waits() for plant in self.plants) < FEW:
                self.lay_burst()
            self.network.pass_on_until(time.monotonic() + SLICE)
            for plant in self.plants:
                if plant.process is None and plant.until <= time.monotonic():
                    plant.start()
                elif not plant.struck and plant.process and plant.until <= time.monotonic():
                    self.strike(plant)
            for plant in self.plants:
                if plant.struck:
                    plant.fall()
                    self.falls += 1

    def is_settled(self):
        """Whether all offers have left, and all plants have all numbers."""
        numbers = [plant.numbers() for plant in self.plants]
        return not any(plant.waits() for plant in self.plants) and all(each == set(self.offered) for each in numbers)

    def start_all(self):
        """All plants run, and no fall waits for any."""
        for plant in self.plants:
            if plant.process is None:
                plant.start()
        self.network.traps.clear()

    def settle(self):
        """All plants run, and come to have all."""
        self.network.calm = True
        self.start_all()
        begun = time.monotonic()
        while not self.is_settled() and time.monotonic() < begun + MINUTE:
            self.network.pass_on_until(time.monotonic() + 0.05)
        self.took = time.monotonic() - begun
        if not self.is_settled():
            lacks = {plant.member: sorted(set(self.offered) - plant.numbers())[:9] for plant in self.plants}
            raise Wrong(f'{self.took:.0f} s after the last fall there wait {[plant.waits() for plant in self.plants]} offers, and the plants lack {lacks}')
        for plant in self.plants:
            plant.stop()
        self.see_votes()

    def see_votes(self):
        """Of each number that was released a majority of the files has the vote."""
        for number, entry in self.released.items():
            votes = sum(number in plant.rows and plant.rows[number].entry == entry for plant in self.plants)
            if 2 * votes <= len(MEMBERS):
                raise Wrong(f'{number} was released, and {votes} files have a vote for its entry')

    def keep_sent(self):
        """Writes all datagrams into the folder: who sent each, and to whom."""
        with open(os.path.join(self.folder, 'sent'), 'w') as file:
            for member, sent in self.network.sent.items():
                file.writelines(f'{member} {to} {datagram.hex()}\n' for to, datagram in sent)

    def figures(self):
        """What was counted."""
        logs = [log for plant in self.plants for log in plant.logs.values()]
        rows = [size for changed, _ in logs for size in changed if size]
        return Counter({
            'circuits': 1, 'falls': self.falls, 'restarts': sum(plant.runs - 1 for plant in self.plants),
            'held': sum(plant.told.held for plant in self.plants), 'unseen': self.network.dropped(),
            'commits': len(rows), 'shared': sum(size > 1 for size in rows), 'within': sum(begun for _, begun in logs),
            'released': len(self.released), 'rivals': sum(len(entries) > 1 for entries in self.offered.values()),
        }), max(rows, default=0), self.took

    def close(self):
        for plant in self.plants:
            plant.close()
        self.network.close()


def write(path, data):
    with open(path, 'wb') as file:
        file.write(data)


def rows_of(path):
    """The rows of a file that is whole."""
    if (told := shell(path, 'PRAGMA integrity_check')) != ['ok']:
        raise Wrong(f'{path} is damaged: {told[:3]}')
    return {row.number: row for row in (Row(line, 2) for line in shell(path, ROWS[2]))}


def play(program, falls, chance, has_disks):
    """Circuits, until there were so many kills or power cuts; the figures of each."""
    told, left = [], falls
    while left > 0:
        circuit = Circuit(program, chance, has_disks, len(told) % 2 == 0)
        try:
            circuit.disturb(min(left, FALLS_OF_A_CIRCUIT))
            circuit.settle()
            told.append(circuit.figures())
        except Wrong as wrong:
            circuit.keep_sent()
            print(f'{wrong}; see {circuit.folder}')
            sys.exit(1)
        finally:
            circuit.close()
        shutil.rmtree(circuit.folder)
        left -= circuit.falls
    return told


def why_no_cuts():
    """Why the power can't be cut off here, if it can't."""
    with tempfile.TemporaryDirectory() as folder:
        try:
            Disk(folder).unmount()
        except (OSError, subprocess.CalledProcessError) as error:
            return str(error)
    return None


def tell(killed, cut, seed):
    """Prints what was seen of all circuits."""
    if not killed + cut:
        return
    figures = sum((figures for figures, _, _ in killed + cut), Counter())
    most, took = (max(each) for each in list(zip(*killed + cut))[1:])
    print(f'{sum(figures["falls"] for figures, _, _ in killed)} kills and {sum(figures["falls"] for figures, _, _ in cut)} power cuts'
          f' in {figures["circuits"]} circuits, {figures["restarts"]} restarts;'
          f' {figures["held"]} datagrams were held against rows, and {figures["unseen"]} were not seen;'
          f' {figures["commits"]} commits in the logs, {figures["shared"]} of more than one row, the largest of {most};'
          f' {figures["within"]} logs ended within one;'
          f' {figures["released"]} numbers were released, {figures["rivals"]} of which were offered as several entries;'
          f' all was in its place within {took:.1f} s; seed {seed}')


# What is done to a copy of a row file, each to the row of a number that was told; the bench has to complain.
FORGED = {
    'a row is missing': 'DELETE FROM acceptor_entry WHERE number = {}',
    'a vote is missing': 'UPDATE acceptor_entry SET vote_round = NULL, vote_owner = NULL, length = NULL, packed = NULL WHERE number = {}',
    'a promise is lower': 'UPDATE acceptor_entry SET promised_round = 0, vote_round = 0 WHERE number = {}',
    'a vote is lower': 'UPDATE acceptor_entry SET vote_round = 0 WHERE number = {}',
    'a vote is for another entry': 'UPDATE acceptor_entry SET length = 1, packed = X\'04\' WHERE number = {}',
}


# Syncs that do nothing; and a log in which the last byte of a commit, which makes it one, waits for the next write: so the station sends before that.
# Byte 60 of a row file is its mark, and no commit ends there.
NO_SYNCS = 'int fsync(int file) { return 0; }\nint fdatasync(int file) { return 0; }\n'
LATE_COMMITS = """
#define _GNU_SOURCE
#include <dlfcn.h>
#include <unistd.h>
static int held = -1;
static char byte;
static off_t place;
ssize_t pwrite64(int file, const void *data, size_t count, off_t at) {
    ssize_t (*real)(int, const void *, size_t, off_t) = (ssize_t (*)(int, const void *, size_t, off_t))dlsym(RTLD_NEXT, "pwrite64");
    if (held >= 0) real(held, &byte, 1, place);
    held = -1;
    if (count != 1 || at == 60) return real(file, data, count, at);
    held = file, byte = *(const char *)data, place = at;
    return 1;
}
ssize_t pwrite(int file, const void *data, size_t count, off_t at) { return pwrite64(file, data, count, at); }
"""


class Forger:
    """A plant that was killed, and what is forged of it."""

    def __init__(self, plant):
        self.plant, self.tried, self.failed = plant, 0, 0
        self.copy = os.path.join(plant.base, 'copy')
        self.number = max(number for number, votes in plant.told.votes.items() if plant.rows[number].vote in votes)

    def expect(self, what, attempt):
        """The bench complains of this."""
        self.tried += 1
        try:
            attempt()
        except Wrong as wrong:
            print(f'{what}: {str(wrong)[:160]}')
        else:
            self.failed += 1
            print(f'{what}: NOBODY COMPLAINED')

    def hold(self, rows, datagram=None):
        """Holds rows against what was told, and maybe a datagram more."""
        told = copy.deepcopy(self.plant.told)
        if datagram:
            told.take_in(self.other(), datagram)
        told.hold(rows)

    def forge_rows(self):
        """Rows that lack something."""
        for what, change in FORGED.items():
            path = self.copied()
            shell(path, change.format(self.number))
            rows = rows_of(path)
            self.expect(what, lambda rows=rows: self.hold(rows))

    def forge_log(self):
        """A log that ends before a commit; of the very last ones nothing may have been sent yet."""
        with open(os.path.join(self.copy, 'station.db-wal'), 'rb') as file:
            log = file.read()
        count = len(commits_of(log)[0])
        self.hold(rows_of(self.copied()))
        for back in range(1, count + 1):
            path = self.copied()
            os.truncate(path + '-wal', end_of(log, count - back))
            rows = rows_of(path)
            try:
                self.hold(rows)
            except Wrong:
                break
        self.expect(f'{back} of {count} commits cut off the log', lambda: self.hold(rows))

    def forge_datagrams(self):
        """Datagrams that tell more than the rows have."""
        rows, number, own = self.plant.rows, self.number, self.plant.member
        other, row, entry = self.other(), self.plant.rows[self.number], datagrams.packed(bytes.fromhex(SHORT[0]))
        above, mine = (row.promised[0] + 1, other), (row.promised[0] + 1, own)
        named = struct.pack('>IB', *mine)
        self.forge_packet('a Prepare', datagrams.PREPARE, mine, b'')
        self.forge_packet('a Promise', datagrams.PROMISE, above, b'\0')
        self.forge_packet('a report', datagrams.PROMISE, row.promised, b'\1' + named + entry)
        self.forge_packet('an Accept', datagrams.ACCEPT, mine, entry)
        self.forge_packet('an Accepted', datagrams.ACCEPTED, above, entry)
        self.forge_packet('a Nack', datagrams.NACK, (1, other), named)
        risen = copy.copy(row)
        risen.promised = above
        blank = datagrams.Packet(datagrams.PROMISE, CIRCUIT, own, other, number, above, b'\0')
        self.expect('a Promise that reports no vote', lambda: self.hold(rows | {number: risen}, datagrams.spell(blank)))
        page = datagrams.Roll(datagrams.PAGE, CIRCUIT, own, other, 1, 0, (max(rows) + 1,))
        self.expect('a page with one number more', lambda: self.hold(rows, datagrams.spell_roll(page)))
        counts = [sum(bool(each.vote) for each in rows.values()) + 1] + [0] * (datagrams.PAGES - 1)
        count = datagrams.Roll(datagrams.COUNTS, CIRCUIT, own, other, 1, 0, counts)
        self.expect('a count that is greater', lambda: self.hold(rows, datagrams.spell_roll(count)))

    def forge_packet(self, what, kind, ballot, rest):
        """A packet that tells more than the row of the number has."""
        packet = datagrams.Packet(kind, CIRCUIT, self.plant.member, self.other(), self.number, ballot, rest)
        self.expect(f'{what} above the row', lambda: self.hold(self.plant.rows, datagrams.spell(packet)))

    def other(self):
        """Another member."""
        return 2 if self.plant.member == 1 else 1

    def forge_files(self):
        """Releases that nobody voted for, that are cut short, or that are missing; an offer that is lost."""
        plant, free = self.plant, self.plant.circuit.next
        entries = plant.releases()
        number = min(number for number in plant.noted() if entries[number] != VOID)
        tape, forged, offer = plant.path('releases', f'{number}.tape'), plant.path('releases', f'{free}.tape'), f'{free}.tape'
        write(forged, bytes.fromhex(SHORT[0]))
        self.expect('a release that nobody voted for', plant.see_releases)
        os.remove(forged)
        plant.lay_all({offer: SHORT[0]})
        os.rename(plant.path('offers', offer), plant.path(offer))
        self.expect('an offer that lies nowhere', lambda: plant.see_offers(plant.releases()))
        os.makedirs(plant.path('offers', 'lost'), exist_ok=True)
        os.rename(plant.path(offer), plant.path('offers', 'lost', offer))
        self.expect('an offer that lies in lost while its number is free', lambda: plant.see_offers(plant.releases()))
        write(tape, bytes.fromhex(SHORT[0])[:3])
        self.expect('a release that is cut short', plant.see_releases)
        os.remove(tape)
        os.remove(plant.path('releases', f'{number}.galley'))
        self.expect('a release that was noted and is missing', plant.see_releases)

    def copied(self):
        """The path of a copy of the copy."""
        apart = os.path.join(self.plant.base, 'forged')
        shutil.rmtree(apart, ignore_errors=True)
        shutil.copytree(self.copy, apart)
        return os.path.join(apart, 'station.db')


def forge_calls(program, chance, source, has_disks):
    """Kills or power cuts of plants, some of whose calls of the host are forged, until the bench complains."""
    circuit = Circuit(program, chance, has_disks)
    library = os.path.join(circuit.folder, 'forged.so')
    subprocess.run(['cc', '-shared', '-fPIC', '-x', 'c', '-', '-o', library], input=source.encode(), check=True)
    for plant in circuit.plants:
        plant.before = ['env', f'LD_PRELOAD={library}']
    try:
        circuit.disturb(FALLS_OF_A_CIRCUIT)
    finally:
        circuit.close()
        shutil.rmtree(circuit.folder)


def forge(program, chance):
    """Forgeries of all kinds; the status is 0 if the bench complains of each."""
    circuit = Circuit(program, chance, False)
    try:
        circuit.disturb(15)
        circuit.start_all()
        circuit.lay_burst()
        circuit.network.pass_on_until(time.monotonic() + 2)
        plant = max(circuit.plants, key=lambda plant: len(plant.noted()))
        plant.strike()
        plant.fall()
        forger = Forger(plant)
        forger.forge_rows()
        forger.forge_log()
        forger.forge_datagrams()
        forger.forge_files()
    finally:
        circuit.close()
    shutil.rmtree(circuit.folder)
    forger.expect('commits that are written late', lambda: forge_calls(program, chance, LATE_COMMITS, False))
    if (why := why_no_cuts()) is not None:
        print(f'skipped: syncs that do nothing: {why}')
    else:
        forger.expect('syncs that do nothing', lambda: forge_calls(program, chance, NO_SYNCS, True))
    print(f'{forger.tried} forgeries, {forger.tried - forger.failed} of which the bench complained of')
    return int(forger.failed > 0)


def main():
    words = sys.argv[1:]
    forges = words[:1] == ['--forge']
    words = words[forges:]
    if not 1 <= len(words) <= (2 if forges else 4):
        sys.exit(__doc__)
    if shutil.which('sqlite3') is None:
        sys.exit('grouped.py: no SQLite shell: apt-get install sqlite3')
    program = proved.program(words[0])
    counts = [int(word) for word in words[1:]]
    seed = counts.pop() if len(counts) == (1 if forges else 3) else random.SystemRandom().randrange(1_000_000)
    print(f'seed {seed}', flush=True)
    if forges:
        return forge(program, random.Random(seed))
    kills, cuts = counts + [500, 200][len(counts):]
    killed, cut = play(program, kills, random.Random(seed), False), []
    if cuts > 0 and (why := why_no_cuts()) is not None:
        print(f'skipped: no power was cut off: {why}')
    elif cuts > 0:
        cut = play(program, cuts, random.Random(seed), True)
    tell(killed, cut, seed)
    return 0


if __name__ == '__main__':
    sys.exit(main())

"""Circuits of plants in namespaces, with an attacker on the path between them: what attacks.py stands on."""
import collections
import os
import re
import shutil
import socket
import struct
import sys
import tempfile
import time

import plants
from corrections import CONFIG
from kills import EXAMPLES, Wrong
from net import Net

sys.path.insert(0, os.path.join(os.path.dirname(os.path.abspath(__file__)), '..', 'contrib', 'plays'))
import datagrams
import seals

PORT, UDP, IP_HEAD, UDP_HEAD = 7000, 17, 20, 8
CIRCUIT = 7
# The most bytes in IP of a sealed datagram.
DATAGRAM = IP_HEAD + UDP_HEAD + seals.MOST_DATAGRAM
# What a plant tells of datagrams that it passed over: how many, and why.
PASSED_OVER = re.compile(r'socket: (\d+) datagrams (.*), last from \S+')
# It tells so once a second; after so many seconds all is told.
TELLS = 2.5
# How long plants may take to be up.
UP = 20


def sum_of(data):
    """The sum of the internet over an even number of bytes."""
    total = sum(struct.unpack(f'>{len(data) // 2}H', data))
    while total >> 16:
        total = (total & 0xffff) + (total >> 16)
    return ~total & 0xffff


def ip_packet(source, to, data):
    """A datagram in IP from the address of one member to that of another. It has no sum of UDP, which each host takes."""
    head = struct.pack('>BBHIBBH', 0x45, 0, IP_HEAD + UDP_HEAD + len(data), 0, 64, UDP, 0)
    head += socket.inet_aton(Net.address(source)) + socket.inet_aton(Net.address(to))
    head = head[:10] + struct.pack('>H', sum_of(head)) + head[12:]
    return head + struct.pack('>4H', PORT, PORT, UDP_HEAD + len(data), 0) + data


def ends_of(packet):
    """Which members a packet in IP comes from and goes to."""
    return packet[15], packet[19]


def is_datagram(packet):
    """Whether a packet in IP is a datagram or a fragment of one."""
    return packet[9] == UDP


def is_fragment(packet):
    return int.from_bytes(packet[6:8], 'big') & 0x3fff != 0


def payload_of(packet):
    """The bytes of a datagram."""
    return packet[4 * (packet[0] & 15) + UDP_HEAD:]


def said_in(packet):
    """The short packet of the circuit that goes in a datagram, sealed or not: who looks on can read it. None where it is no such one."""
    if not is_datagram(packet) or is_fragment(packet):
        return None
    data = payload_of(packet)
    try:
        return datagrams.read(data[seals.HEAD:-seals.TAG] if data[:2] == seals.MARK else data)
    except datagrams.NotSpelled:
        return None


def turned(packet, chance):
    """A datagram, or a fragment of one, in which two bits are turned so that no sum tells of it."""
    data, first = bytearray(packet), 4 * (packet[0] & 15)
    if int.from_bytes(packet[6:8], 'big') & 0x1fff == 0:
        first += UDP_HEAD
    while True:
        bit, places = 1 << chance.randrange(16), {True: [], False: []}
        for at in range(first, len(data) - 1, 2):
            places[bool(int.from_bytes(data[at:at + 2], 'big') & bit)].append(at)
        if all(places.values()):
            break
    for found in places.values():
        at = chance.choice(found)
        data[at:at + 2] = (int.from_bytes(data[at:at + 2], 'big') ^ bit).to_bytes(2, 'big')
    return bytes(data)


class Path(Net):
    """The switch of net.py with an attacker on it, who sees each packet, and gives what goes on of it: the packet, another one, or None."""

    def __init__(self, count, mtu):
        self.sees, self.longest = lambda packet: packet, 0
        super().__init__(count, mtu=mtu)

    def passing(self, packet):
        self.longest = max(self.longest, len(packet))
        return self.sees(packet)

    def inject(self, packet):
        """Hands a packet in IP to the member that it is for."""
        os.write(self.files[packet[19]], packet)


class Station(plants.Plant):
    """A plant in the namespace of its member."""

    def __init__(self, circuit, member):
        super().__init__(circuit, member)
        self.before, self.port = circuit.path.words(member), PORT
        for name in ('codes.toml', 'widths.toml'):
            shutil.copy(os.path.join(EXAMPLES, name), self.folder)

    def configure(self, order, tables):
        """Writes its configuration: which member's address each member has for it, in order, and what stands behind the folders."""
        stations = ''.join(f'[[station]]\nmember = {member}\nip = "{Net.address(at)}"\nport = {PORT}\n' for member, at in enumerate(order, 1))
        with open(self.path('station.toml'), 'w') as file:
            file.write(CONFIG.format(member=self.member, stations=f'renamed = true\n{tables}{stations}'))

    def is_up(self):
        """Whether it listens. It has its row file by then."""
        if self.process.poll() is not None:
            raise Wrong(f'plant {self.member} ended with status {self.process.returncode}: {self.said()!r}')
        with open(f'/proc/{self.process.pid}/net/udp', encoding='ascii') as sockets:
            return any(line.split()[1].endswith(f':{PORT:04X}') for line in list(sockets)[1:])

    def see(self):
        """What it released is looked at once all is over."""

    def released(self):
        """The stories and withdrawals by their numbers."""
        held = {}
        for name in os.listdir(self.path('releases')):
            number, _, kind = name.partition('.')
            if number and kind in ('tape', 'void'):
                with open(self.path('releases', name), 'rb') as file:
                    held[int(number)] = file.read()
        return held

    def told(self):
        """How many datagrams it told that it passed over, by why."""
        counts = collections.Counter()
        for run in range(1, self.runs + 1):
            with open(self.path(f'run{run}.err'), encoding='utf-8', errors='replace') as lines:
                for found in filter(None, map(PASSED_OVER.match, lines)):
                    counts[found[2]] += int(found[1])
        return counts

    def memory(self):
        """What it has of memory, in kB."""
        with open(f'/proc/{self.process.pid}/status', encoding='ascii') as status:
            return next(int(line.split()[1]) for line in status if line.startswith('VmRSS:'))

    def waiting(self):
        """How many bytes wait at its socket."""
        with open(f'/proc/{self.process.pid}/net/udp', encoding='ascii') as sockets:
            return sum(int(line.split()[4].split(':')[1], 16) for line in list(sockets)[1:])


class Circuit:
    """Plants in a folder, over one path. With a key all of them are on a sealed wire, as far as nothing else is configured."""

    def __init__(self, program, count, keyed, mtu=16384):
        self.program, self.keyed, self.folder = program, keyed, tempfile.mkdtemp()
        # whether its folder stays
        self.stays = False
        self.path = Path(count, mtu)
        self.wire = self.make_key('circuit.key') if keyed else ''
        self.stations = {member: Station(self, member) for member in range(1, count + 1)}
        self.forged, self.forgers_key = collections.Counter(), os.urandom(32)
        for station in self.stations.values():
            self.configure(station)

    def make_key(self, name):
        """Makes a key, and gives the table of configurations that names its file."""
        path = os.path.join(self.folder, name)
        with open(os.open(path, os.O_CREAT | os.O_WRONLY, 0o600), 'w') as file:
            file.write(seals.new_key())
        return f'[wire]\nkey = "{path}"\n'

    def key(self):
        """The circuit's key, as all plants have it."""
        with open(os.path.join(self.folder, 'circuit.key'), encoding='ascii') as file:
            return seals.circuit_key(file.read().strip(), CIRCUIT, len(self.stations))

    def configure(self, station):
        """Writes the configuration of a plant that has nothing of its own."""
        station.configure(range(1, len(self.path.names) + 1), self.wire)

    def bring_up(self, *members):
        """Starts these plants, or all, and waits until they are up."""
        started = [self.stations[member] for member in members or self.stations]
        for station in started:
            station.start()
        self.wait(lambda: all(station.is_up() for station in started), UP)
        for station in started:
            station.takes_create = False

    @staticmethod
    def wait(holds, seconds):
        """Waits until something holds, for so many seconds at most; whether it does."""
        until = time.monotonic() + seconds
        while not (held := holds()) and time.monotonic() < until:
            time.sleep(0.05)
        return held

    def forge(self, packet):
        """Sends a packet as if its sender had, without the circuit's key: as it is, or on a sealed wire, under each other number, sealed under a
        key of the forger's own."""
        data = datagrams.spell(packet)
        sent = seals.seal(self.forgers_key, packet.sender, packet.to, data) if self.keyed and packet.number % 2 else [data]
        for each in sent:
            self.path.inject(ip_packet(packet.sender, packet.to, each))
            self.forged[packet.to] += 1

    def settle(self, wanted, seconds):
        """Waits until the plants have a story of each number that they should have, as these have by their members."""
        return self.wait(lambda: all(self.stations[member].released().keys() >= numbers for member, numbers in wanted.items()), seconds)

    def told(self, *members):
        """How many datagrams these plants, or all, told that they passed over."""
        counts = collections.Counter()
        for member in members or self.stations:
            counts += self.stations[member].told()
        return counts

    def close(self):
        """Ends the plants and takes the path away."""
        for station in self.stations.values():
            if station.process is not None and station.process.poll() is None:
                station.process.kill()
                station.process.wait()
        self.path.close()

    def __enter__(self):
        return self

    def __exit__(self, fault, *_):
        self.close()
        if fault is None and not self.stays:
            shutil.rmtree(self.folder)
        else:
            print(f'{self.folder} stays', flush=True)

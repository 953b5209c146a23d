#!/usr/bin/env python3
"""The sealed wire beside the plain one, and a second writing of its seal beside the vectors of others.

    bench/sealing.py [--stories N] [--lab LAB] [PROGRAM]

First the second writing, contrib/plays/seals.py, is tested: HMAC-SHA-256 by the seven cases of RFC 4231, the key and the datagram that
docs/FORMATS.md works out, packets of each count of parts in shuffled orders with repeats, and each bit of a datagram turned. With a PROGRAM
then:

    latency    three plants on a plain wire and three on a sealed one `run` on 127.0.0.1; 200 stories where no other count is given are laid
               at each, by turns, each once the one before it stands in all three folders. Told are the medians from the take-up to the last
               galley, and the sealed one's over the plain one's: at most 1.1
    fifteen    fifteen plants on each wire, and one tape of 16,384 frames at one of them: from its ballot to the last galley, and how many
               datagrams the plants' own receive buffers had no room for: none

With a LAB the seal alone: `LAB seal COUNT LENGTH` seals a packet of so many bytes so often, and `LAB open COUNT LENGTH` opens what that
makes. Both are timed beside two passes of `openssl` over as many bytes.

The status is 1 where a test fails, or one of what is wanted does not hold.
"""
import argparse
import os
import random
import re
import resource
import statistics
import subprocess
import sys
import tempfile
import time

import proved

import burst
import latency

sys.path.insert(0, os.path.join(os.path.dirname(os.path.abspath(__file__)), '..', 'contrib', 'plays'))
import datagrams
import seals

# the test cases of RFC 4231: a key, a message, and the tag, or how it begins
VECTORS = (
    (b'\x0b' * 20, b'Hi There', 'b0344c61d8db38535ca8afceaf0bf12b881dc200c9833da726e9376c2e32cff7'),
    (b'Jefe', b'what do ya want for nothing?', '5bdcc146bf60754e6a042426089575c75a003f089d2739839dec58b964ec3843'),
    (b'\xaa' * 20, b'\xdd' * 50, '773ea91e36800e46854db8ebd09181a72959098b3ef8c122d9635514ced565fe'),
    (bytes(range(1, 26)), b'\xcd' * 50, '82558a389a443c0ea4cc819899f2083a85f0faa3e578f8077a2e3ff46729665b'),
    (b'\x0c' * 20, b'Test With Truncation', 'a3b6167473100ee06e0c796c2955552b'),
    (b'\xaa' * 131, b'Test Using Larger Than Block-Size Key - Hash Key First', '60e431591ee0b67f0d8a26aacbf5b77f8e0bc6213728c5140546040f0ee37f54'),
    (b'\xaa' * 131, b'This is a test using a larger than block-size key and a larger than block-size data. '
                    b'The key needs to be hashed before being used by the HMAC algorithm.', '9b09ffa71b942fcb27635fbcd5b0e944bfdc63644f0713938a7f51535c3a35e2'),
)
# the key of circuit 7 of three members where the file has the bytes 0 to 31, and a packet of member 1 to member 2 under it
KEY_FILE, CIRCUIT, COUNT = bytes(range(32)).hex(), 7, 3
KEY = bytes.fromhex('3b47a3f1dac6decd7d3ec70daf11ecea69c4edbaf149f916b8221ebfac006879')
PACKET = datagrams.spell(datagrams.Packet(datagrams.PREPARE, CIRCUIT, 1, 2, 12, (1, 1)))
WORKED = ('5453010102000011' 'e798bbfb98eecf4821a7a6092a305939'
          '544e0201000701020000000c0000000101' '8d19997668296f6696ed58eed99ad910')
# the longest tape that there may be
LONGEST = burst.LINES[0] * 2340 + bytes.fromhex('01010704')
MOST_LATENCY, MOST_SEAL = 1.1, 1.5
LENGTH = 12_313


def opens(made):
    """The packet that member 2 gathers of datagrams."""
    gathering = seals.Gathering([KEY], 2)
    return next((packet for data in made if (packet := gathering.take(data)) is not None), None)


def test_vectors():
    """HMAC-SHA-256 is that of RFC 4231, and the key and the datagram are those that were worked out."""
    for key, message, wanted in VECTORS:
        assert seals.tag(key, message).hex().startswith(wanted), message
    assert seals.circuit_key(KEY_FILE, CIRCUIT, COUNT) == KEY
    assert [data.hex() for data in seals.seal(KEY, 1, 2, PACKET)] == [WORKED]


def test_orders(chance):
    """A packet comes of its parts in whatever order, however often each comes."""
    for length in (1, 17, 1192, 1193, 2384, 2385, 3000, LENGTH):
        packet = chance.randbytes(length)
        made = seals.seal(KEY, 1, 2, packet)
        assert max(map(len, made)) <= seals.MOST_DATAGRAM and len(made) == -(-length // seals.ROOM)
        repeated = made + chance.choices(made, k=5)
        chance.shuffle(repeated)
        assert opens(repeated) == packet
        assert opens(made[1:]) is None


def test_bits():
    """No datagram is opened of which a bit is turned, and none under another key or at another member."""
    data = bytes.fromhex(WORKED)
    turned = [(int.from_bytes(data, 'big') ^ 1 << bit).to_bytes(len(data), 'big') for bit in range(8 * len(data))]
    for keys, own, tried in [([KEY], 2, each) for each in turned] + [([seals.tag(KEY, b'')], 2, data), ([KEY], 3, data)]:
        try:
            seals.open_part(keys, own, tried)
        except seals.NotOpened:
            continue
        raise AssertionError(tried.hex())


def self_test():
    """Tests the second writing."""
    test_vectors()
    test_orders(random.Random(1))
    test_bits()
    print(f'the seal: {len(VECTORS)} vectors, a worked key and datagram, orders and bits are as they should be', flush=True)


def table_of(folder):
    """A key for a circuit, and the table of its configurations."""
    path = os.path.join(folder, 'circuit.key')
    with open(os.open(path, os.O_CREAT | os.O_WRONLY, 0o600), 'w') as file:
        file.write(seals.new_key())
    return f'[wire]\nkey = "{path}"\n'


class Wire:
    """Three plants on one kind of wire, and how long their stories took."""

    def __init__(self, program, top, name, tables):
        folder = os.path.join(top, name)
        os.makedirs(folder)
        ports = latency.free_ports()
        self.plants = [latency.start(program, folder, member, ports, latency.RENAMED + tables) for member in latency.MEMBERS]
        self.took, self.names = [], None

    def watch(self):
        """Has the system tell of the names in the folders of the plants."""
        homes = [home for home, _ in self.plants]
        self.names = (latency.Names([os.path.join(homes[0], 'offers')], latency.OPENED),
                      latency.Names([os.path.join(home, 'releases') for home in homes], latency.MOVED_TO))

    def story(self, number):
        """Lays a story, and waits for its last galley."""
        _, read, _, galley, _ = latency.story(self.plants, self.names, [], number, True)
        self.took.append(galley - read)

    def end(self):
        for _, process in self.plants:
            process.kill()
            process.wait()


def time_stories(program, count):
    """Whether a story on the sealed wire takes little longer than on the plain one."""
    wires = []
    with tempfile.TemporaryDirectory(dir=os.getcwd()) as top:
        try:
            for name, tables in (('plain', ''), ('sealed', table_of(top))):
                wires.append(Wire(program, top, name, tables))
            time.sleep(1)
            for wire in wires:
                wire.watch()
            for number in range(1, count + 1):
                for wire in wires:
                    wire.story(number)
                    time.sleep(0.05)
        finally:
            for wire in wires:
                wire.end()
    plain, sealed = (statistics.median(wire.took) for wire in wires)
    print(f'latency: {count} stories by turns, median to the last galley {1000 * plain:.2f} ms plain, {1000 * sealed:.2f} ms sealed: '
          f'{sealed / plain:.3f}', flush=True)
    return sealed <= MOST_LATENCY * plain


class Longest(burst.Case):
    """The longest tape there is at one of fifteen."""

    def __init__(self, tables):
        super().__init__(15, 1, probes=0)
        self.tables = tables

    def offers(self):
        return [(1, 1, LONGEST)]


def longest_among_fifteen(program):
    """Whether fifteen plants take the longest tape without losing a datagram in their own buffers."""
    is_well = True
    with tempfile.TemporaryDirectory(dir=os.getcwd()) as top:
        for name, tables in (('plain', ''), ('sealed', table_of(top))):
            told = burst.run(program, Longest(tables), tempfile.mkdtemp(dir=top), None, None, False)
            lacks = sum(told['lacks'])
            print(f'fifteen, {name}: took {told["took"]:.2f} s, {told["ballots"]:.0f} ballots, {told["dropped"]} of {told["handed"]} datagrams had no room, '
                  f'{lacks} plants lack the story, processor {told["processor"]:.2f} s', flush=True)
            is_well = is_well and not lacks and not (tables and told['dropped'])
    return is_well


def took(*words):
    """How long a command takes."""
    begun = time.monotonic()
    subprocess.run(words, check=True, stdout=subprocess.DEVNULL)
    return time.monotonic() - begun


def openssl_pass(length):
    """How long one pass of HMAC-SHA-256 over so many bytes takes `openssl`, in microseconds."""
    ran = subprocess.run(['openssl', 'speed', '-seconds', '1', '-bytes', str(length), '-hmac', 'sha256'], check=True, capture_output=True, text=True)
    thousands = float(re.findall(r'([0-9.]+)k\s*$', ran.stdout.strip())[0])
    return length / thousands * 1000


def beside_openssl(lab, count=20_000):
    """Whether sealing and opening each take little longer than two passes of `openssl`."""
    passes, is_well = 2 * openssl_pass(LENGTH), True
    for what in ('seal', 'open'):
        each = min(took(lab, what, str(count), str(LENGTH)) - took(lab, what, '0', str(LENGTH)) for _ in range(5)) / count * 1e6
        print(f'{what}: a packet of {LENGTH} bytes takes {each:.1f} us, two passes of openssl {passes:.1f}: {each / passes:.2f}', flush=True)
        is_well = is_well and each <= MOST_SEAL * passes
    return is_well


def main():
    parser = argparse.ArgumentParser(description=__doc__, formatter_class=argparse.RawDescriptionHelpFormatter)
    parser.add_argument('--stories', type=int, default=200)
    parser.add_argument('--lab')
    parser.add_argument('program', nargs='?')
    words = parser.parse_args()
    self_test()
    resource.setrlimit(resource.RLIMIT_NOFILE, (4096, resource.getrlimit(resource.RLIMIT_NOFILE)[1]))
    held = [beside_openssl(os.path.abspath(words.lab))] if words.lab else []
    if words.program:
        program = proved.program(words.program)
        held += [time_stories(program, words.stories), longest_among_fifteen(program)]
    return 0 if all(held) else 1


if __name__ == '__main__':
    sys.exit(main())

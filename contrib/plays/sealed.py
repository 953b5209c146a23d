"""The sealed wire: what plants with one key agree on, and what each tells of a datagram that is not sealed as its own are."""
import os
import random
import re
import socket
import struct
import time

import datagrams
import plants
import seals
import stage
from datagrams import ACCEPT, ACCEPTED, COUNTS, COUNTS_ASKED, PREPARE, Packet, Recall, Roll
from folders import told
from recalls import ALL, CIRCUIT, Voice, ends, is_released, of_two, rows

UNSEALED, OTHER_KEY = 'that are not sealed', 'with another key or configuration'
ELSEWHERE, NO_PART = 'that come from elsewhere than their sender listens', 'that are no part of a packet'
OTHER_SENDER, SEALED, OWN = 'that name another sender', 'that are sealed', 'from the own address'
# how long it is waited for what may not come
NOTHING = 1.5
GREATEST = (1 << 32) - 1
# the end of the longest tape, a line of four frames; all other lines are the flood story
LAST_LINE, LINES = bytes.fromhex('01010704'), 2340


class SealedVoice(Voice):
    """A member on a sealed wire that this process plays."""

    def __init__(self, member, ports, key):
        super().__init__(member, ports)
        self.key, self.longest = seals.circuit_key(key.strip(), CIRCUIT, len(ports)), 0
        self.gathering = seals.Gathering([self.key], member)

    def say(self, to, data):
        for each in self.sealed(to, data):
            super().say(to, each)

    def sealed(self, to, data):
        """The datagrams of a packet to a member."""
        return seals.seal(self.key, self.member, to, data)

    def heard(self):
        """The packet that comes next."""
        while True:
            data = super().heard()
            self.longest = max(self.longest, len(data))
            if (packet := self.gathering.take(data)) is not None:
                return packet


def write_key(at, member, text):
    """The key file of a plant."""
    path = at.path(f'circuit{member}.key')
    with open(os.open(path, os.O_CREAT | os.O_WRONLY | os.O_TRUNC, 0o600), 'w') as file:
        file.write(text)


def seal(at, member, text):
    """Has a plant that is configured seal what it sends, under the key of this text."""
    write_key(at, member, text)
    tables = f'renamed = true\n[wire]\nkey = "circuit{member}.key"\n[[station]]'
    at.write(f'plant{member}.toml', at.read(f'plant{member}.toml').replace(b'[[station]]', tables.encode(), 1))


def configure(at, keys):
    """Three plants, of which these have these keys; the ports."""
    ports = plants.configure(at)
    for member, text in keys.items():
        seal(at, member, text)
    return ports


def tells(at, member, text, port):
    """A plant tells of datagrams that it passed over, why, and where they came from."""
    line = re.compile(rf'socket: \d+ datagrams {text}, last from 127\.0\.0\.1:{port}')
    stage.within(lambda: any(map(line.fullmatch, told(at, f'log{member}'))), lambda: f'plant {member} tells {line.pattern}: {told(at, f"log{member}")}')


def passed_over(at, member, text):
    """How many datagrams a plant told that it passed over for this."""
    lines = map(re.compile(rf'socket: (\d+) datagrams {text}, last from .*').fullmatch, told(at, f'log{member}'))
    return sum(int(line[1]) for line in lines if line)


def tells_nothing_else(at, member, *texts):
    """A plant told of no datagrams but of these."""
    others = [line for line in told(at, f'log{member}') if line.startswith('socket: ') and not any(text in line for text in texts)]
    stage.wants(not others, f'plant {member} told {others}')


def are_apart(at, ports, texts):
    """Two plants, at each of which a story is laid, agree on nothing, and each tells so in its own words."""
    plants.bring_up(at, ports, texts)
    for member in texts:
        plants.lay(at, member, '12.tape', at.read('flood.tape'))
    for (member, text), other in zip(texts.items(), reversed(texts)):
        tells(at, member, text, ports[other - 1])
    time.sleep(NOTHING)
    for member in texts:
        stage.wants(at.read(f'releases{member}/12.tape') is None, f'plant {member} has a story')


def agree(at):
    """Three plants with one key agree on a story, and on one of 16,384 frames; they tell of nothing that they passed over."""
    ports, longest = configure(at, dict.fromkeys(ALL, seals.new_key())), LINES * at.read('flood.tape') + LAST_LINE
    plants.bring_up(at, ports, ALL)
    plants.lay(at, 1, '12.tape', at.read('flood.tape'))
    plants.lay(at, 2, '13.tape', longest)
    for member in ALL:
        is_released(at, member, 12)
        stage.within(lambda: at.read(f'releases{member}/13.galley') is not None, lambda: f'plant {member} has 13: {told(at, f"log{member}")}')
        stage.wants(at.read(f'releases{member}/13.tape') == longest, f'13.tape of plant {member}')
        tells_nothing_else(at, member)


def answers_a_member(at):
    """A plant understands packets that are sealed elsewhere, in whatever order their parts come and however often, and answers sealed."""
    key, story = seals.new_key(), LINES * at.read('flood.tape')
    ports = configure(at, {1: key})
    plants.bring_up(at, ports, (1,))
    with SealedVoice(2, ports, key) as second:
        second.has_promised(1, 12)
        vote = Packet(ACCEPT, CIRCUIT, 2, 1, 12, (1, 2), datagrams.packed(story))
        parts = second.sealed(1, datagrams.spell(vote))
        parts += parts[3:6]
        random.shuffle(parts)
        for each in parts:
            Voice.say(second, 1, each)
        said = second.hears(1, ACCEPTED, 12)
        stage.wants(said.frames == story, f'{said}')
        stage.wants(second.longest == seals.MOST_DATAGRAM, f'the longest datagram has {second.longest} bytes')
        tells_nothing_else(at, 1)


def another_key(at):
    """Plants with different keys agree on nothing, and both tell so."""
    ports = configure(at, {1: seals.new_key(), 3: seals.new_key()})
    are_apart(at, ports, {1: OTHER_KEY, 3: OTHER_KEY})


def another_count(at):
    """Nor do plants that differ in how many members the circuit has."""
    ports, key = [stage.free_port() for _ in range(4)], seals.new_key()
    for member, count in ((1, 3), (2, 4)):
        plants.write_config(at, member, ports[:count])
        seal(at, member, key)
    are_apart(at, ports, {1: OTHER_KEY, 2: OTHER_KEY})


def one_without_a_key(at):
    """Nor do a plant with a key and one without."""
    ports = configure(at, {1: seals.new_key()})
    are_apart(at, ports, {1: UNSEALED, 3: SEALED})


def swapped_addresses(at):
    """A plant that takes another for a third is told of at both."""
    (first, second, third), key = [stage.free_port() for _ in range(3)], seals.new_key()
    for member, ports in ((1, (first, second, third)), (3, (second, first, third))):
        plants.write_config(at, member, ports)
        seal(at, member, key)
    are_apart(at, (first, second, third), {1: NO_PART, 3: ELSEWHERE})


def forged(at):
    """A Prepare of the greatest round from the address of a member, not sealed or sealed under another key, changes no row; one that is sealed
    rightly as another member and one that is cut bring nothing either. Each is told, and a story comes out under that number."""
    key = seals.new_key()
    ports = configure(at, {1: key, 3: key})
    plants.bring_up(at, ports, (1, 3))
    data = datagrams.spell(Packet(PREPARE, CIRCUIT, 2, 1, 12, (GREATEST, 2)))
    as_third = datagrams.spell(Packet(PREPARE, CIRCUIT, 3, 1, 12, (GREATEST, 3)))
    with SealedVoice(2, ports, key) as second:
        held, other = rows(at, 1), seals.circuit_key(seals.new_key().strip(), CIRCUIT, 3)
        for text, bytes_sent in (
            (UNSEALED, data),
            (OTHER_KEY, seals.seal(other, 2, 1, data)[0]),
            (ELSEWHERE, seals.seal(second.key, 3, 1, as_third)[0]),
            (NO_PART, second.sealed(1, data)[0][:-1]),
        ):
            Voice.say(second, 1, bytes_sent)
            tells(at, 1, text, ports[1])
        stage.wants(rows(at, 1) == held, 'a row was saved')
    plants.lay(at, 1, '12.tape', at.read('flood.tape'))
    for member in (1, 3):
        is_released(at, member, 12)


def rotation(at):
    """Keys are changed in three steps, one plant after the other; after each restart a story of that plant comes out at all."""
    old, new = seals.new_key(), seals.new_key()
    ports, number, story = configure(at, dict.fromkeys(ALL, old)), 12, at.read('flood.tape')
    up = dict(zip(ALL, plants.bring_up(at, ports, ALL)))
    for text in (old + new, new + old, new):
        for member in ALL:
            ends(at, member, up[member])
            write_key(at, member, text)
            up[member], = plants.bring_up(at, ports, (member,), making='')
            plants.lay(at, member, f'{number}.tape', story)
            for each in ALL:
                is_released(at, each, number)
            number += 1
    for member in ALL:
        tells_nothing_else(at, member)


def answers(voice):
    """What a member was told, except for what a plant asks by itself."""
    until, heard = time.monotonic() + 0.2, []
    while (said := voice.next(until, rolls=True)) is not None:
        heard.append(said)
    return [said for said in heard if isinstance(said, Packet) or isinstance(said, Roll) and said.kind == COUNTS]


def another_sender(at):
    """Without a key too, what names another sender than the member that listens where it comes from brings nothing, and each is told."""
    ports = plants.configure(at)
    plants.bring_up(at, ports, (1,))
    second, third = of_two(ports, 2, 3)
    with second, third:
        second.has_voted(1, 13, at.read('flood.tape'))
        third.hears(1, ACCEPTED, 13)
        held = rows(at, 1)
        second.say(1, datagrams.spell(Packet(PREPARE, CIRCUIT, 3, 1, 12, (1, 3))))
        second.say(1, datagrams.spell_recall(Recall(CIRCUIT, 3, 1, 0, (13,))))
        second.say(1, datagrams.spell_roll(Roll(COUNTS_ASKED, CIRCUIT, 3, 1, 0)))
        tells(at, 1, OTHER_SENDER, ports[1])
        stage.within(lambda: passed_over(at, 1, OTHER_SENDER) == 3, lambda: f'each is told: {told(at, "log1")}')
        stage.wants(answers(second) == answers(third) == [], 'one is answered')
        stage.wants(rows(at, 1) == held, 'a row was saved')


def its_own_address(at):
    """What comes from a plant's own address brings nothing, whomever it names."""
    if os.geteuid() != 0:
        raise stage.Skipped('only root sends from an address that another process has')
    ports = plants.configure(at)
    plants.bring_up(at, ports, (1,))
    held, local = rows(at, 1), socket.inet_aton('127.0.0.1')
    data = datagrams.spell(Packet(PREPARE, CIRCUIT, 2, 1, 12, (GREATEST, 2)))
    # the host adds to the head of IP its length and sum; a datagram needs none
    packet = struct.pack('>BBHIBBH', 0x45, 0, 0, 0, 64, socket.IPPROTO_UDP, 0) + 2 * local
    packet += struct.pack('>4H', ports[0], ports[0], 8 + len(data), 0) + data
    try:
        with socket.socket(socket.AF_INET, socket.SOCK_RAW, socket.IPPROTO_RAW) as raw:
            raw.sendto(packet, ('127.0.0.1', 0))
    except PermissionError:
        raise stage.Skipped('this root may send no such packet') from None
    tells(at, 1, OWN, ports[0])
    stage.wants(rows(at, 1) == held, 'a row was saved')


PLAYS = [
    agree,
    answers_a_member,
    another_key,
    another_count,
    one_without_a_key,
    swapped_addresses,
    forged,
    rotation,
    another_sender,
    its_own_address,
]

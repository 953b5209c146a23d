#!/usr/bin/env python3
"""Attacks on circuits of plants with a key: whether a number ever means two stories, is spent, or nobody is told.

    bench/attacks.py [--tries N] [--only NAME] [--plain] [--datagrams N] [--seed S] [--keep] PROGRAM

Plants `run` in namespaces of this machine, over the switch of net.py. An attacker stands on it: he sees each packet, sends from any address,
and has no key, but one of his own. Each attack is tried under 200 numbers where no other count is given, or by as many kills:

    prepare    a Prepare of the greatest round to each plant, before the number is offered
    accept     an Accept of another story to one plant, before the number is offered
    accepted   the Accepted of another story by two plants to the third, before the number is offered
    promise    a number has a story that a plant did not hear of; it offers another, and hears Promises that report no vote
    nack       the first Prepare of a number is lost, and Nacks with the greatest round come in its place
    replays    recorded datagrams, again and again, while plants are killed and two stories are offered under each number; then as many of
               them to other members, or from other addresses
    flips      two bits are turned in 1 % of the datagrams, or of their fragments, so that no sum tells of it
    counts     two of seven plants think that they are five, and the network parts them and a third from the others: with the votes of the
               third the two would be a majority of five
    majority   two of five plants think that they are three, of which they are a majority by themselves. No seal can keep them from agreeing
               apart: how many numbers mean another story to them is told and not judged
    swapped    one of three plants has the addresses of the others the wrong way round
    unsealed   one of three plants has no key
    sealed     one of three plants has a key
    noise      10 million datagrams where no other count is given, from the addresses of plants: random bytes, cut and lengthened datagrams,
               turned bits, and parts of packets that are sealed under the circuit's key and never finished. Stories are offered meanwhile

Half of what is forged is not sealed, and half is sealed under the attacker's key. A line tells what came of each attack: how many numbers
mean two stories, how many did not come out where they should, how many mean a story that nobody offered, and how many of the datagrams the
plants told that they passed over. The status is 1 where one of the first three is not 0, where a datagram that should be told is not, where
one on the sealed wire is longer than 1,232 bytes, and where noise makes the plant's memory grow. With --plain no plant has a key, and what
comes of the same attacks is told and not judged. With --keep the folders of the circuits stay.

It needs root, `ip` and /dev/net/tun, else the one line begins with `skipped: `.
"""
import argparse
import collections
import os
import random
import shutil
import struct
import sys
import time
from typing import NamedTuple

import proved

import burst
from hostile import CIRCUIT, DATAGRAM, TELLS, Circuit, ends_of, ip_packet, is_datagram, payload_of, said_in, turned
from kills import Wrong
from soak import FLAT

# hostile.py has put the folder of the plays on the path
import seals
from datagrams import ACCEPT, ACCEPTED, NACK, PREPARE, PROMISE, Packet, packed

OFFERED, OTHER = burst.LINES
LONG = 2340
GREATEST = (1 << 32) - 1
UNSEALED, OTHER_KEY, NO_PART = 'that are not sealed', 'with another key or configuration', 'that are no part of a packet'
ELSEWHERE, SEALED = 'that come from elsewhere than their sender listens', 'that are sealed'
# how long the stories of all numbers may take, and how long it is waited for those that a plain wire may never have
LAST, PLAIN_LAST = 60, 15
# how long forged datagrams have to be taken in before the offers, and what is between two numbers, since a socket has room for few
RESTS, PAUSE = 1, 0.002
FLIPPED, MTU = 0.01, 1500
# how many recorded datagrams are kept, and how many are sent again at once
RECORDED, AGAIN = 20_000, 20
# of the noise: datagrams of a kind that are made ahead, how many are sent between two looks at the socket, and how many bytes may wait there
POOL, BATCH, WAITS = 4_096, 64, 100_000


class Play(NamedTuple):
    """What the attacks are tried with."""
    program: str
    tries: int
    keyed: bool
    noise: int
    chance: random.Random
    stays: bool

    @property
    def numbers(self):
        return range(1, self.tries + 1)

    def circuit(self, count=3, mtu=16384):
        circuit = Circuit(self.program, count, self.keyed, mtu)
        circuit.stays = self.stays
        return circuit

    def lay(self, station, story):
        """Offers a story under each number at a plant."""
        for number in self.numbers:
            station.lay(f'{number}.tape', story.hex())

    def settle(self, circuit, members):
        """Waits until these plants have a story of each number; whether they have."""
        return circuit.settle(dict.fromkeys(members, set(self.numbers)), LAST if self.keyed else PLAIN_LAST)


class Verdict:
    """What came of an attack at some plants, or all, which should have a story of each number, one that was offered."""

    def __init__(self, play, circuit, offered, *having):
        held = {member: station.released() for member, station in circuit.stations.items()}
        self.stories = {number: {each[number] for each in held.values() if number in each} for number in play.numbers}
        self.spent = [number for number in play.numbers if any(number not in held[member] for member in having or held)]
        self.foreign = [number for number, found in self.stories.items() if found - offered]
        self.two = [number for number, found in self.stories.items() if len(found) > 1]
        self.is_otherwise_well, self.also = True, []
        if play.keyed:
            self.wants(circuit.path.longest <= DATAGRAM, f'the longest packet in IP has {circuit.path.longest} bytes')

    def wants(self, holds, what):
        """Something else that has to hold, and is told."""
        self.is_otherwise_well = self.is_otherwise_well and holds
        self.also.append(what)
        return self

    def tells(self, told, sent, dropped=0):
        """So many datagrams were told, of so many that should be, unless they were among those that a socket had no room for."""
        return self.wants(sent - dropped <= told <= sent, f'told {told} of {sent}' + (f', {dropped} of all had no room' if dropped else ''))

    def tells_each(self, circuit, texts):
        """Plants told each its own."""
        told = {member: circuit.told(member)[text] for member, text in texts.items()}
        return self.wants(all(told.values()), ', '.join(f'plant {member} told {count} {texts[member]}' for member, count in told.items()))

    def is_well(self):
        return self.is_otherwise_well and not (self.two or self.spent or self.foreign)

    def __str__(self):
        return '; '.join([f'two stories {len(self.two)}, did not come out {len(self.spent)}, nobody offered {len(self.foreign)}', *self.also])


def tells_the_forged(verdict, circuit):
    """Each forged datagram was told, sealed under the forger's key or not."""
    told = circuit.told()
    return verdict.tells(told[UNSEALED] + told[OTHER_KEY], sum(circuit.forged.values()))


def before_the_offer(play, forged, at):
    """Forges packets under each number, and offers a story there then, at one plant."""
    with play.circuit() as circuit:
        circuit.bring_up()
        for number in play.numbers:
            for packet in forged(number):
                circuit.forge(packet)
            time.sleep(PAUSE)
        time.sleep(RESTS)
        play.lay(circuit.stations[at], OFFERED)
        play.settle(circuit, circuit.stations)
        time.sleep(TELLS)
        return tells_the_forged(Verdict(play, circuit, {OFFERED}), circuit)


def prepare(play):
    """A Prepare of the greatest round to each plant."""
    ends = (3, 1), (3, 2), (1, 3)
    return before_the_offer(play, lambda number: [Packet(PREPARE, CIRCUIT, sender, to, number, (GREATEST, sender)) for sender, to in ends], 1)


def accept(play):
    """An Accept of another story at the ballot that the offering plant will begin."""
    return before_the_offer(play, lambda number: [Packet(ACCEPT, CIRCUIT, 1, 2, number, (1, 1), packed(OTHER))], 1)


def accepted(play):
    """The votes of two plants for another story."""
    return before_the_offer(play, lambda number: [Packet(ACCEPTED, CIRCUIT, sender, 1, number, (1, 2), packed(OTHER)) for sender in (2, 3)], 2)


def at_prepares(circuit, sender, forged):
    """Has packets forged at each first Prepare of a plant, as it is seen; the Prepare goes on where none is forged in its place."""
    def sees(packet):
        said = said_in(packet)
        if not isinstance(said, Packet) or (said.kind, said.sender, said.ballot) != (PREPARE, sender, (1, sender)):
            return packet
        packets, goes_on = forged(said)
        for each in packets:
            circuit.forge(each)
        return packet if goes_on else None

    circuit.path.sees = sees


def promise(play):
    """A plant was off the network while a number got its story. It offers another one, and is promised it by what is forged."""
    def forged(said):
        return [Packet(PROMISE, CIRCUIT, said.to, 3, said.number, said.ballot, b'\0')], True

    with play.circuit() as circuit:
        circuit.stations[3].configure(circuit.stations, '[catch_up]\noff = true\n' + circuit.wire)
        circuit.path.sees = lambda packet: None if 3 in ends_of(packet) else packet
        circuit.bring_up()
        play.lay(circuit.stations[1], OFFERED)
        if not play.settle(circuit, (1, 2)):
            raise Wrong('two plants of three did not agree')
        at_prepares(circuit, 3, forged)
        play.lay(circuit.stations[3], OTHER)
        play.settle(circuit, circuit.stations)
        time.sleep(TELLS)
        return tells_the_forged(Verdict(play, circuit, {OFFERED, OTHER}), circuit)


def nack(play):
    """The first Prepare of each number is lost, and Nacks with the greatest round come."""
    def forged(said):
        return [Packet(NACK, CIRCUIT, said.to, 1, said.number, said.ballot, struct.pack('>IB', GREATEST, said.to))], False

    with play.circuit() as circuit:
        at_prepares(circuit, 1, forged)
        circuit.bring_up()
        play.lay(circuit.stations[1], OFFERED)
        play.settle(circuit, circuit.stations)
        time.sleep(TELLS)
        return tells_the_forged(Verdict(play, circuit, {OFFERED}), circuit)


class Recorder:
    """Datagrams that passed, the later in the place of any once there are many."""

    def __init__(self, circuit, chance):
        self.circuit, self.chance, self.packets = circuit, chance, []
        circuit.path.sees = self.see

    def see(self, packet):
        if is_datagram(packet) and len(self.packets) < RECORDED:
            self.packets.append(packet)
        elif is_datagram(packet):
            self.packets[self.chance.randrange(RECORDED)] = packet
        return packet

    def again(self, count):
        """Sends some of them again."""
        for packet in self.chance.choices(self.packets, k=count if self.packets else 0):
            self.circuit.path.inject(packet)

    def astray(self, count):
        """Sends some of them to another member, and as many to their own from elsewhere."""
        for place, packet in enumerate(self.chance.choices(self.packets, k=count)):
            sender, to = ends_of(packet)
            other = 6 - sender - to
            self.circuit.path.inject(ip_packet(*((sender, other) if place % 2 else (other, to)), payload_of(packet)))
            time.sleep(PAUSE)


def disturb(circuit, recorder, number):
    """Offers two stories under a number, sends again what was recorded, and kills a plant meanwhile."""
    first, second, _ = plants = recorder.chance.sample(list(circuit.stations.values()), 3)
    first.lay(f'{number}.tape', OFFERED.hex())
    second.lay(f'{number}.tape', OTHER.hex())
    until = time.monotonic() + recorder.chance.uniform(0.05, 0.4)
    while time.monotonic() < until:
        recorder.again(AGAIN)
        time.sleep(0.005)
    victim = recorder.chance.choice(plants)
    victim.kill()
    recorder.again(AGAIN)
    circuit.bring_up(victim.member)


def replays(play):
    """Recorded datagrams are sent again while plants are killed; then astray."""
    with play.circuit() as circuit:
        recorder = Recorder(circuit, play.chance)
        circuit.bring_up()
        for number in play.numbers:
            disturb(circuit, recorder, number)
        play.settle(circuit, circuit.stations)
        time.sleep(TELLS)
        before = circuit.told()
        recorder.astray(play.tries)
        time.sleep(TELLS)
        told = circuit.told() - before
        return Verdict(play, circuit, {OFFERED, OTHER}).tells(told[NO_PART] + told[ELSEWHERE], play.tries)


def flips(play):
    """Bits of the datagrams of long stories are turned, two stories under each number."""
    counts = collections.Counter()

    def sees(packet):
        if not is_datagram(packet) or play.chance.random() >= FLIPPED:
            return packet
        counts['turned'] += 1
        return turned(packet, play.chance)

    with play.circuit(mtu=MTU) as circuit:
        circuit.bring_up()
        circuit.path.sees = sees
        for number in play.numbers:
            for place, story in enumerate((OFFERED, OTHER)):
                circuit.stations[1 + (number + place) % 3].lay(f'{number}.tape', (story * LONG).hex())
            time.sleep(0.05)
        play.settle(circuit, circuit.stations)
        circuit.path.sees = lambda packet: packet
        time.sleep(TELLS)
        told, dropped = sum(circuit.told().values()), burst.dropped(circuit.stations.values())
        return Verdict(play, circuit, {OFFERED * LONG, OTHER * LONG}).tells(told, counts['turned'], dropped)


def offers(play, circuit, first, second):
    """Starts all plants, and offers a story under each number at one of them, and another story at another."""
    circuit.bring_up()
    play.lay(circuit.stations[first], OFFERED)
    play.lay(circuit.stations[second], OTHER)


def counts(play):
    """Two of seven think that they are five, and with the vote of a third they would agree apart from the four others."""
    near, others = {1, 2, 3}, range(3, 8)
    with play.circuit(7) as circuit:
        for member in (1, 2):
            circuit.stations[member].configure(range(1, 6), circuit.wire)
        circuit.path.sees = lambda packet: None if len(near.intersection(ends_of(packet))) == 1 else packet
        offers(play, circuit, 5, 1)
        play.settle(circuit, others[1:])
        circuit.path.sees = lambda packet: packet
        play.settle(circuit, others)
        time.sleep(TELLS)
        return Verdict(play, circuit, {OFFERED, OTHER}, *others).tells_each(circuit, dict.fromkeys(range(1, 6), OTHER_KEY))


def majority(play):
    """Two of five think that they are three: a majority by themselves, whom no wire can keep from agreeing."""
    with play.circuit(5) as circuit:
        for member in (1, 2):
            circuit.stations[member].configure(range(1, 4), circuit.wire)
        offers(play, circuit, 4, 1)
        play.settle(circuit, circuit.stations)
        time.sleep(TELLS)
        verdict = Verdict(play, circuit, {OFFERED, OTHER})
        groups = [[circuit.stations[member].released() for member in members] for members in ((1, 2), (3, 4, 5))]
        within = [number for number in play.numbers if any(len({each.get(number) for each in group}) > 1 for group in groups)]
        apart, verdict.two = len(verdict.two), within
        verdict.wants(True, f'{apart} mean another story to those who think that they are three')
        return verdict.tells_each(circuit, dict.fromkeys((1, 2, 3), OTHER_KEY))


def swapped(play):
    """A plant has the addresses of the others the wrong way round."""
    with play.circuit() as circuit:
        circuit.stations[1].configure((1, 3, 2), circuit.wire)
        offers(play, circuit, 2, 1)
        play.settle(circuit, (2, 3))
        time.sleep(TELLS)
        return Verdict(play, circuit, {OFFERED}, 2, 3).tells_each(circuit, {1: ELSEWHERE, 2: NO_PART, 3: NO_PART})


def unlike(play, member, texts):
    """One of three plants has a key where the others have none, or the other way round."""
    others = [other for other in texts if other != member]
    with play.circuit() as circuit:
        for each, text in texts.items():
            if text == SEALED:
                circuit.stations[each].configure(circuit.stations, '')
        offers(play, circuit, others[0], member)
        play.settle(circuit, others)
        time.sleep(TELLS)
        return Verdict(play, circuit, {OFFERED}, *others).tells_each(circuit, texts)


def unsealed(play):
    """One has no key."""
    return unlike(play, 3, {1: UNSEALED, 2: UNSEALED, 3: SEALED})


def sealed(play):
    """One has a key."""
    return unlike(play, 1, {1: UNSEALED, 2: SEALED, 3: SEALED})


def nonsense(chance, key):
    """Datagrams of the others to plant 1 from which nothing should come, of each kind as many, each with its sender."""
    for _ in range(POOL):
        sender = chance.choice((2, 3))
        made = seals.seal(key, sender, 1, chance.randbytes(chance.randint(1, seals.MOST_PACKET)))
        part = made[0]
        bit = chance.randrange(8 * len(part))
        yield sender, chance.randbytes(chance.randint(1, MTU - 28))
        yield sender, part[:seals.HEAD] + chance.randbytes(len(part) - seals.HEAD)
        yield sender, part[:chance.randrange(len(part))]
        yield sender, part + chance.randbytes(chance.randint(1, 100))
        yield sender, (int.from_bytes(part, 'big') ^ 1 << bit).to_bytes(len(part), 'big')
        yield sender, chance.choice(made[:-1] or [made[0][:-1]])


def flood(play, circuit):
    """Sends noise to plant 1, no faster than it takes it in, and offers the stories meanwhile; what it had of memory soon after the beginning,
    and what at the end."""
    key = circuit.key() if play.keyed else circuit.forgers_key
    packets = [ip_packet(sender, 1, data) for sender, data in nonsense(play.chance, key)]
    victim, early, offered = circuit.stations[1], None, 0
    for sent in range(0, play.noise, BATCH):
        for packet in play.chance.choices(packets, k=BATCH):
            circuit.path.inject(packet)
        while victim.waiting() > WAITS:
            time.sleep(0.0005)
        while offered * play.noise < sent * play.tries:
            offered += 1
            circuit.stations[1 + offered % 3].lay(f'{offered}.tape', OFFERED.hex())
        if early is None and 20 * sent >= play.noise:
            early = victim.memory()
    return early, victim.memory()


def noise(play):
    """Datagrams from which nothing should come."""
    with play.circuit() as circuit:
        circuit.bring_up()
        early, late = flood(play, circuit)
        for number in play.numbers:
            circuit.stations[1].lay(f'{number}.tape', OFFERED.hex())
        play.settle(circuit, circuit.stations)
        time.sleep(TELLS)
        verdict = Verdict(play, circuit, {OFFERED})
        verdict.wants(late <= FLAT * early, f'memory {early} kB, then {late} kB')
        told, dropped = sum(circuit.told(1).values()), burst.dropped([circuit.stations[1]])
        return verdict.wants(told > 0 or not play.keyed, f'told {told} of {play.noise}, {dropped} had no room')


ATTACKS = {each.__name__: each for each in (
    prepare, accept, accepted, promise, nack, replays, flips, counts, majority, swapped, unsealed, sealed, noise)}
# what is nothing without a key
KEYED = ('unsealed', 'sealed')


def tried(name, play):
    """Tries an attack, and tells what came of it; whether that is as it should be."""
    begun = time.monotonic()
    try:
        verdict = ATTACKS[name](play)
        is_well, what = verdict.is_well(), f'{verdict}'
    except (Wrong, OSError) as fault:
        is_well, what = False, f'{type(fault).__name__}: {fault}'
    how = 'for the record' if not play.keyed else 'held' if is_well else 'FAILED'
    print(f'{name:9} {how}, {play.tries} tries: {what} ({time.monotonic() - begun:.0f} s)', flush=True)
    return is_well or not play.keyed


def main():
    parser = argparse.ArgumentParser(description=__doc__, formatter_class=argparse.RawDescriptionHelpFormatter)
    parser.add_argument('--tries', type=int, default=200)
    parser.add_argument('--only', choices=ATTACKS, action='append', metavar='NAME')
    parser.add_argument('--plain', action='store_true')
    parser.add_argument('--datagrams', type=int, default=10_000_000)
    parser.add_argument('--seed', type=int, default=random.randrange(1 << 32))
    parser.add_argument('--keep', action='store_true')
    parser.add_argument('program')
    words = parser.parse_args()
    if os.geteuid() != 0 or not shutil.which('ip') or not os.path.exists('/dev/net/tun'):
        print('skipped: it needs root, ip and /dev/net/tun')
        return 0
    print(f'seed {words.seed}', flush=True)
    play = Play(proved.program(words.program), words.tries, not words.plain, words.datagrams, random.Random(words.seed), words.keep)
    names = words.only or [name for name in ATTACKS if play.keyed or name not in KEYED]
    return 0 if all([tried(name, play) for name in names]) else 1


if __name__ == '__main__':
    sys.exit(main())

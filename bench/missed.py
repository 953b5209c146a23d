#!/usr/bin/env python3
"""How long a plant takes to come to what it missed: it has voted for all stories, and heard no vote of another.

    bench/missed.py [--stories N] [--closed SECONDS] [--restart] [--runs N] PROGRAM

Three plants `run` on 127.0.0.1, over the sockets of kills.py. 1,000 stories of 7 frames are laid at the first plant all at once, and each Accepted
for the third is dropped. Once both others have all stories, and the third has voted for each, so many seconds more go by, 0 where nothing is said.
Then the network opens: it lets all through, and it is waited until the third plant has all stories. With --restart the third plant is killed (SIGKILL)
as the network opens, and started again: what it knows it knows from then on. Without, it may have asked in vain for some numbers before, and have
begun ballots of them. A line is printed for each run:

    opening    from the opening, or the start behind it, to the last galley of the third plant
    ripe       from the moment at which the first number could be asked for: the network is open, the third plant has known it for 5 s, and nothing
               came of it there for 2 s; and from the first recall that went out after the opening
    alone      the same tapes and galleys written and synced there by one process, the median of three; and how many times that it took, from both
    recalls    how many were sent by the third plant after the opening
    told       how many Accepted there came for the third plant of a number by one other after that: at most, and in the mean
    rows       whether the row files of the others, and their logs, changed a byte meanwhile
    ballots    how many were begun at any plant after the opening

The status is 1 where the third plant lacks a story 60 s after the opening, one was told more than three times by a plant, or, with --restart, a row
file has changed.
"""
import argparse
import collections
import os
import random
import statistics
import sys
import tempfile
import time

import proved

import burst
from kills import MEMBERS, Network

sys.path.insert(0, os.path.join(os.path.dirname(os.path.abspath(__file__)), '..', 'contrib', 'plays'))
import datagrams

LATE = MEMBERS[-1]
OTHERS = MEMBERS[:-1]
KNOWN, QUIET, LAST, MOST = 5, 2, 60, 3
FRAMES = burst.LINES[0]


class Gate(Network):
    """A network that drops the votes of the others for the last plant until it is opened, and passes all else on at once."""

    def __init__(self):
        super().__init__(random.Random(0))
        self.calm, self.opened = True, None
        # when the last plant told that it has voted for a number, and when something of it went there last; then what goes there and comes from it
        self.voted, self.heard, self.asked, self.told = {}, {}, [], collections.Counter()

    def take(self, pair, datagram):
        (sender, to), now, said = pair, time.monotonic(), datagrams.read(datagram)
        if sender == LATE:
            self.take_from(said, now)
        elif to == LATE and isinstance(said, datagrams.Packet):
            if said.kind == datagrams.ACCEPTED:
                if self.opened is None:
                    return
                self.told[said.number, sender] += 1
            if not self.asked:
                self.heard[said.number] = now
        super().take(pair, datagram)

    def take_from(self, said, now):
        """What the last plant says."""
        if isinstance(said, datagrams.Recall):
            if self.opened is not None:
                self.asked.append(now)
        elif isinstance(said, datagrams.Packet) and said.kind == datagrams.ACCEPTED:
            self.voted.setdefault(said.number, now)

    def ripe(self, started):
        """When the first number could be asked for by a plant that was started then."""
        first = min(max(known + KNOWN, self.heard.get(number, 0) + QUIET) for number, known in self.voted.items())
        return max(self.opened, started + KNOWN, first)


def wait(network, holds, seconds):
    """Passes datagrams on until something holds, for so many seconds at most; whether it does."""
    until = time.monotonic() + seconds
    while not holds():
        if time.monotonic() > until:
            return False
        network.pass_on_until(time.monotonic() + 0.05)
    return True


def files_alone(folder, count):
    """How long the files of so many stories take alone."""
    home = tempfile.mkdtemp(dir=folder)
    begun = time.monotonic()
    for number in range(1, count + 1):
        burst.write_files(home, number, FRAMES)
    return time.monotonic() - begun


def row_bytes(plant):
    """What the row file of a plant and its log hold."""
    held = []
    for name in ('station.db', 'station.db-wal'):
        with open(os.path.join(plant.home, name), 'rb') as file:
            held.append(file.read())
    return held


def up(program, folder, network):
    """The plants, each with ports of the network's for the others."""
    addresses = {own: [('127.0.0.1', network.port_of(own, other)) for other in MEMBERS] for own in MEMBERS}
    plants = [burst.Plant(program, folder, own, addresses[own], None, [], '2') for own in MEMBERS]
    network.pass_on_until(time.monotonic() + 1.5)
    return plants


def missed(network, plants, words):
    """Lays the stories, and opens the network once all is as it has to be."""
    wanted = set(range(1, words.stories + 1))
    for number in wanted:
        plants[0].lay(number, FRAMES)
    if not wait(network, lambda: len(network.voted) == len(wanted) and all(plant.released() >= wanted for plant in plants[:-1]), burst.LAST):
        sys.exit(f'the others have {[len(plant.released()) for plant in plants]} stories, and the third has voted for {len(network.voted)}')
    network.pass_on_until(time.monotonic() + words.closed)
    if there := plants[-1].released():
        sys.exit(f'the third plant has {len(there)} stories by itself')
    network.opened = time.monotonic()
    if words.restart:
        plants[-1].process.kill()
        plants[-1].process.wait()
        plants[-1].start()
    return wanted


def run(program, folder, words):
    """One run; its line, and whether all is as it should be."""
    network, plants = Gate(), []
    try:
        plants = up(program, folder, network)
        started = time.monotonic()
        wanted = missed(network, plants, words)
        started = network.opened if words.restart else started
        rows, ballots, late = [row_bytes(plant) for plant in plants[:-1]], sum(plant.ballots for plant in plants), plants[-1]
        is_there = wait(network, lambda: late.released() >= wanted, LAST)
        # The moments of galleys are those of the clock on the wall.
        behind = time.time() - time.monotonic()
        ended = max((late.galley_at(number) for number in late.released() & wanted), default=float('nan')) - behind
        # What is still on its way is told too.
        network.pass_on_until(time.monotonic() + 5)
        same = [row_bytes(plant) for plant in plants[:-1]] == rows
        more = sum(plant.ballots for plant in plants) - ballots
        lacks = len(wanted - late.released())
    finally:
        for plant in plants:
            plant.process.kill()
            plant.process.wait()
        network.close()
    alone = statistics.median(files_alone(folder, words.stories) for _ in range(3))
    ripe, first = ended - network.ripe(started), ended - min(network.asked, default=float('nan'))
    most, mean = max(network.told.values(), default=0), sum(network.told.values()) / (len(wanted) * len(OTHERS))
    print(f'{words.stories} missed | lacks {lacks} | from the opening {ended - network.opened:.2f} s, ripe {ripe:.2f} s, first recall {first:.2f} s; alone {alone:.2f} s: '
          f'{ripe / alone:.2f}, {first / alone:.2f} | recalls {len(network.asked)} | told at most {most}, {mean:.2f} in the mean | '
          f'rows {"the same" if same else "CHANGED"} | ballots {more}' + (f' | said {late.other[:2]}' if late.other else ''), flush=True)
    return is_there and (same or not words.restart) and most <= MOST


def runs(run, words):
    """So many runs as are asked for, each in a folder of its own; the status."""
    with tempfile.TemporaryDirectory(dir=os.getcwd()) as room:
        ends = [run(proved.program(words.program), tempfile.mkdtemp(dir=room), words) for _ in range(words.runs)]
    return 0 if all(ends) else 1


def main():
    parser = argparse.ArgumentParser(description=__doc__, formatter_class=argparse.RawDescriptionHelpFormatter)
    parser.add_argument('--stories', type=int, default=1000)
    parser.add_argument('--closed', type=float, default=0)
    parser.add_argument('--restart', action='store_true')
    parser.add_argument('--runs', type=int, default=1)
    parser.add_argument('program')
    return runs(run, parser.parse_args())


if __name__ == '__main__':
    sys.exit(main())

#!/usr/bin/env python3
"""How long a plant takes to come to what went out while it was off, of which it has no row.

    bench/absent.py [--stories N] [--frames N] [--members N] [--runs N] [--searches] PROGRAM

Plants `run` on 127.0.0.1, over the sockets of kills.py, three where nothing else is said, all but the last of them. 1,000 stories of 64 frames are laid
at the first plant all at once; once all that are up have them, the last plant is started, and it is waited until it has all stories. Of two plants, which
agree on nothing while one is off, the last has voted for all and heard no vote of the other, as in missed.py, and is killed and started again. A line is
printed for each run:

    took       from the start of the last plant to its last galley
    alone      the same tapes and galleys written and synced there by one process, the median of three; and how many times that it took
    told       how many Accepted there came for the last plant of a number by one other: at most, and in the mean
    rows       whether the row files of the others, and their logs, changed a byte meanwhile
    said       how many numbers the last plant told as missed, and what it told of how it caught up

With --searches the last plant does not catch up: a search of each number is laid among its offers as it starts. That its rows and those of the others
change, and what it is told, is no fault then.

The status is 1 where the last plant lacks a story 60 s after its start, one was told more than three times by a plant, a row file has changed, a number is
told as missed that was not laid, or the numbers that it caught up with are not those that it released.
"""
import argparse
import os
import random
import statistics
import sys
import tempfile
import time
from collections import Counter

import burst
import kills
import missed
from burst import CAUGHT, MISSED, Plant, numbers_of
from kills import Network

sys.path.insert(0, os.path.join(os.path.dirname(os.path.abspath(__file__)), '..', 'contrib', 'plays'))
import datagrams

LAST, MOST = 60, 3
LINE = bytes.fromhex('01020301030204')


class Counting(Network):
    """A network that passes all on at once, and counts which votes the last plant is told. Until it is opened it is told none."""

    def __init__(self, last, opened):
        super().__init__(random.Random(0))
        self.calm, self.last, self.opened, self.told, self.voted = True, last, opened, Counter(), set()

    def take(self, pair, datagram):
        sender, to = pair
        if self.last in pair:
            said = datagrams.read(datagram)
            if isinstance(said, datagrams.Packet) and said.kind == datagrams.ACCEPTED:
                if sender == self.last:
                    self.voted.add(said.number)
                elif not self.opened:
                    return
                else:
                    self.told[said.number, sender] += 1
        super().take(pair, datagram)


def files_alone(folder, count, frames):
    """How long the files of so many stories take alone."""
    home = tempfile.mkdtemp(dir=folder)
    begun = time.monotonic()
    for number in range(1, count + 1):
        burst.write_files(home, number, frames)
    return time.monotonic() - begun


def lay(network, plants, late, words, frames):
    """Lays the stories, and starts the last plant once all is as it has to be; when that was."""
    wanted, up = set(range(1, words.stories + 1)), [plant for plant in plants if plant is not late]
    for number in wanted:
        plants[0].lay(number, frames)
    ready = lambda: all(plant.released() >= wanted for plant in up) and (words.members > 2 or len(network.voted) == len(wanted))
    if not missed.wait(network, ready, burst.LAST):
        sys.exit(f'the others have {[len(plant.released()) for plant in up]} stories')
    network.pass_on_until(time.monotonic() + 1)
    network.opened = True
    if words.members == 2:
        late.process.kill()
        late.process.wait()
    if there := late.released():
        sys.exit(f'the last plant has {len(there)} stories by itself')
    return wanted


def judged(late, wanted):
    """How many numbers were told as missed, what was told of catching up, and whether both are as they should be."""
    told = [line.decode().rstrip('\n') for line in late.other]
    asked = set().union(*(numbers_of(found[1]) for line in told if (found := MISSED.fullmatch(line))))
    caught = [tuple(map(int, found.groups())) for line in told if (found := CAUGHT.fullmatch(line))]
    is_well = asked <= wanted and sum(released for released, _ in caught) == len(late.released() & wanted)
    return len(asked), caught, is_well


def search(plant, wanted):
    """Lays a search of each of these numbers among the offers of a plant."""
    for number in sorted(wanted):
        part = os.path.join(plant.offers, f'.{number}.seek')
        open(part, 'wb').close()
        os.rename(part, os.path.join(plant.offers, f'{number}.seek'))


def run(program, folder, words):
    """One run; its line, and whether all is as it should be."""
    members = range(1, words.members + 1)
    kills.MEMBERS = members
    network, plants = Counting(words.members, words.members > 2), []
    frames = LINE * (words.frames // len(LINE)) if words.frames > len(LINE) else LINE
    try:
        addresses = {own: [('127.0.0.1', network.port_of(own, other)) for other in members] for own in members}
        tables = {words.members: '[catch_up]\noff = true\n'} if words.searches else {}
        plants = [Plant(program, folder, own, addresses[own], None, [], '2', tables.get(own, '')) for own in members]
        network.pass_on_until(time.monotonic() + 1.5)
        late = plants[-1]
        if words.members > 2:
            late.process.kill()
            late.process.wait()
        wanted = lay(network, plants, late, words, frames)
        rows = [missed.row_bytes(plant) for plant in plants[:-1]]
        late.other.clear()
        started, behind = time.monotonic(), time.time() - time.monotonic()
        late.start()
        if words.searches:
            search(late, wanted)
        is_there = missed.wait(network, lambda: late.released() >= wanted, LAST)
        ended = max((late.galley_at(number) for number in late.released() & wanted), default=float('nan')) - behind
        network.pass_on_until(time.monotonic() + 5)
        same = [missed.row_bytes(plant) for plant in plants[:-1]] == rows
        lacks = len(wanted - late.released())
        asked, caught, is_well = judged(late, wanted)
    finally:
        for plant in plants:
            plant.process.kill()
            plant.process.wait()
        network.close()
    alone = statistics.median(files_alone(folder, words.stories, frames) for _ in range(3))
    most, mean = max(network.told.values(), default=0), sum(network.told.values()) / (len(wanted) * (words.members - 1))
    print(f'{words.stories} of {len(frames)} frames, {words.members} plants | lacks {lacks} | took {ended - started:.2f} s, alone {alone:.2f}: {(ended - started) / alone:.2f} | '
          f'told at most {most}, {mean:.2f} in the mean | rows {"the same" if same else "CHANGED"} | '
          f'said {asked} missed, {caught}{"" if is_well else " WRONG"} {[line for line in late.other if not MISSED.match(line.decode()) and not CAUGHT.match(line.decode())][:3]}', flush=True)
    return is_there and (words.searches or same and most <= MOST and is_well)


def main():
    parser = argparse.ArgumentParser(description=__doc__, formatter_class=argparse.RawDescriptionHelpFormatter)
    parser.add_argument('--stories', type=int, default=1000)
    parser.add_argument('--frames', type=int, default=64)
    parser.add_argument('--members', type=int, default=3)
    parser.add_argument('--runs', type=int, default=1)
    parser.add_argument('--searches', action='store_true')
    parser.add_argument('program')
    return missed.runs(run, parser.parse_args())


if __name__ == '__main__':
    sys.exit(main())

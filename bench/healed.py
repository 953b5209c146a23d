#!/usr/bin/env python3
"""Kills of three plants over a network that loses datagrams, while stories come: what each plant lacks in the end, and what it keeps of a good end.

    bench/healed.py [--kills N] [--loss LEAST MOST] [--rate N] [--seed S] PROGRAM

Three plants `run` on 127.0.0.1, over a network that loses 5 to 20 % of all datagrams, a share of its own in each run, to the end. Each second
10 stories are laid among the offers, at the plants in turn, each under a number of its own and by rename. Every 1 to 4 seconds one of the plants
is killed (SIGKILL), 40 times where no other count is given, and started again within half a second. Then nothing is laid or killed any more.
Once all offers have left, each plant has 30 s to come to have the story of each number, whether it heard of it or not.

Then the plants end well, and the rows are listed. They start again, 50 more stories are laid, and after 15 s they end well once more.

Told are, and the status is 1 where one of them does not hold:

    lacks      of each plant the numbers whose story it has not; none. How many of them it has a row of is told beside them
    kept       at each good end the stories of the numbers in `.released` lie among the releases, and `.released` has each number that has a
               story there and a row
    again      since the first good end no number is told as released that had gone out by then, and none twice
"""
import argparse
import os
import random
import shutil
import signal
import sys
import tempfile
import time

import proved

from burst import rows_of
from kills import MEMBERS, Wrong
from soak import Lossy, Plant, empty, end

sys.path.insert(0, os.path.join(os.path.dirname(os.path.abspath(__file__)), '..', 'contrib', 'plays'))
import datagrams

HEALS = 30
# how many stories come after the good end, and how long they have, in seconds
MORE, REST = 50, 15


def noted(plant):
    """The numbers that the plant keeps as gone out."""
    with open(plant.path('releases', '.released'), 'rb') as file:
        return set(datagrams.read_released(file.read())[1])


def kept(program, plant):
    """The same after a good end: their stories lie there, and so they do of each number that has a row. One without a row was released by the
    votes of others, and a plant that is killed before it notes that knows nothing of it."""
    numbers, there = noted(plant), plant.released()
    if not numbers <= there:
        raise Wrong(f'{plant.home}: .released has {sorted(numbers - there)[:9]}, whose stories do not lie there')
    if unnoted := (there - numbers) & rows_of(program, plant.home):
        raise Wrong(f'{plant.home}: .released lacks {sorted(unnoted)[:9]}, whose stories and rows are there')
    return numbers


def told(plant, start):
    """The numbers that the log tells as released behind a place, in their order."""
    with open(plant.path('log'), 'rb') as log:
        log.seek(start)
        return [int(line.split()[0]) for line in log.read().splitlines() if line.endswith(b' released')]


class Story:
    """The stories, one after another, at the plants in turn."""

    def __init__(self, plants):
        self.plants, self.count = plants, 0

    def lay(self):
        self.count += 1
        self.plants[self.count % len(self.plants)].lay(self.count)


def live(plants, network, stories, words):
    """Lays stories and kills plants."""
    chance, begun, kills, down = network.chance, time.monotonic(), 0, None
    killed = begun
    while kills < words.kills or down:
        now = time.monotonic()
        while stories.count < (now - begun) * words.rate:
            stories.lay()
        if down is None and now > killed:
            plant = chance.choice(plants)
            plant.kill()
            kills += 1
            down = plant, now + chance.uniform(0, 0.5)
            killed = now + chance.uniform(1, 4)
        elif down and now > down[1]:
            down[0].start()
            down = None
        network.pass_on_until(now + 0.5 / words.rate)


def heal(plants, network, count):
    """Waits until each plant has all stories and keeps them as gone out, or as long as it may take; how long that was."""
    begun = time.monotonic()
    while time.monotonic() - begun < HEALS and any(len(plant.released()) < count or len(noted(plant)) < count for plant in plants):
        network.pass_on_until(time.monotonic() + 0.1)
    return time.monotonic() - begun


def lacking(program, plants, count):
    """Prints what each plant lacks; whether none lacks anything."""
    is_well = True
    for member, plant in enumerate(plants, 1):
        plant.see()
        rows, there = rows_of(program, plant.home), plant.released()
        lacks = sorted(set(range(1, count + 1)) - there)
        print(f'plant {member}: {len(there)} of {count} stories; lacks {len(lacks)} {lacks[:9]}, {len(rows & set(lacks))} of them with a row', flush=True)
        is_well = is_well and not lacks
    return is_well


def more(plants, network, stories):
    """Starts the plants once more over what they keep, and lays more stories; what they told as released since."""
    starts = [os.path.getsize(plant.path('log')) for plant in plants]
    for plant in plants:
        plant.start()
    network.pass_on_until(time.monotonic() + 1)
    for _ in range(MORE):
        stories.lay()
        network.pass_on_until(time.monotonic() + 0.05)
    empty(plants, network)
    network.pass_on_until(time.monotonic() + REST)
    end(plants, network)
    return [told(plant, start) for plant, start in zip(plants, starts)]


def again(program, plants, before, released):
    """What came of the second start: nothing went out twice, and what is kept is what was told."""
    for plant, had, numbers in zip(plants, before, released):
        if had & set(numbers) or len(numbers) != len(set(numbers)):
            raise Wrong(f'{plant.home}: released again {sorted(had & set(numbers))[:9]}, twice {sorted({n for n in numbers if numbers.count(n) > 1})[:9]}')
        if kept(program, plant) != had | set(numbers):
            raise Wrong(f'{plant.home}: .released has not what was told: {sorted(kept(program, plant) ^ (had | set(numbers)))[:9]}')
    print(f'after a good end and a start {sum(map(len, released))} releases at all plants, none of what had gone out, none twice; .released has them')


def play(program, plants, network, words):
    """All of it; whether no plant lacks a story."""
    for plant in plants:
        plant.start()
    network.pass_on_until(time.monotonic() + 1)
    stories = Story(plants)
    live(plants, network, stories, words)
    empty(plants, network)
    took = heal(plants, network, stories.count)
    end(plants, network)
    is_well = lacking(program, plants, stories.count)
    print(f'{stories.count} stories, {words.kills} kills, {network.counts["lost"]} datagrams lost of {network.counts["sent"] + network.counts["lost"]}, '
          f'seen {took:.1f} s after the last offer had left, or {HEALS} s where not all had all')
    before = [kept(program, plant) for plant in plants]
    again(program, plants, before, more(plants, network, stories))
    return is_well


def main():
    parser = argparse.ArgumentParser(description=__doc__, formatter_class=argparse.RawDescriptionHelpFormatter)
    parser.add_argument('--kills', type=int, default=40)
    parser.add_argument('--loss', type=float, nargs=2, default=(0.05, 0.2), metavar=('LEAST', 'MOST'))
    parser.add_argument('--rate', type=float, default=10)
    parser.add_argument('--seed', type=int, default=random.randrange(1 << 32))
    parser.add_argument('program')
    words = parser.parse_args()
    program, top = proved.program(words.program), tempfile.mkdtemp(dir=os.getcwd())
    chance = random.Random(words.seed)
    network = Lossy(chance, chance.uniform(*words.loss))
    print(f'seed {words.seed}, {100 * network.loss:.0f} % lost', flush=True)
    plants = [Plant(program, top, member, network) for member in MEMBERS]
    try:
        is_well = play(program, plants, network, words)
    except (Wrong, OSError, datagrams.NotSpelled) as wrong:
        print(f'seed {words.seed}, in {top}: {wrong}')
        return 1
    finally:
        for plant in plants:
            if plant.process is not None and plant.process.poll() is None:
                plant.process.send_signal(signal.SIGKILL)
                plant.process.wait()
        network.close()
    if is_well:
        shutil.rmtree(top)
    return 0 if is_well else 1


if __name__ == '__main__':
    sys.exit(main())

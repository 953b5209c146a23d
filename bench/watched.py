#!/usr/bin/env python3
"""What `circuitd status` says of three plants while one is killed, one is cut off, and one lacks 30 stories.

    bench/watched.py [--minutes M] [--seed S] PROGRAM

Three plants `run` on 127.0.0.1, over a network that loses 5 % of all datagrams, for an hour where nothing is said. Each second a story is laid
at one plant, and every five seconds `status` is asked at each plant. Again and again:

    well       nothing ails them: each is to be well, once two minutes have passed
    killed     the third plant is killed: from 60 to 95 seconds later its status is too old, and the others are well
    cut off    all datagrams from and to the second plant are lost: from 145 to 215 seconds later it has heard no majority, and the others are well
    lacking    no packet that brings a story reaches the first plant, while 30 are laid at the second: from 60 to 130 seconds later
               something is missing there, in the end 30 numbers at least, and the others are well

Told is, of each of these, after how many seconds `status` ended with 1 at the plant that it is about, and how often it was asked. The status is
1 where it ended otherwise than it should at any plant, outside of those seconds and of the two minutes behind each case.
"""
import argparse
import os
import random
import re
import shutil
import subprocess
import sys
import tempfile
import time

import proved

from corrections import CONFIG
from kills import MEMBERS, Wrong
from soak import Lossy, Plant, empty, end

ASKED = 5
REST = 120
# a Promise, an Accept and an Accepted, by which a plant comes to a story
BRINGING = (2, 3, 4)


class Watched(Lossy):
    """A network that loses some datagrams, all of a member, or those that bring one member a story."""

    def __init__(self, chance):
        super().__init__(chance)
        self.cut, self.starved = None, None

    def take(self, pair, datagram):
        is_cut = self.cut in pair
        brings = pair[1] == self.starved and datagram[:2] == b'TN' and datagram[3] in BRINGING
        if is_cut or brings:
            self.counts['lost'] += 1
        else:
            super().take(pair, datagram)


class Station(Plant):
    """A plant with a status file."""

    def __init__(self, program, top, member, network):
        super().__init__(program, top, member, network)
        path = self.path('station.toml')
        text = open(path).read().replace('releases = "releases"\n', 'releases = "releases"\nstatus = "status.txt"\n')
        with open(path, 'w') as file:
            file.write(text)

    def ask(self):
        """How `status` ends, and what it prints."""
        done = subprocess.run([self.program, 'status', 'station.toml'], cwd=self.home, capture_output=True, text=True)
        return done.returncode, done.stdout


class Watch:
    """What was asked so far, and what was otherwise than it should be."""

    def __init__(self, plants, network):
        self.plants, self.network, self.number, self.editor = plants, network, 0, plants[0]
        self.asked, self.wrong, self.laid, self.said = 0, [], 0.0, ''

    def pass_on(self, seconds):
        """Lets time pass: stories are laid, and datagrams passed on."""
        until = time.monotonic() + seconds
        while (now := time.monotonic()) < until:
            if now > self.laid + 1:
                self.laid = now
                self.number += 1
                self.editor.lay(self.number)
            self.network.pass_on_until(min(until, now + 0.2))

    def look(self, case, since, ailing, first, last):
        """Asks each plant; those that are well end with 0, and the one that ails ends with 1 from between two moments on."""
        for plant in self.plants:
            status, text = plant.ask()
            self.asked += 1
            age = time.monotonic() - since
            if plant is not ailing:
                if status != 0:
                    self.wrong.append(f'{case}: {plant.home} ended with {status} after {age:.0f} s:\n{text}')
            elif status == 1 and age < first or status == 0 and age > last or status not in (0, 1):
                self.wrong.append(f'{case}: {plant.home} ended with {status} after {age:.0f} s:\n{text}')
            elif status == 1:
                self.said = text
                return age
        return None

    def follow(self, case, ailing, first, last, means=None):
        """Asks until the plant is not well, and a while longer; when it was so first. What it says last is to mean what ails it."""
        since, found = time.monotonic(), None
        while time.monotonic() < since + last + 20:
            age = self.look(case, since, ailing, first, last)
            found = found if found is not None else age
            self.pass_on(ASKED)
        if means and not means(self.said):
            self.wrong.append(f'{case}: {ailing.home} says in the end\n{self.said}')
        print(f'{case}: not well after {found and round(found)} s', flush=True)

    def rest(self, seconds):
        """Lets all be well again, and sees that they are."""
        self.pass_on(REST)
        until = time.monotonic() + seconds
        while time.monotonic() < until:
            self.look('well', time.monotonic(), None, 0, 0)
            self.pass_on(ASKED)


def lacks_thirty(text):
    """Whether a status says that 30 numbers or more are missing."""
    line = re.search(r'^missing (.*?)( \.\.)? since', text, re.M)
    if not line:
        return False
    ranges = [each.split('-') for each in line.group(1).split()]
    return bool(line.group(2)) or sum(int(each[-1]) - int(each[0]) + 1 for each in ranges) >= 30


def play(watch):
    """One time through all cases."""
    first, second, third = watch.plants
    watch.rest(60)
    third.kill()
    watch.follow('killed', third, 55, 95)
    third.start()
    watch.rest(30)
    watch.network.cut = 2
    watch.follow('cut off', second, 145, 215)
    watch.network.cut = None
    watch.rest(30)
    watch.network.starved, watch.editor = 1, second
    for _ in range(30):
        watch.number += 1
        second.lay(watch.number)
    watch.follow('lacking', first, 55, 130, lacks_thirty)
    watch.network.starved, watch.editor = None, first
    watch.rest(30)


def main():
    parser = argparse.ArgumentParser(description=__doc__, formatter_class=argparse.RawDescriptionHelpFormatter)
    parser.add_argument('--minutes', type=float, default=60)
    parser.add_argument('--seed', type=int, default=1)
    parser.add_argument('program', metavar='PROGRAM')
    words = parser.parse_args()
    top = tempfile.mkdtemp(prefix='circuitd-watched-')
    network = Watched(random.Random(words.seed))
    plants = [Station(proved.program(words.program), top, member, network) for member in MEMBERS]
    watch = Watch(plants, network)
    try:
        for plant in plants:
            plant.start()
        begun = time.monotonic()
        while time.monotonic() < begun + 60 * words.minutes:
            play(watch)
        network.calm = True
        empty(plants, network)
        end(plants, network)
    except Wrong as wrong:
        watch.wrong.append(str(wrong))
    finally:
        for plant in plants:
            if plant.process and plant.process.poll() is None:
                plant.process.kill()
        network.close()
    lacks = [watch.number - len(plant.released()) for plant in plants]
    print(f'{watch.number} stories, {network.counts["lost"]} datagrams lost, asked {watch.asked} times; lacks {lacks}; {len(watch.wrong)} otherwise')
    for wrong in watch.wrong[:9]:
        print(wrong)
    if watch.wrong:
        sys.exit(1)
    shutil.rmtree(top)


if __name__ == '__main__':
    main()

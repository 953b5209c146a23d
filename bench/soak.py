#!/usr/bin/env python3
"""Three plants for a while: stories come all the time, the network loses some datagrams, and plants are killed.

    bench/soak.py [--minutes M] [--rate N] [--seed S] PROGRAM

Three plants `run` on 127.0.0.1, over a network that loses 5 % of all datagrams, for 20 minutes where nothing is said. Each second 10 stories
are laid among the offers, at the plants in turn, each under a number of its own and by rename. Each minute one of the plants, in turn, is
killed (SIGKILL) and started again half a second later. At the end nothing is lost any more, and it is waited until all offers have left.

Told are, and the status is 1 where one of them does not hold:

    stories    each story lies in `sent`, and among the releases of its plant; no two plants have two stories under one number
    lines      the lines of each log, in times of all stories: at most two
    memory     what each plant had of memory a third into its longest life and at the end of it, in kB (VmRSS): at most 4 % more, and how
               many bytes more that is for each story that was released there meanwhile

How many stories the plants lack that did not offer them is told and not judged: a plant asks only for what one of the others told it of.
"""
import argparse
import os
import random
import shutil
import signal
import subprocess
import sys
import tempfile
import time

import proved

from corrections import CONFIG, LINES
from kills import EXAMPLES, MEMBERS, Network, Wrong

LOSS = 0.05
# a story is some of the two lines, as the binary digits of its own number
DIGITS = 17
# how much more memory a plant may have at the end of a life than a third into it
FLAT = 1.04
# how long what waits may take at the end, in seconds
SECONDS = 120


def story(number):
    """The tape of a story of its own."""
    return b''.join(LINES[number >> place & 1] for place in range(DIGITS))


class Lossy(Network):
    """A network that loses some datagrams, and passes the others on at once."""

    def __init__(self, chance, loss=LOSS):
        super().__init__(chance)
        self.loss = loss

    def take(self, pair, datagram):
        self.counts['lost'] += (lost := not self.calm and self.chance.random() < self.loss)
        if not lost:
            was, self.calm = self.calm, True
            super().take(pair, datagram)
            self.calm = was


class Plant:
    """A plant in a folder of its own, and what it had of memory in its lives."""

    def __init__(self, program, top, member, network):
        self.program, self.home, self.process = program, os.path.join(top, f'plant{member}'), None
        self.laid, self.lives = [], []
        for name in ('offers', 'releases'):
            os.makedirs(self.path(name))
        for name in ('codes.toml', 'widths.toml'):
            shutil.copy(os.path.join(EXAMPLES, name), self.home)
        stations = ''.join(f'[[station]]\nmember = {each}\nip = "127.0.0.1"\nport = {network.port_of(member, each)}\n' for each in MEMBERS)
        with open(self.path('station.toml'), 'w') as file:
            file.write(CONFIG.format(member=member, stations=stations))
        subprocess.run([program, 'create', 'station.toml'], cwd=self.home, check=True, stdout=subprocess.DEVNULL)
        self.log = open(self.path('log'), 'ab')

    def path(self, *names):
        return os.path.join(self.home, *names)

    def start(self):
        self.process = subprocess.Popen([self.program, 'run', 'station.toml'], cwd=self.home, stdout=subprocess.DEVNULL, stderr=self.log)
        self.lives.append([])

    def sample(self):
        """Notes what the plant has of memory, and how many stories were released there."""
        if self.process is None:
            return
        with open(f'/proc/{self.process.pid}/status') as status:
            for line in status:
                if line.startswith('VmRSS:'):
                    self.lives[-1].append((int(line.split()[1]), len(self.released())))

    def kill(self):
        if self.process.poll() is not None:
            raise Wrong(f'{self.home} ended with {self.process.returncode}')
        self.process.send_signal(signal.SIGKILL)
        self.process.wait()
        self.process = None

    def lay(self, number):
        part = self.path('offers', f'.{number}.tape')
        with open(part, 'wb') as file:
            file.write(story(number))
        os.rename(part, self.path('offers', f'{number}.tape'))
        self.laid.append(number)

    def released(self):
        """The numbers whose story lies among the releases."""
        return {int(name[:-len('.tape')]) for name in os.listdir(self.path('releases')) if name.endswith('.tape') and not name.startswith('.')}

    def waiting(self):
        return [name for name in os.listdir(self.path('offers')) if name.endswith('.tape') and not name.startswith('.')]

    def see(self):
        """Each story that was laid here went out here; and how many of the others did."""
        for number in self.laid:
            for place in ('offers/sent', 'releases'):
                with open(self.path(place, f'{number}.tape'), 'rb') as file:
                    if file.read() != story(number):
                        raise Wrong(f'{self.home}: {place}/{number}.tape is another story')
        for name in os.listdir(self.path('releases')):
            number, _, kind = name.partition('.')
            if kind == 'tape':
                with open(self.path('releases', name), 'rb') as file:
                    if file.read() != story(int(number)):
                        raise Wrong(f'{self.home}: {name} is another story')


def live(plants, network, words):
    """Lays the stories, and kills plants; how many stories there are."""
    begun, number, kills, sampled, restart = time.monotonic(), 0, 0, 0.0, None
    while (now := time.monotonic()) < begun + 60 * words.minutes:
        while number < (now - begun) * words.rate:
            number += 1
            plants[number % len(plants)].lay(number)
        if now - begun > 60 * (kills + 1):
            restart = plants[kills % len(plants)], now + 0.5
            restart[0].kill()
            kills += 1
        if restart and now > restart[1]:
            restart[0].start()
            restart = None
        if now > sampled + 2:
            sampled = now
            for plant in plants:
                plant.sample()
        network.pass_on_until(now + 0.5 / words.rate)
    if restart:
        restart[0].start()
    return number, kills


def settle(plants, network):
    """Waits until all offers have left, and ends the plants."""
    network.calm = True
    empty(plants, network)
    end(plants, network)


def empty(plants, network):
    """Waits until all offers have left."""
    until = time.monotonic() + SECONDS
    while any(plant.waiting() for plant in plants):
        if time.monotonic() > until:
            raise Wrong(f'these wait: {[plant.waiting()[:9] for plant in plants]}')
        network.pass_on_until(time.monotonic() + 0.1)


def end(plants, network):
    """Ends the plants well."""
    for plant in plants:
        with open(plant.path('offers', 'stop'), 'w'):
            pass
        until = time.monotonic() + 20
        while plant.process.poll() is None and time.monotonic() < until:
            network.pass_on_until(time.monotonic() + 0.1)
        if plant.process.poll() != 0:
            raise Wrong(f'{plant.home} ended with {plant.process.poll()}')


def tell(plants, count):
    """Prints what was seen; whether all is as it should be."""
    is_well = True
    for member, plant in enumerate(plants, 1):
        plant.see()
        lines = sum(1 for _ in open(plant.path('log'), 'rb'))
        life = max(plant.lives, key=len)
        (early, before), (late, after) = life[len(life) // 3], life[-1]
        lacks = count - len(plant.released())
        more = 1024 * (late - early) / max(1, after - before)
        print(f'plant {member}: {len(plant.laid)} stories laid, all sent; {lines} lines, {lines / count:.2f} a story; memory {early} kB, then {late} kB, '
              f'{more:.0f} bytes a story; lacks {lacks}', flush=True)
        is_well = is_well and lines <= 2 * count and late <= FLAT * early
    return is_well


def main():
    parser = argparse.ArgumentParser(description=__doc__, formatter_class=argparse.RawDescriptionHelpFormatter)
    parser.add_argument('--minutes', type=float, default=20)
    parser.add_argument('--rate', type=float, default=10)
    parser.add_argument('--seed', type=int, default=random.randrange(1 << 32))
    parser.add_argument('program')
    words = parser.parse_args()
    network, top = Lossy(random.Random(words.seed)), tempfile.mkdtemp()
    plants = [Plant(proved.program(words.program), top, member, network) for member in MEMBERS]
    try:
        for plant in plants:
            plant.start()
        count, kills = live(plants, network, words)
        settle(plants, network)
        is_well = tell(plants, count)
    except (Wrong, OSError) as wrong:
        print(f'seed {words.seed}, in {top}: {wrong}')
        for plant in plants:
            if plant.process is not None:
                plant.process.kill()
        return 1
    finally:
        network.close()
    print(f'{count} stories, {kills} kills, {network.counts["lost"]} datagrams lost: no number has two stories (seed {words.seed})')
    shutil.rmtree(top)
    return 0 if is_well else 1


if __name__ == '__main__':
    sys.exit(main())

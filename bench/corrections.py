#!/usr/bin/env python3
"""Kills plants that stay up while files among their offers are replaced by corrections.

    bench/corrections.py PROGRAM [KILLS] [SEED]

Three plants `run` on 127.0.0.1. Stories are laid among their offers, some under a number that another plant offers too, and no two are alike. Some are
replaced by a correction, by rename: at once, while they are watched, while their ballots are under way, or later. Plants are killed (SIGKILL) at moments of
their own, 300 times where no other count is given, and started again.

At the end, once all offers have left and the plants were told to stop: the files `N.tape` among the releases of all plants are one story, which was laid
under N; what was laid last under a name lies in `sent` where it is that story, and in `lost`, with a text beside it, where it is another; nothing lies in
`sent` that is another story; nothing waits. The status is 1 where anything is otherwise, and the folder stays.
"""
import os
import random
import shutil
import signal
import socket
import subprocess
import sys
import tempfile
import time

import proved

HERE = os.path.dirname(os.path.abspath(__file__))
EXAMPLES = os.path.join(HERE, '..', 'examples')
MEMBERS = (1, 2, 3)
KILLS = 300
# how long what waits may take at the end
SECONDS = 300
# two lines that set by the examples' table and widths: a story is some of them, as the binary digits of its own number
LINES = (bytes.fromhex('01020301030204'), bytes.fromhex('01010101010104'))
DIGITS = 14
CONFIG = """circuit = 7
member = {member}
table = "codes.toml"
widths = "widths.toml"
rows = "station.db"
[folders]
offers = "offers"
releases = "releases"
{stations}"""


class Wrong(Exception):
    """Something is otherwise than it has to be."""


def story(own):
    """The tape of a story of its own."""
    return b''.join(LINES[own >> place & 1] for place in range(DIGITS))


def free_port():
    with socket.socket(socket.AF_INET, socket.SOCK_DGRAM) as probe:
        probe.bind(('127.0.0.1', 0))
        return probe.getsockname()[1]


class Plant:
    """A plant in a folder of its own, and what was laid among its offers, by name, the last behind the others."""

    def __init__(self, program, top, member, ports):
        self.program, self.home, self.laid, self.process = program, os.path.join(top, f'plant{member}'), {}, None
        for name in ('offers', 'releases'):
            os.makedirs(self.path(name))
        for name in ('codes.toml', 'widths.toml'):
            shutil.copy(os.path.join(EXAMPLES, name), self.home)
        stations = ''.join(f'[[station]]\nmember = {each}\nip = "127.0.0.1"\nport = {port}\n' for each, port in enumerate(ports, 1))
        with open(self.path('station.toml'), 'w') as file:
            file.write(CONFIG.format(member=member, stations=stations))
        subprocess.run([program, 'create', 'station.toml'], cwd=self.home, check=True, stdout=subprocess.DEVNULL)
        self.log = open(self.path('log'), 'ab')

    def path(self, *names):
        return os.path.join(self.home, *names)

    def start(self):
        self.process = subprocess.Popen([self.program, 'run', 'station.toml'], cwd=self.home, stderr=self.log)

    def kill(self):
        if self.process.poll() is not None:
            raise Wrong(f'{self.home} ended with {self.process.returncode}')
        self.process.send_signal(signal.SIGKILL)
        self.process.wait()

    def put(self, name, data):
        """Lays a file: written under another name, then renamed."""
        with open(self.path('laid'), 'wb') as file:
            file.write(data)
        os.rename(self.path('laid'), self.path('offers', name))

    def lay(self, number, data):
        name = f'{number}.tape'
        self.put(name, data)
        self.laid.setdefault(number, []).append(data)

    def waiting(self):
        return [name for name in os.listdir(self.path('offers')) if name.endswith('.tape') and not name.startswith('.')]

    def held(self, folder):
        """What lies in a folder: by number the tapes, and the names."""
        found = {}
        for name in os.listdir(self.path(folder)) if os.path.exists(self.path(folder)) else ():
            head, _, rest = name.partition('.')
            if head.isdigit() and rest.startswith('tape') and '.txt' not in rest:
                with open(self.path(folder, name), 'rb') as file:
                    found.setdefault(int(head), {})[name] = file.read()
        return found

    def has_text(self, number, data):
        """Whether a text among the lost files says that this story stands under a number."""
        wanted = f'release {number} {data.hex()}'
        names = [name for name in os.listdir(self.path('offers', 'lost')) if name.startswith(f'{number}.') and '.txt' in name]
        return any(wanted in open(self.path('offers', 'lost', name), encoding='ascii').read() for name in names)


class Circuit:
    """Three plants, and what is done to them."""

    def __init__(self, program, chance):
        self.chance, self.top, self.number, self.own, self.corrected = chance, tempfile.mkdtemp(), 0, 0, 0
        ports = [free_port() for _ in MEMBERS]
        self.plants = [Plant(program, self.top, member, ports) for member in MEMBERS]

    def fresh(self):
        self.own += 1
        return story(self.own)

    def lay(self):
        """A story under a number of its own, or under one that another plant has too."""
        plant = self.chance.choice(self.plants)
        if self.number and self.chance.random() < 0.2:
            number = max(1, self.number - self.chance.randint(0, 3))
            if number in plant.laid:
                return
        else:
            self.number += 1
            number = self.number
        plant.lay(number, self.fresh())
        if self.chance.random() < 0.1:
            self.correct(plant, number)

    def correct(self, plant, number):
        plant.lay(number, self.fresh())
        self.corrected += 1

    def replace(self):
        """A correction of one of the last that were laid at a plant, as long as it waits there."""
        plant = self.chance.choice(self.plants)
        waiting = [number for number in plant.laid if os.path.exists(plant.path('offers', f'{number}.tape'))]
        if waiting:
            self.correct(plant, self.chance.choice(waiting[-6:]))

    def live(self, seconds):
        until = time.monotonic() + seconds
        while time.monotonic() < until:
            what = self.chance.random()
            if what < 0.5:
                self.lay()
            elif what < 0.9:
                self.replace()
            time.sleep(self.chance.random() * 0.2)

    def settle(self):
        until = time.monotonic() + SECONDS
        while any(plant.waiting() for plant in self.plants):
            if time.monotonic() > until:
                raise Wrong(f'these wait: {[plant.waiting()[:9] for plant in self.plants]}')
            time.sleep(0.1)
        time.sleep(2)
        for plant in self.plants:
            plant.put('stop', b'')
        for plant in self.plants:
            if plant.process.wait(20) != 0:
                raise Wrong(f'{plant.home} ended with {plant.process.returncode}')

    def stories(self):
        """The story under each number, by the releases of all plants."""
        found, laid = {}, {}
        for plant in self.plants:
            for number, all_laid in plant.laid.items():
                laid.setdefault(number, set()).update(all_laid)
            for number, tapes in plant.held('releases').items():
                for data in tapes.values():
                    if found.setdefault(number, data) != data:
                        raise Wrong(f'number {number} has two stories')
        for number, data in found.items():
            if data not in laid.get(number, ()):
                raise Wrong(f'number {number} has a story that was not laid under it')
        return found

    def see_left(self, plant, stories):
        """Where each file of a plant went."""
        sent, lost = plant.held('offers/sent'), plant.held('offers/lost')
        for number, tapes in sent.items():
            if any(data != stories.get(number) for data in tapes.values()):
                raise Wrong(f'{plant.home}: what lies in sent under {number} is another story')
        ends = [0, 0]
        for number, laid in plant.laid.items():
            last, is_story = laid[-1], laid[-1] == stories.get(number)
            where = (sent if is_story else lost).get(number, {})
            names = [name for name, data in where.items() if data == last]
            if not names:
                raise Wrong(f'{plant.home}: the last file under {number} is not in {"sent" if is_story else "lost"}')
            if not is_story and not plant.has_text(number, stories[number]):
                raise Wrong(f'{plant.home}: no text beside the lost file under {number} says what stands there')
            ends[is_story] += 1
        return ends


def main():
    program = proved.program(sys.argv[1])
    kills = int(sys.argv[2]) if len(sys.argv) > 2 else KILLS
    seed = int(sys.argv[3]) if len(sys.argv) > 3 else random.randrange(1 << 32)
    circuit = Circuit(program, random.Random(seed))
    try:
        for plant in circuit.plants:
            plant.start()
        for _ in range(kills):
            plant = circuit.chance.choice(circuit.plants)
            circuit.live(circuit.chance.random() * 2)
            plant.kill()
            circuit.live(circuit.chance.random() * 0.5)
            plant.start()
        circuit.settle()
        stories = circuit.stories()
        ends = [circuit.see_left(plant, stories) for plant in circuit.plants]
    except Wrong as wrong:
        print(f'seed {seed}, in {circuit.top}: {wrong}')
        for plant in circuit.plants:
            plant.process.kill()
        sys.exit(1)
    replaced = sum(line.rstrip().endswith(b'replaced while it was under way') for plant in circuit.plants for line in open(plant.path('log'), 'rb'))
    print(f'{kills} kills, {circuit.own} stories under {len(stories)} numbers, {circuit.corrected} of them corrections, {replaced} while under way: '
          f'no number has two stories, {sum(end[1] for end in ends)} files were sent and {sum(end[0] for end in ends)} lost, none is missing (seed {seed})')
    shutil.rmtree(circuit.top)


if __name__ == '__main__':
    main()

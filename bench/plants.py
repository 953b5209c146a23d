#!/usr/bin/env python3
"""Kills plants that stay up, over a bad network, and looks whether a story that was offered is lost, a file is half there, or a number means two stories.

    bench/plants.py PROGRAM [KILLS] [SEED]

Circuits of three plants `run` on 127.0.0.1, one after another, over the network of kills.py, which loses datagrams, repeats, delays and reorders. Stories
are laid into the folder `offers` of a plant as OPERATING.md has it: copied under another name, then renamed; some under one number at several plants, some
as withdrawals or searches. Each plant is killed (SIGKILL) at a moment of its own, 300 kills where no other count is given, and started again over its rows
and folders; the first kills come while its row file is made.

After each kill: each file in `releases` that has its last name is whole (a tape is one that was offered under that number, a galley that of its tape), all
plants' releases of a number are of one entry, and each file that was laid into `offers` still lies there, or in sent, lost or refused, once. At the end the
network is calm: each offer has to come to sent or lost within a minute, sent only where the number's entry is the file's, lost only where it is another,
nothing to refused; a file `stop` ends each plant with status 0. The status is 1 where anything was otherwise, and the folder of that circuit stays.
"""
import os
import random
import shutil
import signal
import subprocess
import sys
import tempfile
import time

import proved

from kills import EXAMPLES, MEMBERS, NEVER, VOID, Network, Wrong

NUMBERS = range(1, 200)
KILLS_OF_A_CIRCUIT = 50
# stories that set by the examples' table and widths, and their galleys
STORIES = {
    '01020301030204': '0001 J 0 0 a b _4 a _4 b\n',
    '05020704010b04': '0001 C 10 11 B\n0002 R 22 0 A\n',
    '01010101010104': '0001 J 0 0 a a a a a a\n',
}
PLACES = ('', '.circuitd', 'sent', 'lost', 'refused')
# those of a file that waits: at its name, on its way from there, or both, where a kill came between two calls
WAITING = ([''], ['.circuitd'], ['', '.circuitd'])


class Plant:
    """A plant in a folder of its own, its runs one after another, and what was laid into its offers."""

    def __init__(self, circuit, member):
        self.circuit, self.member = circuit, member
        self.folder = os.path.join(circuit.folder, f'plant{member}')
        self.process, self.until, self.runs, self.laid = None, 0.0, 0, {}
        self.takes_create = True
        # what stands in front of the command
        self.before = []
        os.makedirs(self.path('offers'))
        os.makedirs(self.path('releases'))

    def path(self, *names):
        return os.path.join(self.folder, *names)

    def start(self):
        """Starts the plant: with --create until a run took rows that were there."""
        self.runs += 1
        words = ['--create', '--layout', '2'] if self.takes_create else []
        self.err = open(self.path(f'run{self.runs}.err'), 'w+')
        self.process = subprocess.Popen([*self.before, self.circuit.program, 'run', 'station.toml', *words], cwd=self.folder,
                                        stdout=subprocess.DEVNULL, stderr=self.err)

    def said(self):
        self.err.seek(0)
        return self.err.read()

    def kill(self):
        """Kills the run. One that ended before was told by its row file that it takes the other start."""
        self.process.send_signal(signal.SIGKILL)
        status, said = self.process.wait(), self.said()
        if status == 3 and 'start without --create' in said:
            self.takes_create = False
        elif status == 3 and 'no such file' in said:
            self.takes_create = True
        elif status != -signal.SIGKILL:
            raise Wrong(f'run {self.runs} of plant {self.member} ended with status {status}: {said!r}')
        self.process = None
        self.see()

    def lay(self, name, entry):
        """Hands over a file: copied under another name, then renamed."""
        if name in self.laid:
            return
        self.laid[name] = entry
        part = self.path('offers', f'.{name}')
        with open(part, 'wb') as file:
            file.write(bytes.fromhex(entry) if name.endswith('.tape') else b'')
        os.rename(part, self.path('offers', name))

    def place_of(self, name):
        found = [place for place in PLACES if os.path.exists(self.path('offers', place, name))]
        if found in WAITING:
            return ''
        if len(found) != 1:
            raise Wrong(f'{name} of plant {self.member} lies in {found}')
        return found[0]

    def see(self):
        """What lies in its folders."""
        for name in os.listdir(self.path('releases')):
            number, _, kind = name.partition('.')
            if kind not in ('tape', 'galley', 'void'):
                continue
            with open(self.path('releases', name), 'rb') as file:
                held = file.read()
            if kind == 'void':
                self.circuit.take_release(int(number), VOID)
            elif kind == 'tape':
                if held.hex() not in STORIES:
                    raise Wrong(f'{name} of plant {self.member} is no story: {held.hex()}')
                self.circuit.take_release(int(number), held.hex())
            elif held.decode() not in STORIES.values():
                raise Wrong(f'{name} of plant {self.member} is no galley: {held!r}')
        for name, entry in self.laid.items():
            place = self.place_of(name)
            number = int(name.partition('.')[0])
            stands = self.circuit.released.get(number)
            if place == 'refused':
                raise Wrong(f'{name} of plant {self.member} is refused')
            if name.endswith('.seek') or stands is None:
                continue
            if place == 'sent' and stands != entry or place == 'lost' and stands == entry:
                raise Wrong(f'{name} of plant {self.member} lies in {place}, and {number} is {stands}')

    def waits(self):
        return [name for name in self.laid if self.place_of(name) == '']

    def stop(self):
        with open(self.path('offers', 'stop'), 'w'):
            pass
        for _ in range(100):
            self.circuit.network.pass_on_until(time.monotonic() + 0.1)
            if self.process.poll() is not None:
                break
        if self.process.poll() != 0:
            raise Wrong(f'plant {self.member} ended with {self.process.poll()} where it was told to stop: {self.said()!r}')
        self.process = None


class Circuit:
    """Three plants, and what was seen of them."""

    def __init__(self, program, chance):
        self.program, self.chance, self.folder = program, chance, tempfile.mkdtemp()
        self.network = Network(chance)
        self.kills = 0
        self.released, self.offered, self.took = {}, {}, NEVER
        self.plants = [Plant(self, member) for member in MEMBERS]
        for plant in self.plants:
            self.configure(plant)

    def configure(self, plant):
        for name in ('codes.toml', 'widths.toml'):
            shutil.copy(os.path.join(EXAMPLES, name), plant.folder)
        stations = ''.join(f'[[station]]\nmember = {other}\nip = "127.0.0.1"\nport = {self.network.port_of(plant.member, other)}\n' for other in MEMBERS)
        with open(plant.path('station.toml'), 'w') as config:
            config.write(f'circuit = 7\nmember = {plant.member}\ntable = "codes.toml"\nwidths = "widths.toml"\nrows = "station.db"\n'
                         f'[folders]\noffers = "offers"\nreleases = "releases"\n{stations}')

    def take_release(self, number, entry):
        if self.released.setdefault(number, entry) != entry:
            raise Wrong(f'TWO STORIES of {number}: {entry} and {self.released[number]}')

    def lay_some(self, plant):
        """Lays a wish into a plant's offers: mostly a number of its own, now and then one that others use too."""
        number = self.chance.choice(NUMBERS) if self.chance.random() < 0.7 else self.chance.choice(NUMBERS[:20])
        what = self.chance.random()
        if what < 0.1:
            plant.lay(f'{number}.withdraw', VOID)
            self.offered.setdefault(number, set()).add(VOID)
        elif what < 0.2 and self.offered:
            plant.lay(f'{self.chance.choice(sorted(self.offered))}.seek', '')
        else:
            story = self.chance.choice(sorted(STORIES))
            plant.lay(f'{number}.tape', story)
            self.offered.setdefault(number, set()).add(story)

    def disturb(self, kills):
        for plant in self.plants:
            plant.start()
            plant.until = time.monotonic() + self.chance.uniform(0, 0.1)
        while self.kills < kills:
            plant = min(self.plants, key=lambda each: each.until)
            self.network.pass_on_until(plant.until)
            if plant.process is None:
                plant.start()
                span = (0, 0.3) if self.chance.random() < 0.3 else (0.5, 4.0)
                plant.until = time.monotonic() + self.chance.uniform(*span)
            else:
                plant.kill()
                self.kills += 1
                for _ in range(self.chance.choice((0, 1, 2))):
                    self.lay_some(plant)
                plant.until = time.monotonic() + self.chance.choice((0, 0, 0.05, 0.3))

    def settle(self):
        """While nothing is lost each offer has to come to its place."""
        self.network.calm = True
        for plant in self.plants:
            if plant.process is None:
                plant.start()
        begun = time.monotonic()
        while any(plant.waits() for plant in self.plants) and time.monotonic() < begun + 120:
            self.network.pass_on_until(time.monotonic() + 0.05)
            for plant in self.plants:
                if plant.process.poll() == 3:
                    plant.kill()
                    plant.start()
        left = {plant.member: plant.waits() for plant in self.plants}
        if any(left.values()):
            raise Wrong(f'two minutes after the last kill there lie in offers {left}')
        self.took = time.monotonic() - begun
        for plant in self.plants:
            plant.see()
            plant.stop()

    def close(self):
        for plant in self.plants:
            if plant.process is not None:
                plant.process.kill()
                plant.process.wait()
        self.network.close()


def main():
    if not 2 <= len(sys.argv) <= 4:
        sys.exit(__doc__)
    program = proved.program(sys.argv[1])
    kills = int(sys.argv[2]) if len(sys.argv) > 2 else 300
    seed = int(sys.argv[3]) if len(sys.argv) > 3 else random.SystemRandom().randrange(1_000_000)
    print(f'seed {seed}', flush=True)
    chance, circuits = random.Random(seed), []
    while (left := kills - sum(circuit.kills for circuit in circuits)) > 0:
        circuit = Circuit(program, chance)
        circuits.append(circuit)
        try:
            circuit.disturb(min(left, KILLS_OF_A_CIRCUIT))
            circuit.settle()
        except Wrong as wrong:
            print(f'{circuit.folder}: {wrong}')
            circuit.close()
            sys.exit(1)
        circuit.close()
        shutil.rmtree(circuit.folder)
    laid = sum(len(plant.laid) for circuit in circuits for plant in circuit.plants)
    rivals = sum(len(circuit.offered.get(number, ())) > 1 for circuit in circuits for number in circuit.released)
    print(f'{sum(circuit.kills for circuit in circuits)} kills in {len(circuits)} circuits; {laid} files were laid into offers, and each came to its place;'
          f' {sum(len(circuit.released) for circuit in circuits)} numbers were released, {rivals} of which were offered as several entries; seed {seed}')
    print(f'the last offer came to its place within {max(circuit.took for circuit in circuits):.1f} s after the last kill')


if __name__ == '__main__':
    main()

#!/usr/bin/env python3
"""What it takes to agree on one number, over 1 to 15 members and some losses.

    bench/loss.py PROGRAM [RUNS] [SEED]

Circuits are simulated through `rehearse`: member 1 offers one story of 7 frames. Each datagram is lost with the chance of its column,
else it comes 10 to 30 milliseconds after it was sent, and each member sees to what is due when that comes. A run goes on until nothing is
under way or due any more. Printed are the means of so many runs (20 where none are given, by seed 1): datagrams sent, their bytes, rows
saved, ballots begun, the milliseconds until the first and until the last release, and of 100 members how many released without a search.

`rehearse` plays a script from its beginning, and only what it prints tells which datagrams there are. So a script grows by 10 milliseconds
at a time: what is sent in them comes later.

The lines of `paper` are what the protocol's table gives where nothing is lost and no ballot is begun anew: a Prepare, a Promise and an Accept for each
other member, an Accepted of each member to all others; two rows saved at each member, one at a member alone.
"""
import heapq
import os
import random
import re
import subprocess
import sys
import tempfile

import proved

HERE = os.path.dirname(os.path.abspath(__file__))
EXAMPLES = os.path.join(HERE, '..', 'examples')
STORY = '01020301030204'
FRAMES = len(STORY) // 2
MEMBERS, LOSSES = range(1, 16), (0, 5, 10, 20, 30)
SOONEST, LATEST = 10, 30
# the bytes of each kind of packet; a Promise that reports a vote has REPORT more
BYTES = {'prepare': 17, 'promise': 18, 'accept': 19 + FRAMES, 'accepted': 19 + FRAMES, 'nack': 22}
REPORT = 7 + FRAMES
# the notes of turns that save a row
SAVING = ('began', 'promised', 'proposed', 'voted')


class Circuit:
    """One number, from its offer until all is quiet."""

    def __init__(self, program, folder, members, loss, chance):
        self.program, self.members, self.loss, self.chance = program, members, loss, chance
        self.path = os.path.join(folder, 'script')
        self.lines, self.out = [f'members {members}'], ''
        # what happens when: a line of the script, and the member that acts
        self.coming = [(0, 0, f'offer 1 12 {STORY}')]
        self.count = 0
        self.voters, self.released = set(), {}
        self.sent = self.bytes = self.saves = self.ballots = 0

    def plan(self, moment, line):
        self.count += 1
        heapq.heappush(self.coming, (moment, self.count, line))

    def piece(self):
        """The lines of the next 10 milliseconds, each with its moment."""
        until, taken = self.coming[0][0] + SOONEST, []
        while self.coming and self.coming[0][0] < until:
            moment, _, line = heapq.heappop(self.coming)
            self.lines += [f'at {moment}', line]
            taken.append(moment)
        return taken

    def play(self):
        """Plays all lines so far, and gives what they newly printed."""
        with open(self.path, 'w') as script:
            script.write('\n'.join(self.lines) + '\n')
        run = subprocess.run(
            [self.program, 'rehearse', f'{EXAMPLES}/codes.toml', f'{EXAMPLES}/widths.toml', self.path],
            capture_output=True, text=True, check=True)
        if not run.stdout.startswith(self.out):
            sys.exit(f'the same lines are played otherwise: {self.path}')
        new = run.stdout[len(self.out):]
        self.out = run.stdout
        return new.splitlines()

    def read(self, moments, printed):
        """Takes what was printed apart: each line of the script prints a first line, which alone begins with a member."""
        member, moment, places = 0, 0, iter(moments)
        for line in printed:
            if line.startswith(' #'):
                self.take_datagram(moment, line.split(), member)
            elif line.startswith(' release '):
                self.released.setdefault(member, moment)
            elif not re.match(r'\d{4} [JLCR] ', line):
                moment = next(places)
                member = int(line.split()[0])
                self.take_note(moment, member, line.split()[1])

    def take_note(self, moment, member, note):
        self.saves += note in SAVING
        # a member alone proposes as it begins
        self.ballots += note == ('proposed' if self.members == 1 else 'began')
        if note in ('began', 'proposed'):
            self.plan(moment + 250 + 40 * member, f'due {member}')
        if note in ('proposed', 'voted'):
            self.voters.add(member)

    def take_datagram(self, moment, words, member):
        self.sent += 1
        kind = words[1]
        self.bytes += BYTES[kind] + (REPORT if kind == 'promise' and member in self.voters else 0)
        if self.chance.random() * 100 >= self.loss:
            self.plan(moment + self.chance.randint(SOONEST, LATEST), f'deliver {words[0][1:]}')

    def run(self):
        while self.coming:
            moments = self.piece()
            self.read(moments, self.play())


def paper(members):
    """Datagrams, bytes and saves of one ballot of which nothing is lost."""
    others = members - 1
    accepteds = members * others
    length = others * (BYTES['prepare'] + BYTES['promise'] + BYTES['accept']) + accepteds * BYTES['accepted']
    return 3 * others + accepteds, length, 2 * members if others else 1


def mean(values):
    values = list(values)
    return sum(values) / len(values) if values else float('nan')


def row(first, cells):
    print(first + ''.join(f'{cell:>10}' for cell in cells))


def measure(program, folder, members, loss, runs, chance):
    circuits = [Circuit(program, folder, members, loss, chance) for _ in range(runs)]
    for circuit in circuits:
        circuit.run()
    agreed = [c for c in circuits if c.released]
    told = mean(len(c.released) for c in circuits) * 100 / members
    row(f'{members:7}{loss:6} %', [
        f'{mean(c.sent for c in circuits):.0f}',
        f'{mean(c.bytes for c in circuits):.0f}',
        f'{mean(c.saves for c in circuits):.1f}',
        f'{mean(c.ballots for c in circuits):.2f}',
        f'{mean(min(c.released.values()) for c in agreed):.0f}',
        f'{mean(max(c.released.values()) for c in agreed):.0f}',
        f'{told:.0f}',
    ])


def main():
    if len(sys.argv) not in (2, 3, 4):
        sys.exit(__doc__)
    program = proved.program(sys.argv[1])
    runs = int(sys.argv[2]) if len(sys.argv) > 2 else 20
    seed = int(sys.argv[3]) if len(sys.argv) > 3 else 1
    chance = random.Random(seed)
    row('members   loss', ['datagrams', 'bytes', 'saves', 'ballots', 'first ms', 'last ms', 'of 100'])
    with tempfile.TemporaryDirectory() as folder:
        for members in MEMBERS:
            row(f'{members:7}  paper', paper(members))
            for loss in LOSSES:
                measure(program, folder, members, loss, runs, chance)
                sys.stdout.flush()
    print(f'{runs} runs each, seed {seed}')


if __name__ == '__main__':
    main()

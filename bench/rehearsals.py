#!/usr/bin/env python3
"""Rehearses random scripts, and looks whether a number ever means two stories.

    bench/rehearsals.py PROGRAM [SCRIPTS] [SEED]

Each script has a circuit of 3 or 5 members, in version 1 or 2, that are offered stories for a few numbers, withdraw and seek them and
see to what is due, whose datagrams are lost, repeated and come in any order, whose saves are refused, which go over to version 2, and
which start again. Then all go over and start again, member 1 seeks each number, and nothing is lost any more. `rehearse` plays a script in pieces, each time from its beginning, since only
what it prints tells which datagrams there are; what it printed before has to be the front of what it prints now.

Of what is printed, all releases of a number must have one tape, which a member was offered for it, set as it sets, or all be of its
withdrawal, which a member was asked for, and which no member takes before it goes over; and each number that was released must be released by all
members at the end. The script that shows otherwise is kept, and named.
"""
import os
import random
import re
import subprocess
import sys
import tempfile

import proved

HERE = os.path.dirname(os.path.abspath(__file__))
EXAMPLES = os.path.join(HERE, '..', 'examples')
# each story in hex, and what it sets as
STORIES = {
    '01020301030204': ['0001 J 0 0 a b _4 a _4 b'],
    '01020301030b04': ['0001 J 0 0 a b _4 a _3 fi'],
    '05020704010b04': ['0001 C 10 11 B', '0002 R 22 0 A'],
}
# the word of a withdrawal, which sets as nothing
VOID = 'void'
SLUGS = {**STORIES, VOID: []}
NUMBERS = (12, 13, 14)
PIECES, STEPS = 8, 25


class Broken(Exception):
    """What a script shows, and must not."""


class Rehearsal:
    def __init__(self, program, folder, members, wire, chance):
        self.program, self.members, self.wire, self.chance = program, members, wire, chance
        self.over = set()
        self.path = os.path.join(folder, 'script')
        self.lines, self.orders, self.out = [f'members {members}', f'wire {wire}'], [], ''
        self.now, self.next, self.sent = 0, 1, 0
        self.offered, self.releases, self.found = {}, {}, {}
        self.count = 0

    def add(self, line):
        """A line that does something."""
        self.lines.append(line)
        self.orders.append(line)

    def wait(self, least, most):
        self.now += self.chance.randint(least, most)
        self.lines.append(f'at {self.now}')

    def play(self):
        """Plays all lines so far, and reads what is printed."""
        with open(self.path, 'w') as script:
            script.write('\n'.join(self.lines) + '\n')
        run = subprocess.run(
            [self.program, 'rehearse', f'{EXAMPLES}/codes.toml', f'{EXAMPLES}/widths.toml', self.path],
            capture_output=True, text=True)
        if run.returncode != 0 or run.stderr:
            raise Broken(f'status {run.returncode}: {run.stderr}')
        if not run.stdout.startswith(self.out):
            raise Broken('the same lines are played otherwise')
        self.out = run.stdout
        self.read(run.stdout.splitlines())

    def read(self, printed):
        """Takes what is printed apart: a first line for each order, then datagrams, a release and its slugs."""
        self.offered, self.releases, self.found = {}, {}, {}
        self.over = set(map(str, range(1, self.members + 1))) if self.wire == 2 else set()
        self.sent = self.count = place = 0
        for order in self.orders:
            member, told = printed[place].split(' ', 1)
            place += 1
            self.take_order(order.split(), member, told)
            while place < len(printed) and printed[place].startswith(' #'):
                self.sent += 1
                if not printed[place].startswith(f' #{self.sent} '):
                    raise Broken(f'datagram {self.sent} is printed as {printed[place]}')
                place += 1
            if place < len(printed) and printed[place].startswith(' release '):
                release, slugs = printed[place], []
                place += 1
                while place < len(printed) and re.match(r'\d{4} [JLCR] ', printed[place]):
                    slugs.append(printed[place])
                    place += 1
                self.take_release(release.split(), member, slugs)
        if place != len(printed):
            raise Broken(f'nothing was ordered that prints {printed[place]}')

    def take_order(self, words, member, told):
        if words[0] in ('restart', 'upgrade'):
            for found in self.found.values():
                found.discard(member)
        if words[0] == 'upgrade':
            # one that was refused may have gone over too
            self.over.add(member)
        if words[0] in ('offer', 'withdraw') and not told.startswith('refused'):
            entry = words[3] if words[0] == 'offer' else VOID
            if entry == VOID and member not in self.over:
                raise Broken(f'{words[2]} is withdrawn in version 1')
            self.offered.setdefault(int(words[2]), set()).add(entry)

    def take_release(self, words, member, slugs):
        number, entry = int(words[1]), words[2]
        self.count += 1
        if entry not in self.offered.get(number, ()):
            raise Broken(f'{number} is released as {entry}, which nobody was offered for it')
        if self.releases.setdefault(number, entry) != entry:
            raise Broken(f'TWO STORIES of {number}: {entry} and {self.releases[number]}')
        if slugs != SLUGS[entry]:
            raise Broken(f'{entry} is set as {slugs}')
        self.found.setdefault(number, set()).add(member)

    def deliver(self):
        """Of the datagram that comes next in order, of one behind it, or of any that was sent."""
        place = self.next + (self.chance.randrange(4) if self.chance.random() < 0.12 else 0)
        if place > self.sent or self.chance.random() < 0.12:
            self.add(f'deliver {self.chance.randint(1, self.sent)}')
        else:
            self.next = place + 1
            self.add(f'deliver {place}')

    def stir(self):
        """A piece of random steps."""
        for _ in range(STEPS):
            member, number = self.chance.randint(1, self.members), self.chance.choice(NUMBERS)
            what = self.chance.random()
            if what < 0.06 or self.sent == 0:
                entry = self.chance.choice(sorted(SLUGS))
                self.add(f'withdraw {member} {number}' if entry == VOID else f'offer {member} {number} {entry}')
            elif what < 0.09:
                self.add(f'seek {member} {number}')
            elif what < 0.15:
                self.add(f'due {member}')
            elif what < 0.18:
                self.add(f'restart {member}')
            elif what < 0.21:
                self.add(f'balk {member} {self.chance.choice(("saved", "unsaved"))}')
            elif what < 0.22:
                self.add(f'upgrade {member}')
            else:
                self.deliver()
            self.wait(0, 99)
        self.play()

    def take_whole(self, line):
        """A step, and all that comes of it."""
        first = self.sent + 1
        self.add(line)
        self.play()
        while first <= self.sent:
            last = self.sent
            for place in range(first, last + 1):
                self.add(f'deliver {place}')
            first = last + 1
            self.play()

    def settle(self):
        """Nothing is lost any more. A save that is still to be refused can put off what is sought, so it is sought again."""
        for _ in range(3):
            for member in range(1, self.members + 1):
                self.add(f'upgrade {member}')
                self.add(f'restart {member}')
            for number in NUMBERS:
                self.take_whole(f'seek 1 {number}')
                self.wait(1000, 1000)
                self.take_whole('due 1')
            if all(len(self.found[number]) == self.members for number in self.releases):
                return
        raise Broken(f'not all members found again what was released: {self.found}')


def main():
    program = proved.program(sys.argv[1])
    scripts = int(sys.argv[2]) if len(sys.argv) > 2 else 100
    seed = int(sys.argv[3]) if len(sys.argv) > 3 else 1
    chance = random.Random(seed)
    folder = tempfile.mkdtemp()
    steps = early = releases = rivals = withdrawn = 0
    for place in range(scripts):
        rehearsal = Rehearsal(program, folder, (3, 5)[place % 2], (1, 2)[place // 2 % 2], chance)
        try:
            for _ in range(PIECES):
                rehearsal.stir()
            early += rehearsal.count
            rehearsal.settle()
        except Broken as broken:
            print(f'script {place + 1}, seed {seed}: {broken}; see {rehearsal.path}')
            return 1
        steps += len(rehearsal.orders)
        releases += rehearsal.count
        rivals += sum(len(rehearsal.offered[number]) > 1 for number in rehearsal.releases)
        withdrawn += sum(entry == VOID for entry in rehearsal.releases.values())
    print(f'{scripts} scripts, {steps} steps, {releases} releases, {early} of them while all was stirred, seed {seed}')
    print(f'no number means two stories; {rivals} that were released were offered as several, {withdrawn} are withdrawn')
    os.remove(rehearsal.path)
    os.rmdir(folder)
    return 0


if __name__ == '__main__':
    sys.exit(main())

"""What a station has told the others of its rows, in all of its lives, and whether its saved rows have all of it."""
import os
import struct
import sys

from kills import VOID, Wrong

sys.path.append(os.path.join(os.path.dirname(os.path.abspath(__file__)), '..', 'contrib', 'plays'))
from datagrams import ACCEPT, ACCEPTED, COUNTS, NACK, NUMBERS_OF_A_PAGE, PAGE, PREPARE, PROMISE, NotSpelled, Packet, Roll, read, unpacked

NONE = (0, 0)


def ballot_of(data):
    """The ballot that the bytes begin with."""
    return struct.unpack_from('>IB', data)


def entry_of(frames):
    """The entry as a release of it would be told."""
    return frames.hex() if frames else VOID


class Told:
    """What a station has told of its rows. That is all that its datagrams stand on: a Prepare and a Promise on a promise, a Nack on the one that it names,
    an Accept, an Accepted and the report of a Promise on a vote, rolls on votes too."""

    def __init__(self, circuit, member):
        self.circuit, self.member, self.count, self.held = circuit, member, 0, 0
        # of each number: the greatest promise, the entries of the votes by their ballots, and each promise with the vote that it reported
        self.promised, self.votes, self.reports = {}, {}, {}
        # the numbers that are told by new datagrams
        self.fresh = set()
        # of each page how many votes it has, and which numbers have one
        self.counts, self.listed = {}, set()

    def take_in(self, to, data):
        """Takes a datagram in that the station has sent to another."""
        try:
            said = read(data)
            if (said.circuit, said.sender, said.to) != (self.circuit, self.member, to):
                raise Wrong(f'station {self.member} sends to {to} what is not between them: {said}')
            self.count += 1
            if isinstance(said, Packet):
                self.take_packet(said)
            elif isinstance(said, Roll):
                self.take_roll(said)
        except (NotSpelled, struct.error) as fault:
            raise Wrong(f'station {self.member} sends what is no datagram: {data.hex()}') from fault

    def take_roll(self, roll):
        """Takes in what a roll counts, or lists."""
        if roll.kind == COUNTS:
            for page, count in enumerate(roll.told):
                self.counts[page] = max(count, self.counts.get(page, 0))
        elif roll.kind == PAGE:
            self.listed.update(roll.told)

    def take_packet(self, packet):
        """Takes in what a packet stands on."""
        number, promise = packet.number, packet.ballot
        if packet.kind in (PREPARE, ACCEPT) and promise[1] != self.member:
            raise Wrong(f'station {self.member} asks at a ballot of another: {packet}')
        if packet.kind in (ACCEPT, ACCEPTED):
            self.take_vote(number, promise, entry_of(packet.frames))
        elif packet.kind == PROMISE:
            self.take_report(packet)
        elif packet.kind == NACK:
            promise = ballot_of(packet.rest)
        self.promised[number] = max(promise, self.promised.get(number, NONE))
        self.fresh.add(number)

    def take_report(self, packet):
        """Takes in the vote that a Promise reports, or that it reports none."""
        report = NONE
        if packet.rest[:1] == b'\1':
            report = ballot_of(packet.rest[1:])
            self.take_vote(packet.number, report, entry_of(unpacked(packet.rest[6:])))
        self.reports.setdefault(packet.number, []).append((packet.ballot, report))

    def take_vote(self, number, ballot, entry):
        """Takes a vote in."""
        if self.votes.setdefault(number, {}).setdefault(ballot, entry) != entry:
            raise Wrong(f'station {self.member} tells two votes of {number} at {ballot}: {entry} and {self.votes[number][ballot]}')

    def hold(self, rows):
        """Holds all that was told against the saved rows of the station."""
        for number, ballot in self.promised.items():
            row = rows.get(number)
            if row is None or row.promised < ballot:
                raise Wrong(f'SENT AND NOT SAVED: station {self.member} has told of {number} that it promised {ballot}, and its row is {row}')
        for number, votes in self.votes.items():
            self.hold_votes(number, votes, rows.get(number))
        self.hold_rolls({number for number, row in rows.items() if row.vote})
        for number in self.fresh:
            self.hold_reports(number)
        self.fresh.clear()
        self.held = self.count

    def hold_votes(self, number, votes, row):
        """The row has the greatest vote that was told, or a greater one; and where it has one that was told, with that entry."""
        last = max(votes)
        if row is None or row.vote is None or not last <= row.vote <= row.promised or votes.get(row.vote, row.entry) != row.entry:
            raise Wrong(f'SENT AND NOT SAVED: station {self.member} has told of {number} that it voted at {last} for {votes[last]}, and its row is {row}')

    def hold_rolls(self, voted):
        """A number that was told to have a vote has one, and a page has as many as were told."""
        if lacked := self.listed - voted:
            raise Wrong(f'SENT AND NOT SAVED: station {self.member} has told that it has votes of {sorted(lacked)[:9]}, and its rows have none')
        for page, count in self.counts.items():
            saved = sum(number // NUMBERS_OF_A_PAGE == page for number in voted) if count else 0
            if saved < count:
                raise Wrong(f'SENT AND NOT SAVED: station {self.member} has told of {count} votes on page {page}, and its rows have {saved}')

    def hold_reports(self, number):
        """A Promise reports the greatest vote below it that was ever told: after it there is no other vote below it."""
        for promise, report in self.reports.get(number, ()):
            below = max((ballot for ballot in self.votes.get(number, ()) if ballot < promise), default=NONE)
            if below > report:
                raise Wrong(f'FORGOTTEN: station {self.member} reports of {number} the vote {report} as it promises {promise}, and told of one at {below}')

"""A vote told again: what a plant answers and asks, what it refuses, and how it heals. Members that are not up are played by this process."""
import os
import re
import threading
import time

import datagrams
import plants
import stage
from datagrams import ACCEPT, ACCEPTED, PREPARE, PROMISE, Packet, Recall, Roll
from folders import told

CIRCUIT = 7
ALL = (1, 2, 3)
# a refusal is told at most once in so many seconds
TOLD = 1


class Voice:
    """A member that this process plays, at its address."""

    def __init__(self, member, ports):
        self.member, self.ports, self.socket = member, ports, stage.udp()
        self.socket.bind(('127.0.0.1', ports[member - 1]))

    def __enter__(self):
        return self

    def __exit__(self, *_):
        self.socket.close()

    def say(self, to, data):
        """Sends bytes to a member."""
        self.socket.sendto(data, ('127.0.0.1', self.ports[to - 1]))

    def speak(self, to, kind, number, ballot, frames=None):
        """Sends a packet to a member."""
        rest = b'' if frames is None else datagrams.packed(frames)
        self.say(to, datagrams.spell(Packet(kind, CIRCUIT, self.member, to, number, ballot, rest)))

    def recall(self, to, *numbers):
        """Asks a member for its votes of these numbers."""
        self.say(to, datagrams.spell_recall(Recall(CIRCUIT, self.member, to, 0, numbers)))

    def heard(self):
        """The bytes that come next."""
        return self.socket.recv(65536)

    def next(self, until, rolls=False):
        """What comes next, as it is read, or None where nothing comes until then. Rolls, which come by themselves, are passed over unless they
        are waited for."""
        while True:
            self.socket.settimeout(max(0.001, until - time.monotonic()))
            try:
                said = datagrams.read(self.heard())
            except TimeoutError:
                return None
            if rolls or not isinstance(said, Roll):
                return said

    def all(self, seconds):
        """All that comes in so many seconds."""
        until, heard = time.monotonic() + seconds, []
        while (said := self.next(until)) is not None:
            heard.append(said)
        return heard

    def packets(self, seconds):
        """All packets among that: what a plant asks for by itself comes the sooner the slower it is."""
        return [said for said in self.all(seconds) if isinstance(said, Packet)]

    def hears(self, sender, kind, number):
        """The next packet of a member, of a kind and a number."""
        until = time.monotonic() + stage.SECONDS
        while (said := self.next(until)) is not None:
            if isinstance(said, Packet) and (said.sender, said.kind, said.number) == (sender, kind, number):
                return said
        raise stage.Wrong(f'member {self.member} heard no packet {kind} of {number} from {sender}')

    def is_asked(self):
        """The next recall."""
        until = time.monotonic() + stage.SECONDS
        while (said := self.next(until)) is not None:
            if isinstance(said, Recall):
                return said
        raise stage.Wrong(f'member {self.member} heard no recall')

    def has_promised(self, to, number):
        """Has a member promise the first ballot of this one."""
        self.speak(to, PREPARE, number, (1, self.member))
        self.hears(to, PROMISE, number)

    def has_voted(self, to, number, frames):
        """Has a member vote for a tape by the first ballot of this one; the vote as it is told."""
        self.has_promised(to, number)
        self.speak(to, ACCEPT, number, (1, self.member), frames)
        return self.hears(to, ACCEPTED, number)

    def votes(self, to, number, ballot, frames):
        """Tells a member a vote of this one's own."""
        self.speak(to, ACCEPTED, number, ballot, frames)


def of_two(ports, *members):
    """The voices of two members."""
    return [Voice(member, ports) for member in members]


def is_released(at, member, number):
    """A plant has the story of a number, and has told it."""
    story = at.read('flood.tape')
    stage.within(lambda: at.read(f'releases{member}/{number}.galley') == stage.GALLEY.encode(),
                 lambda: f'plant {member} has {number}: {told(at, f"log{member}")}')
    stage.wants(at.read(f'releases{member}/{number}.tape') == story, f'{number}.tape of plant {member}')
    stage.within(lambda: f'{number} released' in told(at, f'log{member}'), lambda: f'{told(at, f"log{member}")}')


def ends(at, member, plant):
    """A plant ends well, by a file that does not wait for its next start."""
    plants.lay(at, member, 'stop', b'')
    stage.wants(plant.wait(stage.SECONDS) == 0, f'plant {member} ended with {plant.returncode}: {told(at, f"log{member}")}')
    os.remove(at.path(f'offers{member}/stop'))


def rows(at, member):
    """The bytes of the row file of a plant and of its log."""
    return at.read(f'plant{member}.db'), at.read(f'plant{member}.db-wal')


def told_again(at):
    """A plant tells a vote again to the member that asks for it, and to no other; of a number without a vote it says nothing, and its rows
    stay as they were."""
    ports, story = plants.configure(at), at.read('flood.tape')
    plants.bring_up(at, ports, (1,))
    second, third = of_two(ports, 2, 3)
    with second, third:
        vote = second.has_voted(1, 12, story)
        stage.wants(vote == Packet(ACCEPTED, CIRCUIT, 1, 2, 12, (1, 2), datagrams.packed(story)), f'{vote}')
        second.has_promised(1, 13)
        third.hears(1, ACCEPTED, 12)
        held = rows(at, 1)
        second.recall(1, 11, 12, 13)
        heard = [second.hears(1, ACCEPTED, 12), *second.packets(1)]
        stage.wants(heard == [vote], f'{heard}')
        stage.wants(third.packets(0.1) == [], 'the third member was told too')
        third.recall(1, 12)
        heard = [third.hears(1, ACCEPTED, 12), *third.packets(1)]
        stage.wants(heard == [vote._replace(to=3)], f'{heard}')
        stage.wants(rows(at, 1) == held, 'a row was saved')


def changed(data, place, byte):
    """The bytes with another one at a place."""
    return data[:place] + bytes((byte,)) + data[place + 1:]


def refusals(sender, to, other):
    """A datagram for each word that a plant tells of a recall that it refuses, in the order in which it looks for them. What has another mark
    is no recall."""
    good = datagrams.spell_recall(Recall(CIRCUIT, sender, to, 0, (12,)))
    return [
        ('short', good[:16]),
        ('bad-version', changed(good, 2, 2)),
        ('bad-kind', changed(good, 3, 6)),
        ('bad-member', changed(good, 7, 0)),
        ('bad-count', changed(good, 12, 65)),
        ('bad-number', datagrams.spell_recall(Recall(CIRCUIT, sender, to, 0, (0,)))),
        ('bad-order', datagrams.spell_recall(Recall(CIRCUIT, sender, to, 0, (12, 12)))),
        ('long', good + b'\0'),
        ('wrong-circuit', datagrams.spell_recall(Recall(CIRCUIT + 1, sender, to, 0, (12,)))),
        ('not-for-me', datagrams.spell_recall(Recall(CIRCUIT, sender, other, 0, (12,)))),
    ]


def tells(at, voice, member, what, name, data):
    """A plant tells why it refuses a datagram. It is sent again where nothing is told: the plant may have been kept from its work between its look
    at the clock and what came then, so that it counted that within the second of the last."""
    line = re.compile(rf'{what}: refused {name}, \d+ since the last')
    count = lambda: sum(line.fullmatch(each) is not None for each in told(at, f'log{member}'))
    before, until = count(), time.monotonic() + stage.SECONDS
    while count() == before:
        stage.wants(time.monotonic() < until, f'plant {member} tells {name}: {told(at, f"log{member}")}')
        voice.say(member, data)
        again = time.monotonic() + 3 * TOLD
        while count() == before and time.monotonic() < again:
            time.sleep(0.01)


def refused(at):
    """A plant tells why it refuses a recall, and nothing comes of one: no answer, and no row."""
    ports, story = [stage.free_port() for _ in range(4)], at.read('flood.tape')
    for member in ALL:
        plants.write_config(at, member, ports)
    plants.bring_up(at, ports, ALL)
    with Voice(4, ports) as fourth:
        for member in ALL:
            fourth.has_voted(member, 12, story)
        for member in ALL:
            is_released(at, member, 12)
        held = {member: rows(at, member) for member in ALL}
        fourth.all(0.2)
        # A plant each has the first, the second and the third third of them, so that it takes a third of the time.
        rounds = -(-len(refusals(4, 1, 2)) // len(ALL))
        for place in range(rounds):
            for member in ALL:
                for name, data in refusals(4, member, member % 3 + 1)[place + rounds * (member - 1):][:1]:
                    tells(at, fourth, member, 'recall', name, data)
            time.sleep(TOLD + 0.1)
        stage.wants(fourth.packets(0.1) == [], 'a recall that was refused is answered')
    for member in ALL:
        stage.wants(rows(at, member) == held[member], f'plant {member} has saved a row')


def refusals_told(at):
    """The lines by which plant 1 tells of recalls that it refused: the word of the last of them, and how many they were."""
    found = [re.fullmatch(r'recall: refused (\S+), (\d+) since the last', line) for line in told(at, 'log1')]
    return [(line[1], int(line[2])) for line in found if line]


def counted(at):
    """Of recalls that are refused one line is told in a second, with how many they were."""
    ports = plants.configure(at)
    plants.bring_up(at, ports, (1,))
    with Voice(2, ports) as second:
        began = time.monotonic()
        for _ in range(5):
            second.say(1, datagrams.spell_recall(Recall(CIRCUIT + 1, 2, 1, 0, (12,))))
        stage.within(lambda: refusals_told(at), 'the first is told')
        time.sleep(TOLD + 0.2)
        sent = 5
        while sum(count for _, count in refusals_told(at)) < 6:
            second.say(1, datagrams.spell_recall(Recall(CIRCUIT, 2, 3, 0, (12,))))
            sent += 1
            stage.wants(sent < stage.SECONDS, f'each is counted: {told(at, "log1")}')
            time.sleep(TOLD + 0.2)
        lines, seconds = refusals_told(at), time.monotonic() - began
        stage.wants(lines[0] == ('wrong-circuit', 1) and lines[-1][0] == 'not-for-me', f'{lines}')
        stage.wants(sum(count for _, count in lines) <= sent and len(lines) <= 2 + seconds / TOLD, f'{lines} of {sent} in {seconds} seconds')


def a_vote_was_lost(at):
    """A plant that has a vote of a number, and did not hear that of another, asks all others for it; what they answer is released."""
    ports, story = plants.configure(at), at.read('flood.tape')
    plants.bring_up(at, ports, (3,))
    first, second = of_two(ports, 1, 2)
    with first, second:
        began = time.monotonic()
        first.has_voted(3, 12, story)
        for voice in (first, second):
            asked = voice.is_asked()
            stage.wants(asked == Recall(CIRCUIT, 3, voice.member, asked.nonce, (12,)), f'{asked}')
        # 5 seconds of its clock, which it may have read some time before the number came.
        stage.wants(time.monotonic() - began > 3, 'it asked before it had known the number for 5 seconds')
        stage.wants(at.read('releases3/12.galley') is None, 'its own vote alone was released')
        first.votes(3, 12, (1, 1), story)
        is_released(at, 3, 12)


def was_down(at):
    """Plant 3 has a row of number 12, and is down while the others release a story under it; gives the ports."""
    ports, story = plants.configure(at), at.read('flood.tape')
    plant, = plants.bring_up(at, ports, (3,))
    with Voice(1, ports) as first:
        first.has_promised(3, 12)
    ends(at, 3, plant)
    plants.bring_up(at, ports, (1, 2))
    plants.lay(at, 1, '12.tape', story)
    for member in (1, 2):
        is_released(at, member, 12)
    return ports


def heals(at):
    """A plant that was down while a number was released, and has a row of it, has the story soon after its start; nothing asks for it."""
    ports = was_down(at)
    plants.bring_up(at, ports, (3,), making='')
    is_released(at, 3, 12)
    stage.wants(os.listdir(at.path('offers3')) in ([], ['.circuitd']), f'{os.listdir(at.path("offers3"))}')


def with_votes(at, ports, numbers):
    """A plant that has a vote of each of these numbers, of which none was released, and has ended."""
    plant, = plants.bring_up(at, ports, (1,))
    with Voice(2, ports) as second:
        for number in numbers:
            second.has_voted(1, number, at.read('flood.tape'))
    ends(at, 1, plant)


def tells_at_its_start(at, ports, *lines):
    """A plant that starts over its rows tells this and no more, and ends."""
    plant, = plants.bring_up(at, ports, (1,), making='')
    stage.within(lambda: len(told(at, 'log1')) >= len(lines), lambda: f'{told(at, "log1")} are {lines}')
    time.sleep(0.5)
    stage.wants(told(at, 'log1') == [*lines], f'{told(at, "log1")} and not {lines}')
    ends(at, 1, plant)


def asks_for_64_at_a_time(at):
    """A plant asks for what it misses 64 numbers at a time, for those again that were told and are not released yet, and for others then."""
    ports, story, numbers = plants.configure(at), at.read('flood.tape'), range(1, 71)
    with_votes(at, ports, numbers)
    plants.bring_up(at, ports, (1,), making='')
    with Voice(2, ports) as second:
        asked = []
        while len(set(sum(asked, ()))) < len(numbers):
            asked.append(second.is_asked().numbers)
            for number in asked[-1]:
                second.votes(1, number, (1, 2), story)
        stage.wants(asked[0] == (*range(1, 65),), f'{asked[0]}')
        stage.wants(set(sum(asked, ())) == set(numbers), f'{asked}')
        wanted = {f'{number}.galley' for number in numbers}
        stage.within(lambda: wanted <= set(os.listdir(at.path('releases1'))), 'the plant has each story')


def forgets(at):
    """A plant keeps nothing of what went out, as one before it kept any."""
    os.remove(at.path('releases1/.released'))


def missing_from_before(at):
    """The first start that keeps what went out tells which numbers may be missing from before: those that have a row and no file among the
    releases or among what was sent. It is told once."""
    ports = plants.configure(at)
    with_votes(at, ports, (*range(41, 61), 97))
    forgets(at)
    tells_at_its_start(at, ports, '21 may be missing from before: 41-60.seek, 97.seek')
    tells_at_its_start(at, ports)
    at.write('releases1/97.tape', at.read('flood.tape'))
    os.makedirs(at.path('offers1/sent'), exist_ok=True)
    at.write('offers1/sent/50.tape', at.read('flood.tape'))
    forgets(at)
    tells_at_its_start(at, ports, '19 may be missing from before: 41-49.seek, 51-60.seek')


def many_missing_from_before(at):
    """Of more than 20 ranges the first 20 are told."""
    ports = plants.configure(at)
    with_votes(at, ports, range(1, 45, 2))
    forgets(at)
    ranges = ', '.join(f'{number}.seek' for number in range(1, 40, 2))
    tells_at_its_start(at, ports, f'22 may be missing from before: {ranges}, ..')


def what_went_out(at, member=1):
    """The numbers that a plant of three keeps as gone out."""
    whose, numbers = datagrams.read_released(at.read(f'releases{member}/.released') or b'')
    stage.wants(whose == (CIRCUIT, member, 3), f'{whose}')
    return numbers


def asks_for_no_release(at):
    """After a restart a plant asks for the number that did not go out, and not for the one that did."""
    ports, story = plants.configure(at), at.read('flood.tape')
    plant, = plants.bring_up(at, ports, (1,))
    with Voice(2, ports) as second:
        for number in (12, 13):
            second.has_voted(1, number, story)
        second.votes(1, 12, (1, 2), story)
        is_released(at, 1, 12)
        ends(at, 1, plant)
        stage.wants(what_went_out(at) == [12], f'{what_went_out(at)}')
        second.all(0.1)
        plants.bring_up(at, ports, (1,), making='')
        asked = [*second.is_asked().numbers]
        for said in second.all(3):
            asked += said.numbers if isinstance(said, Recall) else (said.number,)
        stage.wants(set(asked) == {13}, f'{asked}')
        stage.wants('12 released' not in told(at, 'log1'), f'{told(at, "log1")}')


def a_record_cut_short(at):
    """What a kill leaves of a record hides none that comes behind it."""
    ports, story = plants.configure(at), at.read('flood.tape')
    plant, = plants.bring_up(at, ports, (1,))
    second = Voice(2, ports)
    with second:
        for number in (12, 13):
            second.has_voted(1, number, story)
        second.votes(1, 12, (1, 2), story)
        is_released(at, 1, 12)
        ends(at, 1, plant)
        with open(at.path('releases1/.released'), 'ab') as file:
            file.write(b'\0\0\0\x0d\xff')
        plant, = plants.bring_up(at, ports, (1,), making='')
        second.votes(1, 13, (1, 2), story)
        second.is_asked()
        second.votes(1, 13, (1, 2), story)
        is_released(at, 1, 13)
        ends(at, 1, plant)
    stage.wants(what_went_out(at) == [12, 13], f'{what_went_out(at)}')


def of_another_circuit(at):
    """What went out in another circuit is set aside, and nothing of it counts here."""
    ports = plants.configure(at)
    with_votes(at, ports, (12,))
    other = datagrams.spell_released(CIRCUIT + 1, 1, 3, [12, 13])
    at.write('releases1/.released', other)
    plant, = plants.bring_up(at, ports, (1,), making='')
    lines = ['folders: releases has .released of another station, which was set aside', '1 may be missing from before: 12.seek']
    stage.within(lambda: sorted(told(at, 'log1')) == sorted(lines), lambda: f'{told(at, "log1")}')
    stage.wants(what_went_out(at) == [12], f'{what_went_out(at)}')
    aside = [name for name in os.listdir(at.path('releases1')) if at.read(f'releases1/{name}') == other]
    stage.wants(len(aside) == 1, f'{os.listdir(at.path("releases1"))}')
    ends(at, 1, plant)


def send_on(third, over):
    """Sends recalls of 64 numbers to plants 1 and 2 until this is over."""
    data = [(to, datagrams.spell_recall(Recall(CIRCUIT, 3, to, 0, tuple(range(1, 65))))) for to in (1, 2)]
    while not over.is_set():
        for to, each in data:
            third.say(to, each)


def a_flood_of_recalls(at):
    """Recalls as fast as a member can send them keep no story waiting: each comes out while they go on."""
    ports = plants.configure(at)
    plants.bring_up(at, ports, (1, 2))
    over = threading.Event()
    with Voice(3, ports) as third:
        flood = threading.Thread(target=send_on, args=(third, over))
        flood.start()
        try:
            for number in range(101, 106):
                plants.lay(at, 1, f'{number}.tape', at.read('flood.tape'))
                for member in (1, 2):
                    is_released(at, member, number)
        finally:
            over.set()
            flood.join()


PLAYS = [
    told_again,
    refused,
    counted,
    a_vote_was_lost,
    heals,
    missing_from_before,
    many_missing_from_before,
    asks_for_64_at_a_time,
    asks_for_no_release,
    a_record_cut_short,
    of_another_circuit,
    a_flood_of_recalls,
]

"""Roll calls: a plant that was off catches up by itself, what a plant answers and asks, and what it refuses."""
import time

import datagrams
import plants
import stage
from datagrams import COUNTS, COUNTS_ASKED, PAGE, PAGE_ASKED, Roll
from folders import told
from recalls import CIRCUIT, TOLD, Voice, changed, ends, forgets, is_released, of_two, rows, tells, tells_at_its_start

# how many stories a plant misses
MISSED = 30
# a member is answered so often in a second at most
ANSWERS_A_SECOND = 8
# longer than it takes until a plant that asks has asked for what it lacks, in seconds
ASKS = 9


class Roller(Voice):
    """A member that this process plays, which hears rolls too."""

    def roll(self, to, kind, nonce=0, page=0, told=()):
        """Sends a roll to a member."""
        self.say(to, datagrams.spell_roll(Roll(kind, CIRCUIT, self.member, to, nonce, page, told)))

    def hears_roll(self, kind, nonce=None):
        """The next roll of a kind, and of a number of the asker's where one is given."""
        until = time.monotonic() + stage.SECONDS
        while (said := self.next(until, rolls=True)) is not None:
            if isinstance(said, Roll) and said.kind == kind and nonce in (None, said.nonce):
                return said
        raise stage.Wrong(f'member {self.member} heard no roll of kind {kind}')

    def answers(self, to, pages, seconds):
        """Answers what is asked by rolls for so many seconds: how many numbers these pages have, and which; the pages that were asked for."""
        until, asked = time.monotonic() + seconds, []
        while (said := self.next(until, rolls=True)) is not None:
            if isinstance(said, Roll) and said.kind == COUNTS_ASKED:
                self.roll(to, COUNTS, said.nonce, told=tuple(len(pages.get(page, ())) for page in range(datagrams.PAGES)))
            elif isinstance(said, Roll) and said.kind == PAGE_ASKED:
                asked.append(said.page)
                self.roll(to, PAGE, said.nonce, said.page, pages.get(said.page, ()))
        return asked

    def answers_all(self, to, pages):
        """The same until each of these pages was asked for, and a second longer."""
        until, asked = time.monotonic() + stage.SECONDS, []
        while not set(pages) <= set(asked) and time.monotonic() < until:
            asked += self.answers(to, pages, 0.1)
        return asked + self.answers(to, pages, 1)


def absent(at):
    """A plant that was off while stories went out has them soon after its start, and tells it; nobody asks for them."""
    ports, story = plants.configure(at), at.read('flood.tape')
    plant, = plants.bring_up(at, ports, (3,))
    ends(at, 3, plant)
    plants.bring_up(at, ports, (1, 2))
    for number in range(1, MISSED + 1):
        plants.lay(at, 1, f'{number}.tape', story)
    for member in (1, 2):
        for number in range(1, MISSED + 1):
            is_released(at, member, number)
    held = {member: rows(at, member) for member in (1, 2)}
    plants.bring_up(at, ports, (3,), words='', making='')
    for number in range(1, MISSED + 1):
        is_released(at, 3, number)
    stage.within(lambda: f'caught up: {MISSED} released, 0 nothing' in told(at, 'log3'), lambda: f'{told(at, "log3")}')
    stage.wants(f'1-{MISSED} missed, asked for' in told(at, 'log3'), f'{told(at, "log3")}')
    for member in (1, 2):
        stage.wants(rows(at, member) == held[member], f'plant {member} has saved a row')


def what_it_answers(at):
    """A plant tells how many numbers of each page it has a vote of, and which, by the number of the asker's; of a promise it tells nothing."""
    ports, story = plants.configure(at), at.read('flood.tape')
    plants.bring_up(at, ports, (1,))
    with Roller(2, ports) as second:
        for number in (1, 12, 8192, 999_999):
            second.has_voted(1, number, story)
        second.has_promised(1, 13)
        held = rows(at, 1)
        second.roll(1, COUNTS_ASKED, 77)
        counts = second.hears_roll(COUNTS, 77)
        wanted = {0: 2, 1: 1, 122: 1}
        stage.wants(counts.told == tuple(wanted.get(page, 0) for page in range(datagrams.PAGES)), f'{counts}')
        for page, numbers in ((0, (1, 12)), (1, (8192,)), (2, ()), (122, (999_999,))):
            second.roll(1, PAGE_ASKED, 80 + page, page)
            said = second.hears_roll(PAGE, 80 + page)
            stage.wants((said.page, said.told) == (page, numbers), f'{said}')
        stage.wants(rows(at, 1) == held, 'a row was saved')


def what_it_asks(at):
    """At its start a plant asks each other for its counts, and for the pages that have a vote there, the lowest first."""
    ports = plants.configure(at)
    second, third = Roller(2, ports), Roller(3, ports)
    with second, third:
        plants.bring_up(at, ports, (1,))
        for voice in (second, third):
            asked = voice.hears_roll(COUNTS_ASKED)
            stage.wants((asked.sender, asked.to) == (1, voice.member), f'{asked}')
        asked = second.answers_all(1, {2: (2 * 8192,), 5: (5 * 8192 + 3,)})
        stage.wants(asked == [2, 5], f'{asked}')
        recalled = third.is_asked().numbers
        while recalled[-1] < 5 * 8192:
            recalled += third.is_asked().numbers
        stage.wants(set(recalled) == {2 * 8192, 5 * 8192 + 3}, f'{recalled}')


def heals_what_a_page_tells(at):
    """Of a number that a page tells a plant asks all others for their votes at once, and releases what they agree on."""
    ports, story = plants.configure(at), at.read('flood.tape')
    second, third = Roller(2, ports), Roller(3, ports)
    with second, third:
        plants.bring_up(at, ports, (1,))
        second.answers_all(1, {0: (12,)})
        stage.wants(third.is_asked().numbers == (12,), 'the third member is asked')
        for voice in (second, third):
            voice.votes(1, 12, (1, 2), story)
        is_released(at, 1, 12)


def refusals(sender, to, other):
    """A datagram for each word that a plant tells of a roll that it refuses, in the order in which it looks for them."""
    counts = datagrams.spell_roll(Roll(COUNTS, CIRCUIT, sender, to, 0, told=(0,) * datagrams.PAGES))
    page = datagrams.spell_roll(Roll(PAGE, CIRCUIT, sender, to, 0, 122, (999_999,)))
    asked = datagrams.spell_roll(Roll(COUNTS_ASKED, CIRCUIT, sender, to, 0))
    page_asked = datagrams.spell_roll(Roll(PAGE_ASKED, CIRCUIT, sender, to, 0, 122))
    return [
        ('short', asked[:11]),
        ('bad-version', changed(asked, 2, 2)),
        ('bad-member', changed(asked, 7, 0)),
        ('bad-count', changed(counts, 12, 0x20)),
        ('bad-page', changed(page, 12, 123)),
        ('bad-page', changed(changed(page_asked, 12, 123), 16, 1)),
        ('bad-pad', changed(asked, 12, 1)),
        ('bad-pad', changed(page_asked, 16, 1)),
        ('bad-bits', changed(page, 13 + 576 // 8, 1)),
        ('short', counts[:-1]),
        ('short', page_asked[:-1]),
        ('long', asked + b'\0'),
        ('wrong-circuit', datagrams.spell_roll(Roll(COUNTS_ASKED, CIRCUIT + 1, sender, to, 0))),
        ('not-for-me', datagrams.spell_roll(Roll(COUNTS_ASKED, CIRCUIT, sender, other, 0))),
    ]


def refused(at):
    """A plant tells why it refuses a roll, and nothing comes of one: no answer, and no row."""
    ports = plants.configure(at)
    plants.bring_up(at, ports, (1,))
    with Roller(2, ports) as second:
        held = rows(at, 1)
        for name, data in refusals(2, 1, 3):
            tells(at, second, 1, 'roll', name, data)
            time.sleep(TOLD + 0.1)
        stage.wants(rows(at, 1) == held, 'a row was saved')


def eight_a_second(at):
    """A member is answered eight times in a second at most, however often it asks."""
    ports = plants.configure(at)
    plants.bring_up(at, ports, (1,))
    with Roller(2, ports) as second:
        second.hears_roll(COUNTS_ASKED)
        began, heard = time.monotonic(), 0
        while (seconds := time.monotonic() - began) < 3 or heard < ANSWERS_A_SECOND and seconds < stage.SECONDS:
            second.roll(1, COUNTS_ASKED, 5)
            said = second.next(time.monotonic() + 0.01, rolls=True)
            heard += isinstance(said, Roll) and said.kind == COUNTS
        seconds = time.monotonic() - began
        stage.wants(ANSWERS_A_SECOND <= heard <= (2 + seconds) * ANSWERS_A_SECOND, f'{heard} answers in {seconds} seconds')


def off(at):
    """Where catching up is off a plant asks for nothing, and answers."""
    ports, story = plants.configure(at), at.read('flood.tape')
    config = at.read('plant1.toml').replace(b'[[station]]', b'[catch_up]\noff = true\n[[station]]', 1)
    at.write('plant1.toml', config)
    second, third = of_two(ports, 2, 3)
    second = Roller(2, ports) if second.socket.close() is None else second
    with second, third:
        plants.bring_up(at, ports, (1,))
        second.has_voted(1, 12, story)
        second.roll(1, COUNTS_ASKED, 9)
        stage.wants(second.hears_roll(COUNTS, 9).told[0] == 1, 'it tells its votes')
        until, heard = time.monotonic() + ASKS, []
        while (said := third.next(until)) is not None:
            heard.append(said)
        stage.wants(not any(isinstance(said, datagrams.Recall) for said in heard), f'{heard}')
        until = time.monotonic() + 0.5
        while (said := second.next(until, rolls=True)) is not None:
            stage.wants(not isinstance(said, Roll), f'{said}')


def only_once_a_new_voter(at):
    """A number that one member voted for and nobody chose is searched once; again, once another member is known to have a vote."""
    ports, story = plants.configure(at), at.read('flood.tape')
    plants.bring_up(at, ports, (1, 3))
    with Roller(2, ports) as second:
        second.answers_all(1, {0: (12,)})
        nothing = lambda: [line.split()[0] for line in told(at, 'log1') if 'nothing' in line]
        stage.within(lambda: nothing() == ['caught'], lambda: f'{told(at, "log1")}')
        second.answers(1, {0: (12,)}, 12)
        stage.wants(nothing() == ['caught'], f'{told(at, "log1")}')


def missing_from_before(at):
    """At the first start that keeps what went out, over rows, what others tell is not asked for but told, once a majority told."""
    ports, story = plants.configure(at), at.read('flood.tape')
    plant, = plants.bring_up(at, ports, (1,))
    with Roller(2, ports) as second:
        second.has_voted(1, 5, story)
        ends(at, 1, plant)
        forgets(at)
        plant, = plants.bring_up(at, ports, (1,), words='', making='')
        second.answers_all(1, {0: (*range(41, 61), 97)})
        stage.within(lambda: '21 may be missing from before: 41-60.seek, 97.seek' in told(at, 'log1'), lambda: f'{told(at, "log1")}')
        stage.wants(not any('missed, asked for' in line for line in told(at, 'log1')), f'{told(at, "log1")}')
        ends(at, 1, plant)
    tells_at_its_start(at, ports)


PLAYS = [
    absent,
    what_it_answers,
    what_it_asks,
    heals_what_a_page_tells,
    refused,
    eight_a_second,
    off,
    only_once_a_new_voter,
    missing_from_before,
]

"""How a file leaves the offers of a plant, and where it goes."""
import os
import signal

import plants
import stage
from folders import ALL, holds, is_released, lay, lies, told, up

STORY, OTHER = 'flood.tape', 'harvest.tape'
STANDS = b'release 12 01020301030204\n'


def sent(at):
    """A story that stands under its number is sent, and told where all is."""
    at.plant('plant.toml', 'plant.db')
    up(at, ALL)
    lay(at, '12.tape', at.read(STORY))
    lies(at, 'offers/sent/12.tape')
    is_released(at, 12)
    stage.within(lambda: told(at) == ['12 released', '12 sent'], lambda: f'{told(at)}')


def late(at):
    """Under a number that was released the same story is sent too, and another is lost, with a text beside it that says what stands there."""
    at.plant('plant.toml', 'plant.db')
    up(at)
    lay(at, '12.tape', at.read(STORY))
    lies(at, 'offers/sent/12.tape')
    lay(at, '12.tape', at.read(STORY))
    lies(at, 'offers/sent/12.tape.2')
    lay(at, '12.tape', at.read(OTHER))
    lies(at, 'offers/lost/12.tape')
    holds(at, 'offers/lost/12.tape', at.read(OTHER))
    holds(at, 'offers/lost/12.tape.txt', STANDS)
    lay(at, '12.withdraw')
    lies(at, 'offers/lost/12.withdraw')
    lay(at, '12.seek')
    lies(at, 'offers/sent/12.seek')
    is_released(at, 12)


def refused(at):
    """What is no offer goes to `refused`, with its reason beside it; what it named is free."""
    at.plant('plant.toml', 'plant.db')
    up(at)
    lay(at, '12.tape', b'\x40')
    lies(at, 'offers/refused/12.tape.txt')
    lies(at, 'offers/refused/12.tape')
    holds(at, 'offers/refused/12.tape', b'\x40')
    lay(at, '12.tape', at.read('overset.tape'))
    lies(at, 'offers/refused/12.tape.2')
    lay(at, '12.tape', at.read(STORY))
    lies(at, 'offers/sent/12.tape')
    is_released(at, 12)


def come(at, *names):
    """Waits until these files lie there."""
    for name in names:
        stage.within(lambda name=name: os.path.lexists(at.path(name)), f'{name} lies there')


def lay_at_first(at, name, data=b''):
    """Lays a file among the offers of the first of three plants."""
    plants.lay(at, 1, name, data)


def looks_again(at):
    """Waits until the first of three plants has looked at its offers twice: until it has refused a file that was laid now."""
    lay_at_first(at, 'look', b'')
    come(at, 'offers1/refused/look')


def began(at, number):
    """The first of three plants has begun a ballot of a number."""
    stage.within(lambda: any(line.startswith(f'{number} began ') for line in told(at, 'log1')), lambda: f'{number} is under way: {told(at, "log1")}')


def search(at, members, numbers):
    """These plants search for these numbers: they came up as the ballots went on, and may have missed one."""
    for member in members:
        for number in numbers:
            plants.lay(at, member, f'{number}.seek', b'')


def replaced_while_under_way(at):
    """A file that is replaced while its ballots are under way: where they still come to its story, that stands, and the correction is lost;
    one that is removed, or becomes a folder, is released all the same."""
    _, *others = plants.bring_up(at, plants.configure(at), (1, 2, 3))
    for plant in others:
        plant.send_signal(signal.SIGSTOP)
    for number in (12, 13, 14):
        lay_at_first(at, f'{number}.tape', at.read(STORY))
    for number in (12, 13, 14):
        began(at, number)
    lay_at_first(at, '12.tape', at.read(OTHER))
    os.remove(at.path('offers1/13.tape'))
    os.remove(at.path('offers1/14.tape'))
    os.mkdir(at.path('offers1/14.tape'))
    looks_again(at)
    for plant in others:
        plant.send_signal(signal.SIGCONT)
    are_out = lambda: all(at.read(f'releases1/{number}.galley') for number in (12, 13, 14))
    were_given_up = lambda: any(' gave-up ' in line for line in told(at, 'log1'))
    stage.within(lambda: are_out() or were_given_up(), lambda: f'{told(at, "log1")}')
    if were_given_up():
        raise stage.Skipped('the ballots were given up before the others answered')
    come(at, 'offers1/lost/12.tape')
    search(at, (2, 3), (12, 13, 14))
    for member in (1, 2, 3):
        for number in (12, 13, 14):
            come(at, f'releases{member}/{number}.galley')
            holds(at, f'releases{member}/{number}.tape', at.read(STORY))
    holds(at, 'offers1/lost/12.tape', at.read(OTHER))
    holds(at, 'offers1/lost/12.tape.txt', STANDS)
    stage.wants('12 replaced while it was under way' in told(at, 'log1'), f'{told(at, "log1")}')
    stage.wants(os.path.isdir(at.path('offers1/14.tape')), 'a folder stays')
    stage.wants(not os.path.exists(at.path('offers1/sent')), 'nothing was sent')


def given_up_and_begun_again(at):
    """A file whose ballots came to no end is offered again; one that was replaced meanwhile is then the correction."""
    ports = plants.configure(at)
    plants.bring_up(at, ports, (1,))
    lay_at_first(at, '12.tape', at.read(STORY))
    lay_at_first(at, '13.tape', at.read(STORY))
    began(at, 12)
    began(at, 13)
    lay_at_first(at, '13.tape', at.read(OTHER))
    for number in (12, 13):
        stage.within(lambda: any(line.startswith(f'{number} gave-up ') for line in told(at, 'log1')), f'{number} is given up')
    plants.bring_up(at, ports, (2, 3))
    come(at, 'offers1/sent/12.tape', 'offers1/sent/13.tape')
    search(at, (2, 3), (12, 13))
    for member in (1, 2, 3):
        come(at, f'releases{member}/12.galley', f'releases{member}/13.galley')
        holds(at, f'releases{member}/12.tape', at.read(STORY))
        holds(at, f'releases{member}/13.tape', at.read(OTHER))
    stage.wants('13 replaced while it was under way' in told(at, 'log1'), f'{told(at, "log1")}')


# how many searches
SEARCHES = 40


def a_story_behind_searches(at):
    """Of all that a look finds a story is asked for first, before searches of lesser numbers that were laid before it."""
    ports = plants.configure(at)
    first, *_ = plants.bring_up(at, ports, (1, 2, 3))
    # The first plant is held, so that one look finds all of it.
    first.send_signal(signal.SIGSTOP)
    search(at, (1,), range(101, 101 + SEARCHES))
    lay_at_first(at, '200.tape', at.read(STORY))
    first.send_signal(signal.SIGCONT)
    come(at, 'offers1/sent/200.tape')
    begun = [line.split()[0] for line in told(at, 'log1') if ' began ' in line]
    stage.wants(begun[0] == '200', f'{begun}')
    for member in (1, 2, 3):
        come(at, f'releases{member}/200.galley')


PLAYS = [sent, late, refused, replaced_while_under_way, given_up_and_begun_again, a_story_behind_searches]

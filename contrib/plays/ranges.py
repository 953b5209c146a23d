"""What an editor asks for by a range, and what is missing where the folder of releases comes late."""
import os

import plants
import stage
from folders import told
from recalls import ends, is_released, was_down


def a_range_by_hand(at):
    """`41-45.seek` is asked for, also what went out here before, and goes to `done` with what came of each number."""
    ports, story = plants.configure(at), at.read('flood.tape')
    started = plants.bring_up(at, ports, (1, 2, 3))
    for number in (41, 44):
        plants.lay(at, 1, f'{number}.tape', story)
    plants.lay(at, 1, '42.withdraw', b'')
    for number in (41, 44):
        is_released(at, 3, number)
    stage.within(lambda: os.path.exists(at.path('releases3/42.void')), 'plant 3 has 42')
    ends(at, 3, started[2])
    for name in ('41.tape', '41.galley', '42.void', '44.tape', '44.galley'):
        os.remove(at.path(f'releases3/{name}'))
    plants.bring_up(at, ports, (3,), words='', making='')
    plants.lay(at, 3, '41-45.seek', b'')
    stage.within(lambda: at.read('offers3/done/41-45.seek') == b'', lambda: f'{os.listdir(at.path("offers3"))}: {told(at, "log3")}')
    text = at.read('offers3/done/41-45.seek.txt')
    stage.wants(text == b'41 tape\n42 void\n43 nothing\n44 tape\n45 nothing\n', f'{text}')
    for name in ('41.galley', '44.galley'):
        stage.wants(at.read(f'releases3/{name}') == stage.GALLEY.encode(), name)
    stage.within(lambda: 'done 41-45.seek: 2 tapes, 1 void, 2 nothing' in told(at, 'log3'), lambda: f'{told(at, "log3")}')


def a_range_without_an_end(at):
    """`41-.seek` is asked for as far as the circuit is known to have something, also what went out here before."""
    ports, story = plants.configure(at), at.read('flood.tape')
    started = plants.bring_up(at, ports, (1, 2, 3))
    for number in (41, 44):
        plants.lay(at, 1, f'{number}.tape', story)
    for number in (41, 44):
        is_released(at, 3, number)
    ends(at, 3, started[2])
    for name in ('44.tape', '44.galley'):
        os.remove(at.path(f'releases3/{name}'))
    plants.bring_up(at, ports, (3,), words='', making='')
    plants.lay(at, 3, '41-.seek', b'')
    stage.within(lambda: at.read('offers3/done/41-.seek') == b'', lambda: f'{os.listdir(at.path("offers3"))}: {told(at, "log3")}')
    text = at.read('offers3/done/41-.seek.txt')
    stage.wants(text == b'41 tape\n42-43 nothing\n44 tape\n', f'{text}')
    stage.wants(at.read('releases3/44.galley') == stage.GALLEY.encode(), '44 is written again')


def ranges_that_are_none(at):
    """A range that falls, and one with a zero in front, are no offers."""
    plants.three(at)
    for name in ('45-41.seek', '041-45.seek', '041-.seek'):
        plants.lay(at, 1, name, b'')
        stage.within(lambda name=name: at.read(f'offers1/refused/{name}') == b'', lambda: f'{name}: {told(at, "log1")}')
        stage.wants(at.read(f'offers1/refused/{name}.txt') == b'no number\n', name)


def releases_that_come_late(at):
    """Where the folder of releases is not there at a start, what is missing is asked for once it is."""
    ports = was_down(at)
    os.rename(at.path('releases3'), at.path('away'))
    plants.bring_up(at, ports, (3,), words='', making='')
    stage.within(lambda: any('cannot read .released' in line for line in told(at, 'log3')), lambda: f'{told(at, "log3")}')
    os.rename(at.path('away'), at.path('releases3'))
    is_released(at, 3, 12)


PLAYS = [a_range_by_hand, a_range_without_an_end, ranges_that_are_none, releases_that_come_late]

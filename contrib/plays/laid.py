"""What is laid among the offers of a plant that is alone: where each file goes, what is written among the releases, and what is told of it."""
import os
import shutil

import datagrams
import plants
import stage
from datagrams import PREPARE, PROMISE
from folders import ALL, RUN, ends_by_stop, holds, is_released, lay, lies, looks_again, tape, told, up
from recalls import Voice

STANDS = b'release 12 01020301030204\n'
NO_NUMBER = b'no number\n'
# files that are left alone, so many that a look takes several turns
LEFT = 600


def tells_by_its_end(at, plant, *lines):
    """The plant, ended by a file, has told this and no more. Its log begins anew."""
    ends_by_stop(at, plant)
    stage.wants(told(at) == [*lines], f'{told(at)} and not {lines}')
    os.remove(at.path('log'))


def goes(at, name, place, data=b''):
    """A file that is laid now comes to lie at a place among the offers, as it was."""
    lay(at, name, data)
    lies(at, f'offers/{place}/{name}')
    holds(at, f'offers/{place}/{name}', data)


def sent(at):
    """A story is cast and sent, also beside many files that are left alone; it is told with all, its release alone as ever, and nothing where
    faults alone are told."""
    at.plant('plant.toml', 'plant.db')
    left = [f'story{number}.part' for number in range(LEFT)]
    for name in left:
        at.write(f'offers/{name}', tape(at))
    for number, (words, lines) in enumerate((
        (ALL, ('12 released', '12 sent')),
        (RUN, ('13 released',)),
        (f'{RUN} --quiet', ()),
    ), 12):
        plant = up(at, words)
        goes(at, f'{number}.tape', 'sent', tape(at))
        is_released(at, number)
        tells_by_its_end(at, plant, *lines)
    stage.wants(all(os.path.exists(at.path(f'offers/{name}')) for name in left), 'the others are left alone')


def withdrawn(at):
    """A withdrawal is released as an empty file."""
    at.plant('plant.toml', 'plant.db')
    plant = up(at, ALL)
    goes(at, '14.withdraw', 'sent', b'why')
    holds(at, 'releases/14.void', b'')
    stage.wants(at.read('releases/14.galley') is None, 'a withdrawal has no galley')
    tells_by_its_end(at, plant, '14 released', '14 sent')


def lost(at):
    """Another story under a number that has one is lost, and that story lies beside it: where it was released now, and where it stands from
    before the last start."""
    at.plant('plant.toml', 'plant.db')
    plant = up(at, ALL)
    goes(at, '12.tape', 'sent', tape(at))
    goes(at, '12.tape', 'lost', tape(at, 'harvest.tape'))
    holds(at, 'offers/lost/12.tape.txt', STANDS)
    tells_by_its_end(at, plant, '12 released', '12 sent', '12 lost')
    forget(at)
    plant = up(at, ALL)
    goes(at, '12.tape', 'lost', tape(at, 'harvest.tape'))
    holds(at, 'offers/lost/12.tape.txt', STANDS)
    is_released(at, 12)
    tells_by_its_end(at, plant, '12 released', '12 lost')


def forget(at):
    """What was released and what left the offers is taken away; the rows stay, and what is kept of what went out."""
    for name in os.listdir(at.path('releases')):
        if name[0] != '.':
            os.remove(at.path(f'releases/{name}'))
    for name in ('sent', 'lost'):
        shutil.rmtree(at.path(f'offers/{name}'), ignore_errors=True)


def names_of_no_number(at):
    """Names that ask for nothing are refused, also one that would forge a line of the log; what is being handed over is left alone."""
    at.plant('plant.toml', 'plant.db')
    plant = up(at, ALL)
    for name in ('.13.tape', '13.tape.part'):
        at.write(f'offers/{name}', tape(at))
    for name in ('012.tape', '1000000.seek', 'story.tape', '12 lost\n13.tape'):
        goes(at, name, 'refused', tape(at))
        holds(at, f'offers/refused/{name}.txt', NO_NUMBER)
    for name in ('.13.tape', '13.tape.part'):
        holds(at, f'offers/{name}', tape(at))
    tells_by_its_end(at, plant, 'refused 012.tape: no number', 'refused 1000000.seek: no number', 'refused story.tape: no number',
                     r'refused 12 lost\n13.tape: no number')


def tapes_that_are_none(at):
    """A tape with a byte that is no frame, one without a frame, one that is too long, and one that does not set: each is refused, with its
    fault beside it."""
    at.plant('plant.toml', 'plant.db')
    plant = up(at, ALL)
    faults = (
        (b'\x01\x40', 'tape: bad frame at 1'),
        (b'', 'tape: empty'),
        (b'\x01' * 16_385, 'tape: too long 16385'),
        (tape(at, 'overset.tape'), 'tape-faulty overset 1 at 7 line 1'),
    )
    for number, (data, fault) in enumerate(faults, 12):
        goes(at, f'{number}.tape', 'refused', data)
        holds(at, f'offers/refused/{number}.tape.txt', f'{fault}\n'.encode())
    tells_by_its_end(at, plant, *(f'refused {number}.tape: {fault}' for number, (_, fault) in enumerate(faults, 12)))


def a_withdrawal_over_layout_1(at):
    """Rows of layout 1 know of none."""
    at.plant('plant.toml', 'plant.db')
    os.remove(at.path('plant.db'))
    at.ends('create --layout 1 plant.toml', 0, 'made plant.db: station 1 of 1 circuit 7 layout 1\n')
    plant = up(at, ALL)
    goes(at, '14.withdraw', 'refused')
    holds(at, 'offers/refused/14.withdraw.txt', b'wire-too-old\n')
    tells_by_its_end(at, plant, 'refused 14.withdraw: wire-too-old')


def a_number_whose_ballots_are_spent(at):
    """A story is refused where a ballot was promised above which there is none."""
    ports = plants.configure(at)
    with Voice(2, ports) as second:
        plants.bring_up(at, ports, (1,))
        second.speak(1, PREPARE, 12, (4_294_967_295, 2))
        second.hears(1, PROMISE, 12)
        plants.lay(at, 1, '12.tape', tape(at))
        lies_at_first(at, 'refused/12.tape', tape(at))
        lies_at_first(at, 'refused/12.tape.txt', b'rounds-spent\n')
        line = 'refused 12.tape: rounds-spent'
        stage.within(lambda: told(at, 'log1') == [line], lambda: f'{told(at, "log1")}')


def lies_at_first(at, name, data):
    """A file lies among the offers of the first of three plants by then."""
    stage.within(lambda: at.read(f'offers1/{name}') == data, lambda: f'{name} holds {at.read(f"offers1/{name}")}')


def what_went_out_nowhere(at):
    """A row whose story went out nowhere, as the releases keep it, is released by the station's own vote. Where the number went out it is not
    asked for, nor at the first start that keeps it, or finds what another station kept: such a start tells of it."""
    at.plant('plant.toml', 'plant.db')
    plant = up(at)
    goes(at, '12.tape', 'sent', tape(at))
    tells_by_its_end(at, plant, '12 released')
    missing = '1 may be missing from before: 12.seek'
    aside = 'folders: releases has .released of another station, which was set aside'
    for kept, lines in (
        (datagrams.spell_released(7, 1, 1, []), ('12 missed, asked for', '12 released', 'caught up: 1 released, 0 nothing')),
        (datagrams.spell_released(7, 1, 1, [12]), ()),
        (None, (missing,)),
        (datagrams.spell_released(8, 1, 1, []), (aside, missing)),
    ):
        forget(at)
        os.remove(at.path('releases/.released'))
        if kept is not None:
            at.write('releases/.released', kept)
        plant = up(at)
        stage.within(lambda lines=lines: len(told(at)) >= len(lines), lambda lines=lines: f'{told(at)} are {lines}')
        looks_again(at)
        stage.wants((at.read('releases/12.galley') is None) == ('12 released' not in lines), f'{os.listdir(at.path("releases"))}')
        ends_by_stop(at, plant)
        stage.wants([line for line in told(at) if not line.startswith('refused look')] == [*lines], f'{told(at)} and not {lines}')
        os.remove(at.path('log'))


PLAYS = [
    sent, withdrawn, lost, names_of_no_number, tapes_that_are_none, a_withdrawal_over_layout_1,
    a_number_whose_ballots_are_spent, what_went_out_nowhere,
]

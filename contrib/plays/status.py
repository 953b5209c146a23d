"""The status of a plant that is up: its file, what `status` makes of it, and what it ends with."""
import calendar
import json
import os
import pty
import re
import select
import time

import stage
from folders import lay, told

MOMENT = r'\d{4}-\d\d-\d\dT\d\d:\d\d:\d\dZ'
ALONE = (rf'station 1 of 1 circuit 7 layout 2 since {MOMENT}\n'
         r'released (?P<released>nothing|\d+, the greatest \d+)\n'
         r'under way nothing\n'
         r'missing nothing\n'
         r'offers \d+ waiting, (?P<lost>\d+) lost, (?P<refused>\d+) refused; releases 0 waiting to be written\n'
         rf'written {MOMENT}, form 1\n')
# what `status` tells of a plant that is up
HELD = r'process \d+ holds offers\n'


def with_status(at, name='plant.toml', path='status.txt', rows='station.db'):
    """A plant with a status file, over this row file."""
    at.plant(name, rows)
    text = at.read(name).decode().replace('[folders]\n', f'[folders]\nstatus = "{path}"\n')
    at.write(name, text.encode())


def up(at, log='log', words='run plant.toml'):
    """The plant is up."""
    with open(at.path(log), 'ab') as err:
        plant = at.start(words, stderr=err)
    stage.within(at.serves, 'the plant is up')
    return plant


def holds(at, pattern):
    """The status file comes to match this; what it matched."""
    found = []

    def matches():
        found[:] = [re.fullmatch(pattern, (at.read('status.txt') or b'').decode())]
        return found[0] is not None

    stage.within(matches, lambda: f'{pattern}: {at.read("status.txt")}')
    return found[0]


def stops(at, plant):
    """The command `stop` ends the plant well."""
    at.stop('plant.toml')
    stage.wants(plant.wait(stage.SECONDS) == 0, 'it ended well')


def first_line(at):
    """A start tells what it is, unless faults alone are told."""
    with_status(at)
    plant = up(at)
    line = f'station 1 of 1 circuit 7 layout 2 at 127.0.0.1:{at.port}, no number saved\n'
    stage.within(lambda: at.read('log').decode() == line, lambda: f'{at.read("log")}')
    lay(at, '12.tape', at.read('flood.tape'))
    stage.within(lambda: '12 released' in told(at), lambda: f'{told(at)}')
    stops(at, plant)
    plant = up(at, 'later')
    line = f'station 1 of 1 circuit 7 layout 2 at 127.0.0.1:{at.port}, 1 numbers saved, the greatest 12\n'
    stage.within(lambda: at.read('later').decode() == line, lambda: f'{at.read("later")}')
    stops(at, plant)
    os.remove(at.path('status.txt'))
    plant = up(at, 'quiet', 'run plant.toml --quiet')
    holds(at, ALONE)
    stops(at, plant)
    stage.wants(at.read('quiet') == b'', f'{at.read("quiet")}')


def file_of_a_plant(at):
    """The file is there once the plant is up, tells what became of files, and is whole at each read; nothing else is left beside it."""
    with_status(at)
    up(at)
    holds(at, ALONE)
    lay(at, '12.tape', at.read('flood.tape'))
    lay(at, '13.tape', b'\xff\xff')
    lay(at, 'note', b'')
    stage.within(lambda: holds(at, ALONE)['released'] == '1, the greatest 12' and holds(at, ALONE)['refused'] == '2', lambda: f'{at.read("status.txt")}')
    until = time.monotonic() + 3
    while time.monotonic() < until:
        stage.wants(re.fullmatch(ALONE, at.read('status.txt').decode()), f'{at.read("status.txt")}')
    stage.within(lambda: not os.path.exists(at.path('status.txt.next')), 'nothing is left beside it')
    stage.wants(not [name for name in os.listdir(at.path('offers')) if 'status' in name], f'{os.listdir(at.path("offers"))}')


def well_and_not(at):
    """`status` prints the file and ends with 0; with 1 once the file is older than 90 seconds. JSON has the same."""
    with_status(at)
    plant = up(at)
    holds(at, ALONE)
    text = at.read('status.txt').decode()
    status, out, err = at.run('status plant.toml')
    stage.wants((status, err) == (0, '') and re.fullmatch(ALONE + HELD + 'well\n', out), f'{status} {out} {err}')
    status, out, err = at.run('status plant.toml --json')
    found = json.loads(out)
    stage.wants((status, err) == (0, ''), f'{status} {err}')
    stage.wants(found['station']['member'] == 1 and found['station']['since'] in text, f'{found}')
    stage.wants(found['members'] == [] and found['under_way'] == [] and found['missing'] is None, f'{found}')
    stage.wants(found['counts'] == {'released': 0, 'greatest': 0, 'waiting': 0, 'lost': 0, 'refused': 0, 'unwritten': 0}, f'{found}')
    stage.wants(found['health'] == {'well': True, 'old': False, 'alone': False, 'missing': False}, f'{found}')
    stops(at, plant)
    written = calendar.timegm(time.strptime(re.search(rf'written ({MOMENT})', at.read('status.txt').decode())[1], '%Y-%m-%dT%H:%M:%SZ'))
    old = time.strftime('%Y-%m-%dT%H:%M:%SZ', time.gmtime(written - 100))
    at.write('status.txt', re.sub(rf'{MOMENT}', old, at.read('status.txt').decode()).encode())
    status, out, err = at.run('status plant.toml')
    stage.wants((status, err) == (1, '') and out.endswith('\nnot well, not written for more than 90 seconds\n'), f'{status} {out} {err}')
    status, out, err = at.run('status plant.toml --json')
    stage.wants(status == 1 and json.loads(out)['health'] == {'well': False, 'old': True, 'alone': False, 'missing': False}, f'{status} {out}')


def what_can_not_be_told(at):
    """Where nothing can be told, `status` ends with 3 and says why; --watch is for a terminal."""
    with_status(at)
    at.ends('status plant.toml', 3, '', 'status: status.txt: there is no such file\n')
    at.ends('status one.toml', 3, '', 'status: the configuration names no status file\n')
    at.ends('status none.toml', 3, '', 'cannot read none.toml\n')
    at.ends('status plant.toml --watch', 2, '', 'usage: --watch is for a terminal\n')
    os.mkdir(at.path('status.txt'))
    at.ends('status plant.toml', 3, '', 'status: status.txt: no plain file\n')
    os.rmdir(at.path('status.txt'))
    os.mkfifo(at.path('status.txt'))
    at.ends('status plant.toml', 3, '', 'status: status.txt: no plain file\n')
    os.remove(at.path('status.txt'))
    plant = up(at)
    holds(at, ALONE)
    stops(at, plant)
    text = at.read('status.txt').decode()
    for changed, why in ((text[:-1], 'no status'), (text[:40], 'no status'), ('', 'no status'), (text.replace('nothing', 'none', 1), 'no status'),
                         (text.replace('form 1', 'form 3'), 'of a later version'), (text.replace('form 1', 'form 2'), 'no status'), (text.replace('station 1 of 1', 'station 1 of 2'), 'of another station'),
                         (text.replace('circuit 7', 'circuit 8'), 'of another station'), ('\udcff', 'no status')):
        at.write('status.txt', changed.encode('utf-8', 'surrogateescape'))
        at.ends('status plant.toml', 3, '', f'status: status.txt: {why}\n')


def watched(at):
    """On a terminal `--watch` draws the status again each second, what came meanwhile too, and ends as `status` does once the file is gone."""
    try:
        ours, theirs = pty.openpty()
    except OSError:
        raise stage.Skipped('there is no terminal to be had') from None
    with_status(at)
    plant = up(at)
    holds(at, ALONE)
    begun = time.monotonic()
    with open(at.path('end'), 'wb') as err:
        watching = at.start('status plant.toml --watch', stdout=theirs, stderr=err)
    os.close(theirs)
    drawn = b''

    def drawings(count, released):
        """So many drawings begin, and the last whole one tells this of the releases."""
        nonlocal drawn
        if select.select([ours], [], [], 0.1)[0]:
            drawn += os.read(ours, 65536)
        whole = drawn.decode().replace('\r\n', '\n').split('\x1b[H\x1b[2J')[1:-1]
        return len(whole) >= count and re.fullmatch(ALONE + HELD + 'well\n', whole[-1]) and f'released {released}\n' in whole[-1]

    def ended():
        """Whether it has ended; what it still draws is taken from the terminal, and its end is an error there."""
        try:
            drawings(1, 'nothing')
        except OSError:
            pass
        return watching.poll() is not None

    stage.within(lambda: drawings(3, 'nothing'), lambda: f'it is drawn again: {drawn}')
    stage.wants(time.monotonic() - begun > 2, 'a second lies between two drawings')
    lay(at, '12.tape', at.read('flood.tape'))
    stage.within(lambda: drawings(4, '1, the greatest 12'), lambda: f'the story is seen: {drawn}')
    stops(at, plant)
    os.remove(at.path('status.txt'))
    stage.within(ended, 'it ends too')
    stage.wants(watching.wait() == 3, 'it ends as nothing can be told')
    stage.wants(at.read('end') == b'status: status.txt: there is no such file\n', f'{at.read("end")}')
    os.close(ours)


def unwritten(at):
    """A plant whose status can't be written says so once, and goes on."""
    with_status(at, path='none/status.txt')
    up(at)
    line = 'folders: cannot write status: it is not there'
    stage.within(lambda: line in told(at), lambda: f'{told(at)}')
    for number in (12, 13):
        lay(at, f'{number}.tape', at.read('flood.tape'))
        stage.within(lambda: f'{number} released' in told(at), lambda: f'{told(at)}')
        time.sleep(1)
    stage.wants([each for each in told(at) if 'status' in each] == [line], f'{told(at)}')


def misplaced(at):
    """A status file among the offers, or in place of another file of the station, is refused at the start."""
    for path, why in (('offers/status.txt', 'offers holds the status file'), ('station.db', 'status is the row file'), ('./codes.toml', 'status is the table'),
                      ('plant.toml', 'status is the configuration')):
        with_status(at, path=path)
        at.ends('run plant.toml', 1, '', f'folders: {why}\n')


PLAYS = [misplaced, first_line, file_of_a_plant, well_and_not, what_can_not_be_told, watched, unwritten]

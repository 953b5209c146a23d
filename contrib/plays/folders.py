"""The folders of a plant that is up: what no disk, shell or neighbour turns against a story."""
import ctypes
import fcntl
import os
import re
import resource
import select
import shutil
import stat
import subprocess
import time

import stage
from stage import GALLEY

RUN = 'run plant.toml'
ALL = f'{RUN} --verbose'
OWN = ('.circuitd', '.1.part', '.2.part')
# what inotify calls the making of a file
MADE = 0x100


def tape(at, name='flood.tape'):
    """The bytes of a tape of the examples."""
    return at.read(name)


def up(at, words=RUN, log='log', **how):
    """A plant that is up, with its log in a file; it has its port by then."""
    with open(at.path(log), 'ab') as told:
        how.setdefault('stderr', told)
        plant = at.start(words, **how)
    stage.within(at.serves, 'the plant is up')
    return plant


def told(at, log='log'):
    """The lines of the log, without those that a start tells first."""
    return [line for line in at.read(log).decode().split('\n')[:-1] if not re.match(r'(\S+Z )?station \d+ of \d+ circuit ', line)]


def tells(at, line):
    """The log has a line by then."""
    stage.within(lambda: line in told(at), lambda: f'{line!r} in {told(at)}')


def lay(at, name, data=b''):
    """Hands over a file as the manual says: under another name first."""
    part = at.path(f'offers/.laid-{abs(hash(name))}')
    with open(part, 'wb') as file:
        file.write(data)
    os.rename(part, os.path.join(at.path('offers').encode(), name) if isinstance(name, bytes) else at.path(f'offers/{name}'))


def lies(at, *names):
    """Waits until these files lie there."""
    for name in names:
        stage.within(lambda name=name: os.path.lexists(at.path(name)), lambda: f'{name} lies there: {os.listdir(at.path("offers"))} {told(at)}')


def holds(at, name, data):
    """A file holds this."""
    found = at.read(name)
    stage.wants(found == data, f'{name} holds {found!r:.80} and not {data!r:.80}')


def is_released(at, number, name='flood.tape', galley=GALLEY):
    """A number is released among the releases, whole."""
    lies(at, f'releases/{number}.tape', f'releases/{number}.galley')
    holds(at, f'releases/{number}.tape', tape(at, name))
    holds(at, f'releases/{number}.galley', galley.encode())


def looks_again(at):
    """Waits until the plant has looked at its offers twice: until it has refused a file that was laid now."""
    name = f'look{time.monotonic_ns()}'
    lay(at, name)
    lies(at, f'offers/refused/{name}')


def ends_by_stop(at, plant):
    """A file `stop` ends it well. It does not wait for the next start, which may come so soon that the file would count for newer."""
    lay(at, 'stop')
    stage.wants(plant.wait(stage.SECONDS) == 0, f'it ended with {plant.returncode}: {told(at)}')
    os.remove(at.path('offers/stop'))


def own_names(at):
    """What lies under names of the station's own, in whatever folder."""
    found = []
    for folder, folders, files in os.walk(at.folder):
        found += [os.path.join(folder, name) for name in folders + files if name.startswith(OWN) and name != '.circuitd']
    return found


def lie_ready(at):
    """Waits until the files of the next release lie ready, whole: nothing changes among the releases from then on until one is written."""
    def ready():
        own = [at.path(f'releases/{name}') for name in os.listdir(at.path('releases')) if name.startswith(OWN)]
        return [os.path.getsize(path) for path in own if os.path.exists(path)] == [4096, 4096]

    stage.within(ready, 'files lie ready')


def leaves_nothing(at):
    """Nothing is left under a name of its own once the plant was started and killed again, but the files that lie ready."""
    plant = up(at)
    lie_ready(at)
    plant.kill()
    plant.wait()
    left = [name for name in own_names(at) if not name.startswith(at.path('releases/')) or os.path.getsize(name) != 4096]
    stage.wants(left == [] and len(own_names(at)) == 2, f'left: {own_names(at)}')


def releases_replaced_by_a_copy(at):
    """A copy of the folder in its place, with all that lay ready there: a story is the file that was written."""
    at.plant('plant.toml', 'plant.db')
    plant = up(at)
    for number in (12, 13, 14):
        lie_ready(at)
        subprocess.run(['cp', '-a', at.path('releases'), at.path('copy')], check=True)
        os.rename(at.path('releases'), at.path(f'old{number}'))
        os.rename(at.path('copy'), at.path('releases'))
        lay(at, f'{number}.tape', tape(at))
        is_released(at, number)
        lies(at, f'offers/sent/{number}.tape')
    tells(at, 'folders: releases is another folder now')
    ends_by_stop(at, plant)
    for number in (12, 13, 14):
        shutil.rmtree(at.path(f'old{number}'))
    leaves_nothing(at)


def releases_that_move(at):
    """A folder that is taken away, and given back later: what was released waits."""
    at.plant('plant.toml', 'plant.db')
    up(at)
    os.rename(at.path('releases'), at.path('elsewhere'))
    lay(at, '12.tape', tape(at))
    tells(at, 'folders: cannot write releases: it is not there')
    lies(at, 'offers/12.tape')
    os.rename(at.path('elsewhere'), at.path('releases'))
    is_released(at, 12)
    lies(at, 'offers/sent/12.tape')


def a_release_that_was_not_written(at):
    """What waited to be written as the plant was killed is asked for after the next start, though its offer is gone by then."""
    at.plant('plant.toml', 'plant.db')
    plant = up(at)
    lies(at, 'releases/.released')
    os.rename(at.path('releases'), at.path('elsewhere'))
    lay(at, '12.tape', tape(at))
    tells(at, '12 released')
    plant.kill()
    plant.wait()
    os.remove(at.path('offers/12.tape'))
    os.rename(at.path('elsewhere'), at.path('releases'))
    up(at)
    is_released(at, 12)


def offers_replaced(at):
    """Another folder of offers in place of the first is worked with."""
    at.plant('plant.toml', 'plant.db')
    up(at)
    lay(at, '12.tape', tape(at))
    is_released(at, 12)
    os.rename(at.path('offers'), at.path('old'))
    os.mkdir(at.path('offers'))
    lay(at, '13.tape', tape(at))
    is_released(at, 13)
    lies(at, 'offers/sent/13.tape')
    tells(at, 'folders: offers is another folder now')


def two_plants_over_one_folder(at):
    """The second ends at once, with a text; and it goes once the first is gone, however that ended."""
    at.plant('plant.toml', 'plant.db')
    first = up(at)
    at.port = stage.free_port()
    at.plant('second.toml', 'second.db', 'offers2', 'releases')
    at.plant('third.toml', 'third.db', 'offers', 'releases3')
    at.ends('run second.toml', 6, '', 'folders: another process works with releases\n')
    at.ends('run third.toml', 6, '', 'folders: another process works with offers\n')
    at.ends(RUN, 6, '', 'folders: another process works with offers\n')
    first.kill()
    first.wait()
    up(at, 'run second.toml')


def closed_streams(at):
    """Without standard streams: no line of the log goes into a galley, and no file of the station becomes a stream."""
    at.plant('plant.toml', 'plant.db')
    closed = [(0, 1, 2), (2,), (0, 2), (1, 2), (0,), (0, 1)]
    for number, descriptors in enumerate(closed, 12):

        def close(descriptors=descriptors):
            for descriptor in descriptors:
                os.close(descriptor)

        plant = up(at, preexec_fn=close)
        for descriptor in descriptors:
            held = os.readlink(f'/proc/{plant.pid}/fd/{descriptor}')
            stage.wants(held == '/dev/null', f'{descriptor} of {descriptors} is {held}')
        lay(at, f'story{number}.tape', tape(at))
        lay(at, f'{number}.tape', tape(at))
        is_released(at, number)
        lies(at, f'offers/refused/story{number}.tape')
        lies(at, f'offers/sent/{number}.tape')
        ends_by_stop(at, plant)
    rows = ''.join(f'{number} 1.1 1.1 01020301030204\n' for number in range(12, 12 + len(closed)))
    at.ends('rows plant.db', 0, f'station 1 of 1 circuit 7\n{rows}')
    for number in range(12, 12 + len(closed)):
        is_released(at, number)


def replaced_in_the_moment_of_the_move(at):
    """Whatever replaces an offer as it is moved: nothing lies in `sent` that was not read, and nothing that was laid is lost."""
    at.plant('plant.toml', 'plant.db')
    up(at)
    numbers = set(range(1, 49))
    for number in numbers:
        lay(at, f'{number}.tape', tape(at))
        at.write(f'other{number}', tape(at, 'harvest.tape'))
    waits = set(numbers)
    until = time.monotonic() + stage.SECONDS
    while waits and time.monotonic() < until:
        for number in sorted(waits):
            if os.path.exists(at.path(f'releases/{number}.galley')):
                os.rename(at.path(f'other{number}'), at.path(f'offers/{number}.tape'))
                waits.discard(number)
    stage.wants(not waits, f'not released: {waits}')
    for number in numbers:
        stage.within(lambda: os.path.exists(at.path(f'offers/lost/{number}.tape')), lambda: f'the other {number}: {told(at)[-9:]}')
        holds(at, f'offers/lost/{number}.tape', tape(at, 'harvest.tape'))
    # There is no `sent` where each was replaced in time.
    for name in os.listdir(at.path('offers/sent')) if os.path.isdir(at.path('offers/sent')) else ():
        holds(at, f'offers/sent/{name}', tape(at))


def misplaced(at):
    """What would be moved, or taken for an offer, is refused at the start, before the table is read."""
    os.remove(at.path('codes.toml'))
    at.plant('plant.toml', 'plant.db')
    os.mkdir(at.path('offers/sent'))
    at.write('offers/codes.toml', b'')
    cases = [
        ('.', 'releases', {}, 'offers holds the configuration'),
        ('offers', 'releases', {'codes.toml': 'offers/codes.toml'}, 'offers holds the table'),
        ('offers', 'releases', {'widths.toml': 'offers/widths.toml'}, 'offers holds the widths'),
        ('offers', 'releases', {'plant.db': 'offers/plant.db'}, 'offers holds the row file'),
        ('offers', 'offers', {}, 'offers and releases are one folder'),
        ('offers', 'releases/../offers', {}, 'offers and releases are one folder'),
        ('offers', 'link', {}, 'offers and releases are one folder'),
        ('offers', 'offers/sent', {}, 'releases is offers/sent'),
    ]
    os.symlink('offers', at.path('link'))
    for offers, releases, others, text in cases:
        at.plant('plant.toml', 'plant.db', offers, releases)
        config = at.read('plant.toml')
        for old, new in others.items():
            config = config.replace(f'"{old}"'.encode(), f'"{new}"'.encode())
        at.write('plant.toml', config)
        at.ends(RUN, 1, '', f'folders: {text}\n')
    stage.wants(at.read('plant.toml') is not None and not os.path.exists(at.path('refused')), 'something was moved')
    # What does no harm goes on working: here the table is looked for.
    at.plant('plant.toml', 'plant.db', 'offers', 'offers/out')
    at.ends(RUN, 1, '', 'cannot read codes.toml\n')


def what_is_no_plain_file(at):
    """A fifo, a link, a socket behind a name: passed over, and told once."""
    at.plant('plant.toml', 'plant.db')
    os.mkfifo(at.path('offers/12.tape'))
    os.symlink('../flood.tape', at.path('offers/13.tape'))
    os.mkfifo(at.path('offers/fifo'))
    os.mkdir(at.path('offers/15.tape'))
    plant = up(at)
    lay(at, '14.tape', tape(at))
    is_released(at, 14)
    looks_again(at)
    wanted = [f'folders: cannot read {name}: it is no plain file' for name in ('12.tape', '13.tape', 'fifo')]
    stage.wants([line for line in told(at) if 'cannot read' in line] == wanted, f'{told(at)}')
    stage.wants(stat.S_ISFIFO(os.lstat(at.path('offers/12.tape')).st_mode), 'the fifo was moved')
    # Another one is told, and one that comes again.
    os.remove(at.path('offers/fifo'))
    looks_again(at)
    os.mkfifo(at.path('offers/fifo'))
    stage.within(lambda: told(at).count(wanted[2]) == 2, lambda: f'{told(at)}')
    ends_by_stop(at, plant)


def standard_error_that_nobody_reads(at):
    """It loses lines, and stops nothing; their count is told once it is read again."""
    at.plant('plant.toml', 'plant.db')
    reader, writer = os.pipe()
    fcntl.fcntl(writer, fcntl.F_SETFL, os.O_NONBLOCK)
    filled = 0
    while True:
        try:
            filled += os.write(writer, b'x' * 4096)
        except BlockingIOError:
            break
    fcntl.fcntl(writer, fcntl.F_SETFL, 0)
    plant = up(at, ALL, stderr=writer)
    os.close(writer)
    for number in (12, 13):
        lay(at, f'{number}.tape', tape(at))
        is_released(at, number)
    lies(at, 'offers/sent/13.tape')
    while filled:
        filled -= len(os.read(reader, filled))
    ends_by_stop_of(at, plant, reader)


def ends_by_stop_of(at, plant, reader):
    """The same of a plant whose log is read from a pipe: it tells how many lines were lost, and the next as ever."""
    lay(at, '14.tape', tape(at))
    is_released(at, 14)
    lies(at, 'offers/sent/14.tape')
    lay(at, 'stop')
    stage.wants(plant.wait(stage.SECONDS) == 0, f'it ended with {plant.returncode}')
    log = b''
    while more := os.read(reader, 65536):
        log += more
    os.close(reader)
    lines = log.decode().split('\n')[:-1]
    lost = [line for line in lines if line.startswith('log: ')]
    stage.wants(len(lost) == 1 and lost[0].endswith(' lines were lost'), f'{lines}')
    stage.wants(int(lost[0].split()[1]) >= 4 and lines[-2:] == ['14 released', '14 sent'], f'{lines}')


def started(at):
    """Starts a plant, and waits until it reads the clock of its offers, by a file of its own that it makes there: what is laid from then on is
    newer than its start. On a host that does not tell of that it is waited until the plant is up."""
    library = ctypes.CDLL(None)
    watch = getattr(library, 'inotify_init', lambda: -1)()
    if watch < 0 or library.inotify_add_watch(watch, at.path('offers').encode(), MADE) < 0:
        return up(at)
    plant = at.start(RUN)
    stage.wants(select.select([watch], [], [], stage.SECONDS)[0] and b'.circuitd-' in os.read(watch, 4096), 'no plant has started')
    os.close(watch)
    return plant


def stop_soon_after_a_start(at):
    """A `stop` that is laid once the station has started ends it, however soon; one that lay there before does not."""
    at.plant('plant.toml', 'plant.db')
    at.write('offers/stop', b'')
    time.sleep(0.1)
    plant = up(at)
    looks_again(at)
    stage.wants(plant.poll() is None and not os.path.exists(at.path('offers/stop')), 'an old stop ends it')
    ends_by_stop(at, plant)
    for _ in range(6):
        plant = started(at)
        at.write('offers/stop', b'')
        stage.wants(plant.wait(stage.SECONDS) == 0, f'{plant.returncode}')
        os.remove(at.path('offers/stop'))


def nobodys(at):
    """A plant of a user without rights, and how it is started."""
    how = stage.as_nobody()
    at.plant('plant.toml', 'plant.db')
    os.remove(at.path('plant.db'))
    os.chmod(at.folder, 0o777)
    os.chmod(at.path('releases'), 0o777)
    at.ends('create plant.toml', 0, 'made plant.db: station 1 of 1 circuit 7 layout 2\n', **how)
    return how


def a_stop_that_can_not_be_removed(at):
    """It is told, and ends nothing."""
    how = nobodys(at)
    at.write('offers/stop', b'')
    os.chmod(at.path('offers'), 0o555)
    time.sleep(0.1)
    plant = up(at, **how)
    tells(at, 'folders: cannot remove stop: it is not allowed')
    time.sleep(0.6)
    stage.wants(plant.poll() is None, f'it ended with {plant.returncode}')


def a_folder_that_is_not_searched(at):
    """Offers that may be listed, and no more: that is told, and that it can't be seen what was sent before."""
    how = nobodys(at)
    lay(at, '12.tape', tape(at))
    os.chmod(at.path('offers'), 0o444)
    up(at, **how)
    tells(at, 'folders: cannot read offers: it is not allowed')
    tells(at, 'folders: cannot read .released: it is not allowed; what is missing here is not asked for until it can be read')
    time.sleep(0.6)
    stage.wants(len(told(at)) == 2, f'{told(at)}')
    os.chmod(at.path('offers'), 0o777)
    lies(at, 'offers/sent/12.tape')


def names_that_would_forge_lines(at):
    """No byte of a name ends a line of the log, or reaches a terminal."""
    at.plant('plant.toml', 'plant.db')
    plant = up(at)
    for name in (b'a\n12 released', b'\x1b[2Jb', b'c\\n', 'gr\u00f6\u00dfe'.encode()):
        lay(at, name, tape(at))
    shown = (r'a\n12 released', r'\x1b[2Jb', r'c\\n', r'gr\xc3\xb6\xc3\x9fe')
    for name in shown:
        tells(at, f'refused {name}: no number')
    stage.wants(len(told(at)) == 4, f'{told(at)}')
    ends_by_stop(at, plant)


def more_than_999_of_one_name(at):
    """A search is moved under the next number, however many lie there."""
    at.plant('plant.toml', 'plant.db')
    up(at)
    lay(at, '12.tape', tape(at))
    lies(at, 'offers/sent/12.tape')
    for number in range(1, 1500):
        at.write('offers/sent/12.seek' + (f'.{number}' if number > 1 else ''), b'')
    lay(at, '12.seek')
    lies(at, 'offers/sent/12.seek.1500')
    lay(at, '12.seek')
    lies(at, 'offers/sent/12.seek.1501')
    stage.wants(len(os.listdir(at.path('offers/sent'))) == 1502, 'another number')


def long_names(at):
    """A name that has no room for the text beside it stays, and is told once; all others are refused."""
    at.plant('plant.toml', 'plant.db')
    plant = up(at)
    for length in (246, 250, 251):
        lay(at, 'n' * length, tape(at))
        lies(at, 'offers/refused/' + 'n' * length)
        lies(at, 'offers/refused/' + 'n' * length + '.txt')
    lay(at, 'm' * 252, tape(at))
    line = 'folders: cannot move ' + 'm' * 252 + ': the name is too long'
    tells(at, line)
    time.sleep(1)
    stage.wants(told(at).count(line) == 1 and os.path.exists(at.path('offers/' + 'm' * 252)), f'{told(at)}')
    ends_by_stop(at, plant)


def a_limit_on_file_sizes(at):
    """It is told at the start, before it kills."""
    at.plant('plant.toml', 'plant.db')

    def limit():
        resource.setrlimit(resource.RLIMIT_FSIZE, (1024, 1024))

    at.ends(RUN, 1, '', 'limit: no file may have more than 1024 bytes\n', preexec_fn=limit)


def what_a_kill_left(at):
    """What was on its way as a plant was killed is judged anew at the next start; nothing is left under a name of its own."""
    at.plant('plant.toml', 'plant.db')
    os.mkdir(at.path('offers/.circuitd'))
    os.mkdir(at.path('offers/lost'))
    at.write('offers/.circuitd/12.tape', tape(at))
    at.write('offers/.circuitd/13.tape', tape(at))
    at.write('offers/.circuitd/14.tape', tape(at))
    at.write('offers/13.tape', tape(at, 'harvest.tape'))
    os.link(at.path('offers/.circuitd/14.tape'), at.path('offers/14.tape'))
    for name in ('releases/.1.part', 'releases/.2.part', 'releases/.circuitd-1-2-3.part', 'offers/lost/.circuitd-1-2-4.part'):
        at.write(name, bytes(4096))
    plant = up(at)
    for number in (12, 14):
        is_released(at, number)
        lies(at, f'offers/sent/{number}.tape')
    lies(at, 'offers/refused/13.tape')
    holds(at, 'offers/refused/13.tape', tape(at))
    holds(at, 'offers/refused/13.tape.txt', b'another file came to stand under its name\n')
    lies(at, 'offers/sent/13.tape')
    holds(at, 'offers/sent/13.tape', tape(at, 'harvest.tape'))
    ends_by_stop(at, plant)
    leaves_nothing(at)


PLAYS = [
    releases_replaced_by_a_copy, releases_that_move, a_release_that_was_not_written, offers_replaced, two_plants_over_one_folder, closed_streams,
    replaced_in_the_moment_of_the_move, misplaced, what_is_no_plain_file, standard_error_that_nobody_reads,
    stop_soon_after_a_start, a_stop_that_can_not_be_removed, a_folder_that_is_not_searched, names_that_would_forge_lines,
    more_than_999_of_one_name, long_names, a_limit_on_file_sizes, what_a_kill_left,
]

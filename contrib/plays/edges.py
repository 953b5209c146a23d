"""The edges of a station's files: links, files that are replaced while it is up, files that are two at once, and locks that others hold."""
import contextlib
import fcntl
import json
import os
import shutil
import signal
import stat
import subprocess
import time

import stage
from folders import RUN, ends_by_stop, holds, is_released, lay, lies, tape, tells, told, up
from stage import NO_DATABASE, NOT_OPENED, REFUSED

KEPT = REFUSED + 'what a station saved here last is kept with .kept behind its name: put that and its log in place of these\n'
HALF_KEPT = REFUSED + 'what a station saved here last was not kept whole: find the file that was here and its log, or the station is lost\n'
REPLACED = 'another file stands at its path, or none: what it held is kept there with .kept behind its name'
UNKEPT = 'another file stands at its path, or none, and what it held could not be kept: find the file that was here and its log, or the station is lost'
LOST = 'its folder is gone: the station is lost'
# How many numbers a station has saved before its files are replaced.
SAVED = 20
KEY = 'ab' * 32 + '\n'


def changed(at, *changes, name='plant.toml'):
    """Changes the configuration of the plant: each text for another."""
    text = at.read(name).decode()
    for old, new in changes:
        stage.wants(old in text, f'{old} stands in {name}')
        text = text.replace(old, new)
    at.write(name, text.encode())


def plant_at(at, rows='plant.db'):
    """A plant whose offers are taken up at the first look, since its files come by a rename."""
    at.plant('plant.toml', rows)
    changed(at, ('[folders]\n', '[folders]\nrenamed = true\n'))


def with_status(at, path, rows='plant.db'):
    """The same with this status file."""
    plant_at(at, rows)
    changed(at, ('[folders]\n', f'[folders]\nstatus = "{path}"\n'))


def whole_plant(at):
    """The same with each file that a configuration can name: a key, too."""
    with_status(at, 'status.txt')
    at.write('circuit.key', KEY.encode())
    os.chmod(at.path('circuit.key'), 0o600)
    changed(at, ('[folders]\n', '[wire]\nkey = "circuit.key"\n[folders]\n'))


def of_nobody(at, path):
    """A file or a link belongs to another user, where this one may give it away."""
    nobody = stage.as_nobody()
    if nobody:
        os.lchown(at.path(path), nobody['user'], nobody['group'])


def needs_two_users():
    """How nobody starts a process; skipped where there is one user."""
    nobody = stage.as_nobody()
    if not nobody:
        raise stage.Skipped('there is one user')
    return nobody


@contextlib.contextmanager
def mounted(at, what, where, *how):
    """Something is mounted at a path for a while."""
    words = ['mount', *(how or ('--bind',)), at.path(what) if how == () else what, at.path(where)]
    if os.geteuid() != 0 or subprocess.run(words, check=False, capture_output=True).returncode != 0:
        raise stage.Skipped('nothing can be mounted')
    try:
        yield
    finally:
        subprocess.run(['umount', '-l', at.path(where)], check=True)


# Links


def files_of(at):
    """The names in the folder of a plant, and what its files hold that a start does not change."""
    return sorted(os.listdir(at.folder)), [at.read(name) for name in ('plant.toml', 'codes.toml', 'widths.toml')]


def neighbour(at):
    """A second plant, in a folder of its own, which is up."""
    os.mkdir(at.path('other'))
    other = stage.Stage(at.program, at.path('other'))
    other.started = at.started
    plant_at(other)
    up(other)
    return other


def a_passage_that_is_a_link(at):
    """A link that an editor lays in place of the passage moves nothing out of the folder to which it leads: not the station's own files, and not
    those of another plant that is up."""
    plant_at(at)
    other = neighbour(at)
    plant = up(at)
    plant.kill()
    plant.wait()
    shutil.rmtree(at.path('offers/.circuitd'))
    before = files_of(at), files_of(other)
    for number, target in enumerate(('..', at.folder, '../other', '../other/offers', '../releases'), 1):
        os.symlink(target, at.path('offers/.circuitd'))
        of_nobody(at, 'offers/.circuitd')
        plant = up(at)
        lay(at, f'{number}.tape', tape(at))
        is_released(at, number)
        tells(at, f'folders: cannot move {number}.tape: it is no folder')
        plant.kill()
        plant.wait()
        stage.wants((files_of(at), files_of(other)) == before, f'{target}: {files_of(at)} {files_of(other)}')
        stage.wants({'.circuitd', f'{number}.tape'} <= set(os.listdir(at.path('offers'))), f'{target}: {os.listdir(at.path("offers"))}')
        os.remove(at.path('offers/.circuitd'))
    plant = up(at)
    lies(at, *(f'offers/sent/{number}.tape' for number in range(1, 6)))
    ends_by_stop(at, plant)
    lay(other, '12.tape', tape(at))
    is_released(other, 12)
    other.ends('stop plant.toml', 0)
    other.ends('rows plant.db', 0, f'{stage.HEAD}12 1.1 1.1 01020301030204\n')


def places_that_are_links(at):
    """Nothing is moved through a link in place of `sent` and the like, laid before the start or while it is up."""
    plant_at(at)
    os.mkdir(at.path('elsewhere'))
    for name in ('sent', 'refused', 'lost', 'done'):
        os.symlink('../elsewhere', at.path(f'offers/{name}'))
        of_nobody(at, f'offers/{name}')
    plant = up(at)
    lay(at, '12.tape', tape(at))
    lay(at, 'note')
    lay(at, '41-42.seek')
    is_released(at, 12)
    for name in ('12.tape', 'note', '41-42.seek'):
        tells(at, f'folders: cannot move {name}: it is no folder')
    stage.wants(os.listdir(at.path('elsewhere')) == [], f'{os.listdir(at.path("elsewhere"))}')
    stage.wants({'12.tape', 'note', '41-42.seek'} <= set(os.listdir(at.path('offers'))), f'{os.listdir(at.path("offers"))}')
    for name in ('sent', 'refused', 'lost', 'done'):
        os.remove(at.path(f'offers/{name}'))
    lies(at, 'offers/sent/12.tape', 'offers/refused/note', 'offers/done/41-42.seek')
    lay(at, '13.tape', tape(at))
    is_released(at, 13)
    lies(at, 'offers/sent/13.tape')
    os.symlink('../elsewhere', at.path('offers/lost'))
    lay(at, '13.tape', tape(at, 'harvest.tape'))
    tells(at, 'folders: cannot move 13.tape: it is no folder')
    os.remove(at.path('offers/lost'))
    lies(at, 'offers/lost/13.tape')
    os.rename(at.path('offers/sent'), at.path('offers/old'))
    os.symlink('../elsewhere', at.path('offers/sent'))
    lay(at, '14.tape', tape(at))
    is_released(at, 14)
    tells(at, 'folders: cannot move 14.tape: it is no folder')
    stage.wants(os.listdir(at.path('elsewhere')) == [], f'{os.listdir(at.path("elsewhere"))}')
    os.remove(at.path('offers/sent'))
    lies(at, 'offers/sent/14.tape')
    ends_by_stop(at, plant)


def what_lies_in_the_passage(at):
    """Only a plain file whose name a run could have moved there is put back; all else stays where it lies."""
    at.plant('plant.toml', 'plant.db')
    os.mkdir(at.path('offers/.circuitd'))
    for name in ('stop', '.hidden', '12.part', '13.tape'):
        at.write(f'offers/.circuitd/{name}', tape(at))
    os.symlink('../../plant.db', at.path('offers/.circuitd/14.tape'))
    os.mkfifo(at.path('offers/.circuitd/15.tape'))
    os.mkdir(at.path('offers/.circuitd/16.tape'))
    plant = up(at)
    is_released(at, 13)
    lies(at, 'offers/sent/13.tape')
    left = set(os.listdir(at.path('offers/.circuitd'))) - {'.lock'}
    stage.wants(left == {'stop', '.hidden', '12.part', '14.tape', '15.tape', '16.tape'}, f'{left}')
    stage.wants(plant.poll() is None, f'it ended with {plant.returncode}')
    ends_by_stop(at, plant)


def links_laid(at, stories):
    """So many stories are moved, with links laid between each look and its use: nothing is moved through one, and each story comes where it goes. The
    number of tries."""
    if shutil.which('cc') is None:
        raise stage.Skipped('there is no C compiler')
    plant_at(at)
    os.mkdir(at.path('elsewhere'))
    library = at.path('links.so')
    subprocess.run(['cc', '-O1', '-shared', '-fPIC', '-o', library, os.path.join(stage.TOP, 'contrib', 'plays', 'links.c')], check=True)
    plant = up(at, env={**os.environ, 'LD_PRELOAD': library})
    for number in range(1, stories + 1):
        lay(at, f'{number}.tape', tape(at))
    for number in range(1, stories + 1):
        path = f'offers/sent/{number}.tape'
        # For a moment a link stands in place of the folder.
        stage.within(lambda: at.read(path) == tape(at), lambda: f'{path} holds {at.read(path)}')
        is_released(at, number)
    stage.wants(os.listdir(at.path('elsewhere')) == [], f'{os.listdir(at.path("elsewhere"))}')
    ends_by_stop(at, plant)
    stage.wants(os.listdir(at.path('offers/.circuitd')) == ['.lock'], f'{os.listdir(at.path("offers/.circuitd"))}')
    return os.path.getsize(at.path('tries'))


def links_between_the_look_and_the_use(at):
    """Nothing is moved through a link, however late it is laid. `bench/edges.py` tries it 10,000 times."""
    tries = links_laid(at, 40)
    stage.wants(tries >= 80, f'{tries} tries')


# Files that are replaced


def are_out(at, *numbers):
    """Stories of these numbers go out."""
    for number in numbers:
        lay(at, f'{number}.tape', tape(at))
    for number in numbers:
        lies(at, f'offers/sent/{number}.tape')


def with_rows(at, folder=''):
    """A plant that is up over a row file with so many rows, of which the copy `old.db` has the first half."""
    plant_at(at, f'{folder}plant.db')
    plant = up(at)
    are_out(at, *range(1, SAVED // 2 + 1))
    ends_by_stop(at, plant)
    for end in ('', '-wal'):
        shutil.copy(at.path(f'{folder}plant.db{end}'), at.path(f'old.db{end}'))
    plant = up(at)
    are_out(at, *range(SAVED // 2 + 1, SAVED + 1))
    return plant


def rows(at, name):
    """The rows of a file, as they are listed."""
    status, out, err = at.run(f'rows {name}')
    stage.wants((status, err) == (0, ''), f'rows {name}: {status} {err}')
    return out.split('\n')[1:-1]


def moved_over(at, *names):
    """Copies of these are moved over them."""
    for name in names:
        shutil.copy(at.path(name), at.path(f'{name}.x'))
    for name in names:
        os.rename(at.path(f'{name}.x'), at.path(name))


def by_tar(at):
    """Both come out of an archive of themselves."""
    subprocess.run(['tar', '-cf', 'x.tar', 'plant.db', 'plant.db-wal'], cwd=at.folder, check=True)
    subprocess.run(['tar', '-xf', 'x.tar'], cwd=at.folder, check=True)


def by_rsync(at):
    """Both come from copies of themselves; where there is no rsync, as it does it: under another name first."""
    for end in ('', '-wal'):
        shutil.copy(at.path(f'plant.db{end}'), at.path(f'copy.db{end}'))
        if shutil.which('rsync'):
            subprocess.run(['rsync', '--ignore-times', f'copy.db{end}', f'plant.db{end}'], cwd=at.folder, check=True)
        else:
            os.rename(shutil.copy(at.path(f'copy.db{end}'), at.path(f'.plant.db{end}.Xxxxxx')), at.path(f'plant.db{end}'))


def by_sed(at):
    """An edit in place, which is a new file."""
    subprocess.run(['sed', '-i', 's/a/a/', 'plant.db'], cwd=at.folder, check=True, env={**os.environ, 'LC_ALL': 'C'})


def by_an_older_pair(at):
    """An older pair is put over both."""
    for end in ('', '-wal'):
        os.rename(at.path(f'old.db{end}'), at.path(f'plant.db{end}'))


def by_nothing(at):
    """Both are removed."""
    for end in ('', '-wal'):
        os.remove(at.path(f'plant.db{end}'))


WAYS = {
    'a_moved_file': lambda at: moved_over(at, 'plant.db'), 'a_moved_log': lambda at: moved_over(at, 'plant.db-wal'),
    'moved_copies': lambda at: moved_over(at, 'plant.db', 'plant.db-wal'), 'tar': by_tar, 'rsync': by_rsync, 'sed': by_sed,
    'an_older_pair': by_an_older_pair, 'nothing': by_nothing, 'an_older_file': lambda at: os.rename(at.path('old.db'), at.path('plant.db')),
    'no_log': lambda at: os.remove(at.path('plant.db-wal')),
}
ALL_ROWS = [f'{number} 1.1 1.1 01020301030204' for number in range(1, SAVED + 1)]


def pair(at):
    """What stands at the two paths."""
    return [at.read(f'plant.db{end}') for end in ('', '-wal')]


def is_kept(at, stood):
    """What the two held lies beside what stands there now, which nobody touched; no command takes that until a person has put them in order."""
    for words in (RUN, f'{RUN} --create', 'serve plant.toml --turns 1', 'rows plant.db', 'upgrade plant.db', 'create plant.toml'):
        at.ends(words, 3, '', KEPT)
    stage.wants(pair(at) == stood, 'what stands at the paths was touched')
    stage.wants(rows(at, 'plant.db.kept') == ALL_ROWS, f'{rows(at, "plant.db.kept")}')


def ends_refused(at, plant):
    """The plant ends with 3, and says why, in its last two lines."""
    stage.wants(plant.wait(stage.SECONDS) == 3, f'it ended with {plant.returncode}: {told(at)}')
    stage.wants(told(at)[-2:] == ['store: refused', REPLACED], f'{told(at)}')


def put_in_place(at):
    """What was kept is put in place of what stands there."""
    for end in ('', '-wal'):
        os.replace(at.path(f'plant.db.kept{end}'), at.path(f'plant.db{end}'))


def replaced(way):
    """A play of row file and log that are replaced, or removed, in this way."""

    def play(at):
        plant = with_rows(at)
        WAYS[way](at)
        stood = pair(at)
        lay(at, '99.tape', tape(at))
        ends_refused(at, plant)
        stage.wants(not os.path.exists(at.path('releases/99.tape')), '99 was released')
        is_kept(at, stood)
        put_in_place(at)
        plant = up(at)
        is_released(at, 99)
        # A number that was saved before means what it meant.
        lay(at, '20.tape', tape(at, 'harvest.tape'))
        lies(at, 'offers/lost/20.tape')
        ends_by_stop(at, plant)

    play.__name__ = f'row_files_replaced_by_{way}'
    play.__doc__ = 'The next group is refused, all that was saved is kept, and nothing else is taken.'
    return play


def replaced_before_an_end(way):
    """The same of a plant that is told to stop then."""

    def play(at):
        plant = with_rows(at)
        WAYS[way](at)
        stood = pair(at)
        at.ends('stop plant.toml', 0)
        ends_refused(at, plant)
        is_kept(at, stood)

    play.__name__ = f'row_files_replaced_by_{way}_before_an_end'
    play.__doc__ = 'A clean end copies and empties nothing where a path has another file: 3, and not 0.'
    return play


def a_served_row_file_replaced(at):
    """What `serve` saved is kept, too: it ends with 3, and prints no story that was not saved before."""
    plant_at(at)
    at.ends('serve plant.toml --turns 1 --number 12 --tape flood.tape', 0, stage.RELEASE)
    with open(at.path('told'), 'wb') as err:
        served = at.start('serve plant.toml --turns 40', stderr=err)
    stage.within(at.serves, 'it is up')
    moved_over(at, 'plant.db', 'plant.db-wal')
    stage.wants(served.wait(stage.SECONDS) == 3, f'it ended with {served.returncode}')
    holds(at, 'told', f'{REFUSED}{REPLACED}\n'.encode())
    at.ends('rows plant.db', 3, '', KEPT)
    at.ends('rows plant.db.kept', 0, f'{stage.HEAD}12 1.1 1.1 01020301030204\n')


def a_folder_that_is_gone(at):
    """Where the folder of the row file is removed, the station is lost, and says so."""
    os.mkdir(at.path('plant'))
    plant = with_rows(at, 'plant/')
    shutil.rmtree(at.path('plant'))
    lay(at, '99.tape', tape(at))
    stage.wants(plant.wait(stage.SECONDS) == 3, f'it ended with {plant.returncode}: {told(at)}')
    stage.wants(told(at)[-2:] == ['store: refused', LOST], f'{told(at)}')
    stage.wants(not os.path.exists(at.path('plant')), 'the folder was made again')
    for words in (RUN, 'rows plant/plant.db'):
        at.ends(words, 3, '', stage.MISSING)


def a_folder_that_was_renamed(at):
    """A row file whose folder has another name now is not found at its path; under that name it is whole."""
    os.mkdir(at.path('plant'))
    plant = with_rows(at, 'plant/')
    os.rename(at.path('plant'), at.path('moved'))
    lay(at, '99.tape', tape(at))
    stage.wants(plant.wait(stage.SECONDS) == 3, f'it ended with {plant.returncode}: {told(at)}')
    stage.wants(told(at)[-2:] == ['store: refused', LOST], f'{told(at)}')
    os.rename(at.path('moved'), at.path('plant'))
    plant = up(at)
    is_released(at, 99)
    ends_by_stop(at, plant)
    stage.wants(len(rows(at, 'plant/plant.db')) == SAVED + 1, f'{rows(at, "plant/plant.db")}')


def small_disk(at, name, size):
    """A small file system at a folder of this name, for a while."""
    os.makedirs(at.path(name), exist_ok=True)
    return mounted(at, 'tmpfs', name, '-t', 'tmpfs', '-o', f'size={size}k')


def fills(at, name):
    """A file takes all the room that is left."""
    with open(at.path(name), 'wb', buffering=0) as file:
        try:
            while True:
                file.write(bytes(1024))
        except OSError:
            pass


def what_can_not_be_kept(at):
    """Where the disk has no room for what a row file held that was removed, it says so, and no start takes what stands at the path."""
    with small_disk(at, 'small', 2048):
        try:
            plant = with_rows(at, 'small/')
            fills(at, 'small/fill')
            for end in ('', '-wal'):
                os.remove(at.path(f'small/plant.db{end}'))
            lay(at, '99.tape', tape(at))
            stage.wants(plant.wait(stage.SECONDS) == 3, f'it ended with {plant.returncode}: {told(at)}')
            stage.wants(told(at)[-2:] == ['store: refused', UNKEPT], f'{told(at)}')
            os.remove(at.path('small/fill'))
            for end in ('', '-wal'):
                shutil.copy(at.path(f'old.db{end}'), at.path(f'small/plant.db{end}'))
            for words in (RUN, 'serve plant.toml --turns 1', 'rows small/plant.db', 'upgrade small/plant.db', 'create plant.toml'):
                at.ends(words, 3, '', HALF_KEPT)
        finally:
            at.close()


# Files that are two at once

# The files of a station in the order of their list: by what a person calls them, where they stand. The first three are only read.
PLACES = {
    'the configuration': 'plant.toml', 'the table': 'codes.toml', 'the widths': 'widths.toml', 'the row file': 'plant.db',
    'the log of the row file': 'plant.db-wal', 'the journal of the row file': 'plant.db-journal', 'the row file that is made': 'plant.db.making',
    'the log of the row file that is made': 'plant.db.making-wal', 'what is kept of the row file': 'plant.db.kept',
    'the log of what is kept of the row file': 'plant.db.kept-wal', 'what is being kept of the row file': 'plant.db.keeping',
    'the key': 'circuit.key', 'offers': 'offers', 'releases': 'releases', 'releases/.released': 'releases/.released',
    'offers/.circuitd': 'offers/.circuitd', 'offers/sent': 'offers/sent', 'offers/lost': 'offers/lost', 'offers/refused': 'offers/refused',
    'offers/done': 'offers/done', 'the status file': 'status.txt', 'the next status file': 'status.txt.next',
}
ORDER = list(PLACES)
READ = ORDER[:3]
FOLDERS = ['offers', 'releases', *ORDER[15:20]]
# What a configuration names, by its key; and what has its place by the path of another.
NAMED = {'the table': 'table', 'the widths': 'widths', 'the row file': 'rows', 'the key': 'key', 'the status file': 'status', 'offers': 'offers', 'releases': 'releases'}
BY = {'the row file': ORDER[4:11], 'the status file': ORDER[21:], 'offers': ORDER[15:20], 'releases': ORDER[14:15]}


def told_of(one, other):
    """What is told of two that are one, though one of them is written; nothing where both are only read."""
    first, second = sorted((one, other), key=ORDER.index)
    if second in READ:
        return None
    if (first, second) == ('offers', 'releases'):
        return 'offers and releases are one folder'
    if second == 'the status file':
        return f'status is {first}'
    return f'releases is {second}' if first == 'releases' else f'{second} is {first}'


def places_told(at, why, what):
    """`create` and `check-config` tell this of where the files are, or neither tells anything."""
    status, out, err = at.run('check-config plant.toml')
    lines = [line for line in out.split('\n') if line.startswith('fault: folders: ') and 'cannot read' not in line]
    stage.wants(lines == ([f'fault: folders: {why}'] if why else []) and (status == 1 or not why), f'{what}: {status} {out} {err}, and not {why}')
    if why:
        at.ends('create plant.toml', 1, '', f'folders: {why}\n')


def each_pair_by_its_name(at):
    """Each path of a configuration that is the path of another file, by whatever name: it is told which two are one, or which lies in a folder where it
    has no place, and nothing is touched."""
    whole_plant(at)
    kept = at.read('plant.toml')
    before = at.seen()
    for named, key in NAMED.items():
        for other, path in PLACES.items():
            if other == named or other in BY.get(named, ()):
                continue
            folder = path.split('/')[0] if '/' in path and named not in FOLDERS else None
            why = f'{folder} holds {named}' if folder else told_of(named, other)
            for name in (path, f'.//{path}', f'offers/../{path}'):
                at.write('plant.toml', kept.replace(f'{key} = "{PLACES[named]}"'.encode(), f'{key} = "{name}"'.encode()))
                places_told(at, why, f'{named} at {name}')
    at.write('plant.toml', kept)
    stage.wants({name: each[3] for name, each in at.seen().items()} == {name: each[3] for name, each in before.items()}, 'something was changed')


def each_pair_by_hard_links(at):
    """Each two files of a station that are one by a hard link, at whatever places."""
    whole_plant(at)
    files = [name for name in ORDER if name not in FOLDERS]
    for place, first in enumerate(files):
        for second in files[place + 1:]:
            paths = [at.path(PLACES[name]) for name in (first, second)]
            held = [at.read(path) for path in paths]
            # The earlier of the two keeps what it holds, so that a configuration stays one.
            if held[0] is None:
                at.write(paths[0], b'')
            if held[1] is not None:
                os.rename(paths[1], at.path('aside'))
            os.link(*paths)
            places_told(at, told_of(first, second), f'{first} and {second}')
            os.remove(paths[1])
            if held[1] is not None:
                os.rename(at.path('aside'), paths[1])
            if held[0] is None:
                os.remove(paths[0])


def each_pair_by_mounts(at):
    """Each two folders of a station that are one by a mount."""
    whole_plant(at)
    for name in FOLDERS:
        os.makedirs(at.path(name), exist_ok=True)
    for place, first in enumerate(FOLDERS):
        for second in FOLDERS[place + 1:]:
            with mounted(at, first, second):
                places_told(at, told_of(first, second), f'{first} and {second}')


def files_that_are_two(at):
    """Each command that works with a station's files tells the first two that are one, and changes nothing."""
    with_status(at, 'status.txt')
    kept = at.read('plant.toml')
    for path, why in (('plant.db-wal', 'status is the log of the row file'), ('releases/5.tape', 'releases holds the status file'),
                      ('offers/sent/new/status.txt', 'offers holds the status file'), ('plant.db', 'status is the row file')):
        os.makedirs(at.path('offers/sent/new'), exist_ok=True)
        at.write('plant.toml', kept.replace(b'"status.txt"', f'"{path}"'.encode()))
        before = at.seen()
        for words in (RUN, f'{RUN} --create', 'serve plant.toml --turns 1', 'create plant.toml'):
            at.ends(words, 1, '', f'folders: {why}\n')
        at.ends('check-config plant.toml', 1, f'station 1 at 127.0.0.1:{at.port} is this one, on this host\nfault: folders: {why}\n')
        stage.wants(at.seen() == before, f'{path}: something was changed')


def a_key_among_the_offers(at):
    """It would be moved to those that are no offers."""
    at.plant('plant.toml', 'plant.db')
    at.write('offers/circuit.key', b'')
    changed(at, ('[folders]\n', '[wire]\nkey = "offers/circuit.key"\n[folders]\n'))
    at.ends('create plant.toml', 1, '', 'folders: offers holds the key\n')
    stage.wants(at.read('offers/circuit.key') == b'', 'it was moved')


def refused_as_no_status(at):
    """No station starts or is made where what stands in place of its status is none, and `check-config` says why."""
    why = 'folders: status is no status of this station\n'
    for words in (RUN, 'serve plant.toml --turns 1', 'create plant.toml'):
        at.ends(words, 1, '', why)
    status, out, _ = at.run('check-config plant.toml')
    stage.wants(status == 1 and f'fault: {why}' in out, f'{out}')


def status_of_another(at):
    """A status takes the place of nothing but a status of this station: no letter, no device, no link, and not a status of another station."""
    with_status(at, 'status.txt')
    other = b'station 1 of 1 circuit 70 layout 2 since 1996-11-25T20:44:01Z\n'
    for text in (LETTER, other, b' ', b'station 1 of 1 circuit 7', bytes(4095) + b' ', bytes(5000) + LETTER, bytes(65536)):
        at.write('status.txt', text)
        refused_as_no_status(at)
        holds(at, 'status.txt', text)
    os.remove(at.path('status.txt'))
    os.symlink('elsewhere.txt', at.path('status.txt'))
    refused_as_no_status(at)
    os.remove(at.path('status.txt'))
    os.mkfifo(at.path('status.txt'))
    refused_as_no_status(at)
    os.remove(at.path('status.txt'))
    for text in (b'', bytes(5000), b'station 1 of 1 circuit 7 layout 1 '):
        at.write('status.txt', text)
        plant = up(at)
        stage.within(lambda: (at.read('status.txt') or b'').startswith(b'station 1 of 1 circuit 7 layout 2'), lambda: f'{at.read("status.txt")}')
        ends_by_stop(at, plant)
    plant = up(at)
    stage.within(lambda: at.read('status.txt'), 'there is a status')
    os.remove(at.path('status.txt'))
    at.write('status.txt', LETTER)
    lay(at, '12.tape', tape(at))
    is_released(at, 12)
    tells(at, 'folders: cannot write status: it was changed')
    holds(at, 'status.txt', LETTER)
    ends_by_stop(at, plant)


# What stands at each place

LETTER = b'Dear editor,\n' * 400
UNREAD = 'folders: cannot read .released: {}; what is missing here is not asked for until it can be read'
NO_STATUS = 'folders: status is no status of this station\n'


def elsewhere(place):
    """A letter of somebody else, of which a folder beside it has a copy."""
    return f'elsewhere/{ORDER.index(place)}'


def put_link(at, place, path):
    """A link to what belongs to somebody else."""
    os.symlink(at.path(f'{elsewhere(place)}.d' if place in FOLDERS else elsewhere(place)), path)


def put_hard_link(at, place, path):
    """Another name of a letter."""
    os.link(at.path(elsewhere(place)), path)


def put_fifo(_at, _place, path):
    """A fifo to which nobody writes."""
    os.mkfifo(path)


def put_device(_at, _place, path):
    """The null device."""
    try:
        os.mknod(path, stat.S_IFCHR | 0o666, os.makedev(1, 3))
    except PermissionError:
        raise stage.Skipped('no device can be made') from None


def put_folder(_at, _place, path):
    """A folder of another user, in which this one may do nothing."""
    os.mkdir(path)
    os.chmod(path, 0o700 if os.geteuid() == 0 else 0)


def put_mount(at, place, path):
    """What belongs to somebody else, mounted here."""
    what = f'{elsewhere(place)}.d' if place in FOLDERS else elsewhere(place)
    if place in FOLDERS:
        os.mkdir(path)
    else:
        at.write(path, b'')
    if os.geteuid() != 0 or subprocess.run(['mount', '--bind', at.path(what), path], check=False, capture_output=True).returncode != 0:
        raise stage.Skipped('nothing can be mounted')


KINDS = {'link': put_link, 'hard_link': put_hard_link, 'fifo': put_fifo, 'device': put_device, 'folder': put_folder, 'mount': put_mount}


def ends(status, err):
    """A start ends so."""
    return status, err


def goes_on(*lines):
    """A plant is up, its story goes out, and its log has these lines, too."""
    return lines


def no_input(name, why, empty):
    """How a start ends over an input that is something else: what is no text of its kind, an empty one, or none that can be read."""
    return {'link': ends(1, why), 'hard_link': ends(1, why), 'mount': ends(1, why), 'device': ends(1, empty), 'folder': ends(1, f'cannot read {name}\n')}


def whatever(how):
    """It comes so for each kind."""
    return dict.fromkeys(KINDS, how)


def moves(*names):
    """The log where files of these names can't be moved to their place; over the edge of a mount the host moves none."""
    def by(why):
        return goes_on(*(f'folders: cannot move {name}: {why}' for name in names))
    return whatever(by('it is no folder')) | {'folder': by('it is not allowed'), 'mount': by('the host failed')}


def moves_to(place, *names):
    """The same of a place among the offers, where all but a folder is told, too. A second name of a letter is left out: a plain file there is one of the
    offers, and leaves them."""
    table = moves(*names)
    del table['hard_link']
    listed = f'folders: cannot read {place}: it is no plain file'
    return table | {kind: goes_on(*table[kind], listed) for kind in ('link', 'fifo', 'device')}


def writes_status():
    """The log where a status can't be written."""
    changed_by = goes_on('folders: cannot write status: it was changed')
    return whatever(goes_on('folders: cannot write status: it is no plain file')) | {'hard_link': changed_by, 'mount': changed_by}


# How a start comes out over what stands at a place. A fifo in place of an input is waited for, as a shell's `<(..)` wants it.
STARTS = {
    'the configuration': no_input('plant.toml', 'config: not toml\n', 'config: missing circuit\n'),
    'the table': no_input('codes.toml', 'table: not toml\n', 'table: no codes\n'),
    'the widths': no_input('widths.toml', 'widths: not toml\n', 'widths: missing measure\n'),
    'the row file': whatever(ends(3, NO_DATABASE)) | dict.fromkeys(('fifo', 'device', 'folder'), ends(3, NOT_OPENED)),
    # What is mounted there is the log, in which a start begins anew.
    'the log of the row file': dict.fromkeys(('link', 'hard_link', 'fifo', 'device', 'folder'), ends(3, NOT_OPENED)),
    'the journal of the row file': whatever(ends(3, NOT_OPENED)),
    'the row file that is made': whatever(goes_on()),
    'the log of the row file that is made': whatever(goes_on()),
    'what is kept of the row file': whatever(ends(3, KEPT)),
    'the log of what is kept of the row file': whatever(ends(3, HALF_KEPT)),
    'what is being kept of the row file': whatever(goes_on()),
    'the key': whatever(ends(1, 'key: others can read it\n')) | dict.fromkeys(('fifo', 'device', 'folder'), ends(1, 'key: cannot read circuit.key\n')),
    'offers': whatever(goes_on('folders: cannot read offers: it is no folder')) | {
        'link': goes_on(), 'mount': goes_on(), 'folder': goes_on('folders: cannot read offers: it is not allowed', UNREAD.format('it is not allowed'))},
    'releases': whatever(goes_on('folders: cannot write releases: it is no folder', UNREAD.format('it is no folder'))) | {
        'link': goes_on(), 'mount': goes_on(),
        'folder': goes_on('folders: cannot write releases: it is not allowed', UNREAD.format('it is not allowed'))},
    'releases/.released': whatever(goes_on(UNREAD.format('it is no plain file'))) | {
        'hard_link': goes_on('folders: releases has .released of another station, which was set aside'), 'mount': goes_on(UNREAD.format('the host failed'))},
    'offers/.circuitd': moves('12.tape', '41-42.seek', 'note'),
    'offers/sent': moves_to('sent', '12.tape') | {'folder': goes_on('folders: cannot move 12.tape: it is not allowed', UNREAD.format('it is not allowed'))},
    'offers/lost': moves_to('lost', '12.tape'),
    'offers/refused': moves_to('refused', 'note'),
    'offers/done': moves_to('done', '41-42.seek'),
    'the status file': whatever(ends(1, NO_STATUS)),
    'the next status file': writes_status(),
}
# How a plant goes on that is up as something comes to stand there; None where it ends with 3, and what it held is kept.
STAYS = STARTS | {
    'the row file': whatever(None),
    'the log of the row file': whatever(None),
    'offers/sent': moves_to('sent', '12.tape'),
    'offers': STARTS['offers'] | {'link': goes_on('folders: offers is another folder now'), 'mount': goes_on('folders: offers is another folder now'),
                                  'folder': goes_on('folders: cannot read offers: it is not allowed')},
    'releases': whatever(goes_on('folders: cannot write releases: it is no folder')) | {
        'link': goes_on('folders: releases is another folder now'), 'mount': goes_on('folders: releases is another folder now'),
        'folder': goes_on('folders: cannot write releases: it is not allowed')},
    'releases/.released': whatever(goes_on()) | {'hard_link': goes_on()},
    'the status file': writes_status(),
} | dict.fromkeys(('the configuration', 'the table', 'the widths', 'the journal of the row file', 'what is kept of the row file',
                   'the log of what is kept of the row file', 'the key'), whatever(goes_on()))


# Places of which one plant has all at once: what is told of one hides nothing of the others.
TOGETHER = [('offers/sent', 'offers/refused', 'offers/done'), ('offers/lost', 'the next status file', 'releases/.released')]


class Case:
    """A plant of its own, with something at one of its places, or at several."""

    def __init__(self, at, places, kind):
        self.places, self.kind, self.user, self.stood = places, kind, {}, {}
        self.what = f'{kind} at {", ".join(places)}'
        os.mkdir(at.path(f'{ORDER.index(places[0])}'))
        self.at = stage.Stage(at.program, at.path(f'{ORDER.index(places[0])}'))
        self.at.started = at.started
        whole_plant(self.at)
        for place in places:
            os.makedirs(self.at.path(f'{elsewhere(place)}.d'))
            self.at.write(elsewhere(place), LETTER)
            self.at.write(f'{elsewhere(place)}.d/.letter', LETTER)

    def give_away(self):
        """The plant is one of a user without rights, so that a folder of this one is that of another."""
        self.user = stage.as_nobody() if self.kind == 'folder' else {}
        if self.user:
            for folder, _, names in os.walk(self.at.folder):
                for name in (folder, *(os.path.join(folder, name) for name in names)):
                    os.lchown(name, self.user['user'], self.user['group'])

    def put(self):
        """Puts it there, in place of what stood there."""
        for place in self.places:
            path = self.at.path(PLACES[place])
            if os.path.lexists(path):
                os.rename(path, self.at.path(f'{elsewhere(place)}.aside'))
            try:
                KINDS[self.kind](self.at, place, path)
            except FileExistsError:
                # The plant has written it anew meanwhile.
                os.rename(path, self.at.path(f'{elsewhere(place)}.again'))
                KINDS[self.kind](self.at, place, path)
            self.stood[place] = os.lstat(path)

    def triggers(self):
        """Lays what leads to each place: a story, what is no offer, and a range that is asked for."""
        for name, data in (('12.tape', tape(self.at)), ('note', b''), ('41-42.seek', b'')):
            lay(self.at, name, data)
        if 'offers/lost' in self.places:
            lies(self.at, 'offers/sent/12.tape')
            lay(self.at, '12.tape', tape(self.at, 'harvest.tape'))

    def is_barred(self, name):
        """Whether nothing can be laid into this folder, or written there."""
        return name in self.places and self.kind not in ('link', 'mount')

    def goes_on(self, lines):
        """The story goes out, all that is not told to stay leaves the offers, and the log has these lines, of all that begin with `folders: `."""
        def found():
            return {line for line in told(self.at) if line.startswith('folders: ')}

        def waits():
            return {name for name in os.listdir(self.at.path('offers')) if not name.startswith('.') and os.path.isfile(self.at.path(f'offers/{name}'))}

        if not self.is_barred('offers'):
            self.triggers()
        if not self.is_barred('offers') and not self.is_barred('releases'):
            is_released(self.at, 12)
            stay = {name for name in ('12.tape', 'note', '41-42.seek') if any(f' {name}: ' in line for line in lines)}
            stage.within(lambda: waits() == stay, lambda: f'{self.what}: {waits()} wait, and not {stay}: {told(self.at)}')
        stage.within(lambda: found() == set(lines), lambda: f'{self.what}: {told(self.at)}, and not {lines}')

    def is_untouched(self):
        """What was put there, and what it leads to, is as it was."""
        for place, stood in self.stood.items():
            stage.wants(self.at.read(elsewhere(place)) == LETTER, f'{self.what}: a letter was changed')
            names = os.listdir(self.at.path(f'{elsewhere(place)}.d'))
            works_there = self.kind == 'mount' or place in ('offers', 'releases')
            stage.wants('.letter' in names if works_there else names == ['.letter'], f'{self.what}: {names}')
            if (place, self.kind) != ('releases/.released', 'hard_link'):
                now = os.lstat(self.at.path(PLACES[place]))
                same = [(each.st_dev, each.st_ino, each.st_mode) for each in (stood, now)]
                stage.wants(same[0] == same[1], f'{self.what}: something else stands there')

    def ends(self):
        """Ends what is left of it."""
        if self.kind == 'mount':
            for place in self.places:
                subprocess.run(['umount', '-l', self.at.path(PLACES[place])], check=False, capture_output=True)


def start_over(case, how):
    """A start over it comes out so."""
    case.give_away()
    case.put()
    if how and isinstance(how[0], int):
        case.at.ends(RUN, how[0], '', how[1], **case.user)
    else:
        plant = up(case.at, **case.user)
        case.goes_on(how)
        plant.kill()
        plant.wait()
    case.is_untouched()


def comes_while_up(case, how):
    """A plant that is up goes on so as it comes."""
    case.give_away()
    plant = up(case.at, **case.user)
    lay(case.at, '11.tape', tape(case.at))
    lies(case.at, 'offers/sent/11.tape')
    case.put()
    if how is None:
        case.triggers()
        ends_refused(case.at, plant)
    else:
        case.goes_on(how)
        plant.kill()
        plant.wait()
    case.is_untouched()


def cases_of(table, kind):
    """The places of which each plant has such a thing, and how it comes out: all together at which it is passed over, and each other, but for some."""
    found = {place: by_kind[kind] for place, by_kind in table.items() if kind in by_kind}
    quiet = tuple(place for place, how in found.items() if how == () and place not in FOLDERS)
    groups = [quiet, *(tuple(place for place in group if place in found and place not in quiet) for group in TOGETHER)]
    together = {place for group in groups for place in group}
    groups += [(place,) for place in found if place not in together]
    for places in filter(None, groups):
        hows = [found[place] for place in places]
        yield places, hows[0] if len(hows) == 1 else tuple(line for how in hows for line in how)


def at_each_place(kind, what):
    """Plays of such a thing at each place, before a start and while a plant is up."""

    def play_of(table, does):
        def play(at):
            # Another user has to come to its folders, too.
            os.chmod(at.folder, 0o755)
            for places, how in cases_of(table, kind):
                case = Case(at, places, kind)
                try:
                    does(case, how)
                finally:
                    case.ends()
        return play

    before, meanwhile = play_of(STARTS, start_over), play_of(STAYS, comes_while_up)
    before.__name__, meanwhile.__name__ = f'a_{kind}_at_each_place', f'a_{kind}_that_comes_to_each_place'
    before.__doc__ = f'{what} at each place of the list: the start is refused with a text, or it stays where it is. Nothing is moved, and nothing lost.'
    meanwhile.__doc__ = f'{what} that comes there while the plant is up.'
    return [before, meanwhile]


# Locks


IN_USE = 'folders: another process works with offers\n'


def held_by(at, how, name, **user):
    """A process that holds the lock of a folder so."""
    code = f'import fcntl, os, time; f = os.open({name!r}, os.O_RDONLY); fcntl.flock(f, fcntl.{how}); print("held", flush=True); time.sleep(1000)'
    holder = subprocess.Popen(['python3', '-c', code], cwd=at.folder, stdout=subprocess.PIPE, **user)
    at.started.append(holder)
    holder.stdout.readline()
    return holder


def locks_of_others(at):
    """Whoever can read a folder can hold its lock, as by `flock -s` and `flock -x`, and the plant starts, works and is stopped all the same."""
    nobody = needs_two_users()
    os.chmod(at.folder, 0o755)
    plant_at(at)
    for number, how in ((12, 'LOCK_SH'), (13, 'LOCK_EX')):
        holders = [held_by(at, how, name, **nobody) for name in ('offers', 'releases')]
        plant = up(at)
        are_out(at, number)
        is_released(at, number)
        at.stop('plant.toml')
        stage.wants(plant.wait(stage.SECONDS) == 0, f'it ended with {plant.returncode}')
        for holder in holders:
            holder.kill()
            holder.wait()


def is_refused(at):
    """Another station over the same offers is not started now."""
    port, at.port = at.port, stage.free_port()
    at.plant('third.toml', 'third.db', 'offers', 'releases3')
    at.port = port
    at.ends('run third.toml', 6, '', IN_USE)


def the_lock_of_the_passage(at):
    """A second station is refused by the file in the passage, though another user holds the folder's lock."""
    nobody = needs_two_users()
    os.chmod(at.folder, 0o755)
    at.plant('plant.toml', 'plant.db')
    held_by(at, 'LOCK_SH', 'offers', **nobody)
    up(at)
    stage.wants(stat.S_IMODE(os.stat(at.path('offers/.circuitd/.lock')).st_mode) == 0o600, 'others can open the lock')
    is_refused(at)


def a_passage_renamed_away(at):
    """A second station is refused by the folder's lock, though an editor took the passage with its lock from its name."""
    nobody = needs_two_users()
    os.chmod(at.folder, 0o755)
    plant_at(at)
    os.chmod(at.path('offers'), 0o777)
    up(at)
    subprocess.run(['mv', 'offers/.circuitd', 'offers/away'], cwd=at.folder, check=True, **nobody)
    is_refused(at)
    # The station makes another one where a file is to leave.
    are_out(at, 12)
    is_refused(at)


def a_lock_that_others_could_open(at):
    """A file in place of the lock that others can open is replaced: who holds that one holds nothing."""
    at.plant('plant.toml', 'plant.db')
    os.mkdir(at.path('offers/.circuitd'))
    at.write('offers/.circuitd/.lock', b'')
    os.chmod(at.path('offers/.circuitd/.lock'), 0o666)
    with open(at.path('offers/.circuitd/.lock'), 'rb') as held:
        fcntl.flock(held, fcntl.LOCK_SH)
        plant = up(at)
        stage.wants(stat.S_IMODE(os.stat(at.path('offers/.circuitd/.lock')).st_mode) == 0o600, 'others can open the lock')
        ends_by_stop(at, plant)


def with_a_status(at):
    """A plant that is up, and has written its status."""
    with_status(at, 'status.txt')
    plant = up(at)
    stage.within(lambda: at.read('status.txt'), 'there is a status')
    return plant


def tells_status(at, runs, line, holder, is_listed=True):
    """`status`, run so, prints the status file, this line and that the station is well; as JSON it names this process, and says
    whether the host lists any. The file may be written anew between a look at it and the command."""
    def is_told():
        text = at.read('status.txt').decode()
        return runs('status plant.toml') == (0, f'{text}{line}well\n', '')

    stage.within(is_told, lambda: f'{runs("status plant.toml")}, and not {line}')
    status, out, err = runs('status plant.toml --json')
    stage.wants((status, err) == (0, '') and (json.loads(out)['holder'], json.loads(out)['listed']) == (holder, is_listed), f'{status} {out} {err}')


def who_holds_the_offers(at):
    """`status` tells which process works with the offers."""
    plant = with_a_status(at)
    tells_status(at, at.run, f'process {plant.pid} holds offers\n', plant.pid)
    at.stop('plant.toml')
    tells_status(at, at.run, '', None)


def a_station_that_hangs(at):
    """`stop` tells which process has not ended. It waits for 30 seconds: `bench/edges.py` plays this."""
    plant = with_a_status(at)
    plant.send_signal(signal.SIGSTOP)
    at.ends('stop plant.toml', 1, '', f'stop: the station has not ended within 30 seconds: process {plant.pid} holds offers\n')
    plant.send_signal(signal.SIGCONT)
    stage.wants(plant.wait(stage.SECONDS) == 0, f'it ended with {plant.returncode}')


# What runs a command where the host lists no locks.
UNLISTED = ('unshare', '--mount', 'sh', '-c', 'mount -t proc -o subset=pid proc /proc || exit 99; exec "$@"', 'sh')


def unlisted(at, words):
    """How the program ends where the host lists no locks."""
    ran = subprocess.run([*UNLISTED, at.program, *words.split()], cwd=at.folder, capture_output=True, timeout=stage.SECONDS, check=False)
    if os.geteuid() != 0 or ran.returncode == 99 or b'unshare' in ran.stderr:
        raise stage.Skipped('the list of locks can not be hidden')
    return ran.returncode, ran.stdout.decode(), ran.stderr.decode()


def a_host_without_a_list(at):
    """Where the host does not list locks a lock that is taken counts, `status` says so, and `stop` waits as ever."""
    nobody = needs_two_users()
    os.chmod(at.folder, 0o755)
    plant = with_a_status(at)
    tells_status(at, lambda words: unlisted(at, words), 'the host does not list who holds offers\n', None, is_listed=False)
    ended = unlisted(at, 'stop plant.toml')
    stage.wants(ended == (0, '', '') and plant.wait(stage.SECONDS) == 0, f'{ended}')
    holder = held_by(at, 'LOCK_SH', 'offers', **nobody)
    ended = unlisted(at, RUN)
    stage.wants(ended == (6, '', IN_USE), f'{ended}')
    holder.kill()
    holder.wait()


def a_lock_of_an_editor(at):
    """Who may write among the offers lays a lock of his own in place of the station's, and holds it: that misleads neither `status` nor `stop`."""
    nobody = needs_two_users()
    os.chmod(at.folder, 0o755)
    plant = with_a_status(at)
    os.chmod(at.path('offers'), 0o777)
    code = 'import os; os.rename("offers/.circuitd", "offers/away"); os.mkdir("offers/.circuitd"); open("offers/.circuitd/.lock", "w")'
    subprocess.run(['python3', '-c', code], cwd=at.folder, check=True, **nobody)
    held_by(at, 'LOCK_EX', 'offers/.circuitd/.lock', **nobody)
    tells_status(at, at.run, f'process {plant.pid} holds offers\n', plant.pid)
    at.ends('stop plant.toml', 0)
    stage.wants(plant.wait(stage.SECONDS) == 0, f'it ended with {plant.returncode}')


# A file that is changed as it is read

CHANGER = r"""
#define _GNU_SOURCE
#include <dlfcn.h>
#include <fcntl.h>
#include <stdio.h>
#include <string.h>
#include <unistd.h>

/* Once, behind a read of the offer, another story is written over it. */
ssize_t read(int fd, void *buf, size_t n) {
    static ssize_t (*own)(int, void *, size_t);
    char link[64], path[4096], other[4096];
    if (!own) own = (ssize_t (*)(int, void *, size_t))dlsym(RTLD_NEXT, "read");
    ssize_t got = own(fd, buf, n);
    snprintf(link, sizeof link, "/proc/self/fd/%d", fd);
    ssize_t len = readlink(link, path, sizeof path - 1);
    if (got <= 0 || len < 15) return got;
    path[len] = 0;
    if (strcmp(path + len - 15, "/offers/12.tape") || unlink("once")) return got;
    int from = open("harvest.tape", O_RDONLY), to = open(path, O_WRONLY | O_TRUNC);
    ssize_t size = own(from, other, sizeof other);
    if (write(to, other, size) != size) _exit(99);
    close(from);
    close(to);
    return got;
}
"""


def an_offer_that_is_changed_as_it_is_read(at):
    """What was read of it is not offered: the story is the one that the file has in the end."""
    if shutil.which('cc') is None:
        raise stage.Skipped('there is no C compiler')
    at.write('changer.c', CHANGER.encode())
    subprocess.run(['cc', '-shared', '-fPIC', '-o', 'changer.so', 'changer.c', '-ldl'], cwd=at.folder, check=True)
    plant_at(at)
    at.write('once', b'')
    up(at, env={**os.environ, 'LD_PRELOAD': at.path('changer.so')})
    lay(at, '12.tape', tape(at))
    lies(at, 'releases/12.tape')
    stage.wants(not os.path.exists(at.path('once')), 'it was not changed')
    holds(at, 'releases/12.tape', tape(at, 'harvest.tape'))


# A full disk


def a_full_disk(at):
    """A row file that the disk has no room for: it says that the disk is full, however much room there is."""
    at.configure('small.toml', 'small/station.db')
    for size in range(8, 68, 4):
        with small_disk(at, 'small', size):
            status, out, err = at.run('create small.toml')
            stage.wants((status, err) in ((0, ''), (3, REFUSED + 'the disk is full\n')), f'{size} kB: {status} {out} {err}')
            stage.wants(status == 0 or os.listdir(at.path('small')) == [], f'{size} kB: {os.listdir(at.path("small"))}')


PLAYS = [
    a_passage_that_is_a_link, places_that_are_links, what_lies_in_the_passage, links_between_the_look_and_the_use, *map(replaced, WAYS),
    *map(replaced_before_an_end, WAYS), a_served_row_file_replaced, a_folder_that_is_gone, a_folder_that_was_renamed, what_can_not_be_kept,
    each_pair_by_its_name, each_pair_by_hard_links, each_pair_by_mounts, files_that_are_two, a_key_among_the_offers, status_of_another,
    *at_each_place('link', 'A link'), *at_each_place('hard_link', 'A second name of a letter'), *at_each_place('fifo', 'A fifo'),
    *at_each_place('device', 'A device'), *at_each_place('folder', 'A folder of another user'), *at_each_place('mount', 'A mount'),
    locks_of_others, the_lock_of_the_passage, a_passage_renamed_away, a_lock_that_others_could_open, who_holds_the_offers, a_host_without_a_list,
    a_lock_of_an_editor, an_offer_that_is_changed_as_it_is_read, a_full_disk,
]

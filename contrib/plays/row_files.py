"""What becomes of a row file, over real files: each of them beside each log, under each command."""
import contextlib
import fcntl
import os
import signal
import subprocess
import time

import old_rows
import stage
from stage import IN_USE as HELD
from stage import BEING_MADE, HEAD, LOG_ALONE, MADE, MISSING, NO_DATABASE, NOT_OPENED, OTHER_LOG, RELEASE, UNMADE, WITHOUT_LOG

NEW = 'made station1.db: station 1 of 1 circuit 7 layout 2\n'
SAVED = HEAD + '12 1.1 1.1 01020301030204\n'

CREATE = 'create one.toml'
FIRST = 'serve one.toml --turns 1 --create'
PLAIN = 'serve one.toml --turns 1'
ROWS = 'rows station1.db'
UPGRADE = 'upgrade station1.db'
# Another story is offered for the number that is saved.
AGAIN = 'serve one.toml --turns 20 --number 12 --tape harvest.tape'
COMMANDS = (CREATE, FIRST, PLAIN, ROWS, UPGRADE)

# What comes of a cell: each command is refused with this, and nothing has changed.
MAKING_ALONE = {CREATE: NEW, FIRST: '', PLAIN: MISSING, ROWS: MISSING, UPGRADE: MISSING}
# By the file, what comes of it without a log, beside an empty one, and beside one of its own.
TABLE = {
    'none': (MAKING_ALONE, MAKING_ALONE, LOG_ALONE),
    'empty': (NO_DATABASE, NO_DATABASE, NO_DATABASE),
    'one byte': (NO_DATABASE, NO_DATABASE, NO_DATABASE),
    'foreign': (NO_DATABASE, NO_DATABASE, NO_DATABASE),
    'half made': (UNMADE, UNMADE, {CREATE: MADE, FIRST: MADE, PLAIN: UNMADE, ROWS: UNMADE, UPGRADE: UNMADE}),
    'of 0.2.0': (UNMADE, UNMADE, {CREATE: MADE, FIRST: MADE, PLAIN: '', ROWS: SAVED, UPGRADE: 'layout 2\n'}),
    'made': ({CREATE: MADE, FIRST: MADE, PLAIN: WITHOUT_LOG, ROWS: WITHOUT_LOG, UPGRADE: WITHOUT_LOG},) * 2
            + ({CREATE: MADE, FIRST: MADE, PLAIN: '', ROWS: SAVED, UPGRADE: 'layout 2\n'},),
}

# For how many seconds an opening of a file is held back at most: the system lets it go on after 45.
LEASE = 30

# The four bytes of a file's mark, and what their first says.
MARK, AT_REST, IN_USE = slice(60, 64), 0xc0, 0xc1


def pair_at(at, name='station1.db'):
    """A row file and its log."""
    return at.read(name), at.read(name + '-wal')


def killed_in_life(at, number, tape, config='one.toml'):
    """Starts a station that offers a tape, and kills it as it has released the number: the row stands in the log alone."""
    with open(at.path('printed'), 'wb') as printed:
        serving = at.start(f'serve {config} --turns 1000000 --number {number} --tape {tape}', stdout=printed)
    released = f'release {number} '.encode()
    stage.within(lambda: at.read('printed').startswith(released) and at.read('printed').endswith(b'\n'), f'{number} is released')
    serving.send_signal(signal.SIGKILL)
    serving.wait()


def killed_rows(at):
    """The row file of a station that was killed as it had released number 12, and its log: the row stands in the log alone."""
    at.ends(CREATE, 0, NEW)
    killed_in_life(at, 12, 'flood.tape')
    pair = pair_at(at)
    lay(at, None, None)
    return pair


def lay(at, file, log):
    """Puts a file and a log there, of these bytes, or takes them away."""
    for name, data in (('station1.db', file), ('station1.db-wal', log)):
        if data is not None:
            at.write(name, data)
        elif os.path.lexists(at.path(name)):
            os.remove(at.path(name))


def comes(at, cell, words, wanted):
    """The command comes to this in a cell: a refusal of three lines changes nothing, and nothing that was saved is lost."""
    if isinstance(wanted, dict):
        wanted = wanted[words]
    before = at.seen()
    status, out, err = at.run(words)
    if wanted.startswith('store: '):
        stage.wants((status, out, err) == (3, '', wanted), f'{cell}: {words} ended with {status}, {out!r}, {err!r}')
        stage.wants(at.seen() == before, f'{cell}: {words} was refused, and has changed something')
        return
    stage.wants((status, out, err) == (0, wanted, ''), f'{cell}: {words} ended with {status}, {out!r}, {err!r}')
    saved = SAVED if wanted == SAVED or cell in (('of 0.2.0', 'own'), ('made', 'own')) else HEAD
    at.ends(ROWS, 0, saved)
    left = sorted(name for name in os.listdir(at.folder) if name.startswith('station1'))
    stage.wants(set(left) <= {'station1.db', 'station1.db-wal'}, f'{cell}: {words} has left {left}')


def each_file_beside_each_log(at):
    """The table, cell by cell."""
    made, made_log = killed_rows(at)
    own = old_rows.LOG
    files = {
        'none': (None, own), 'empty': (b'', own), 'one byte': (b'S', own), 'foreign': (b'\1\2\3\4' * 2000, own),
        'half made': (old_rows.BARE, old_rows.BARE_LOG), 'of 0.2.0': (old_rows.BARE, own), 'made': (made, made_log),
    }
    cells = 0
    for name, wanted in TABLE.items():
        file, own_log = files[name]
        for log, data, comes_to in zip(('none', 'empty', 'own'), (None, b'', own_log), wanted):
            for words in COMMANDS:
                lay(at, file, data)
                comes(at, (name, log), words, comes_to)
                cells += 1
    stage.wants(cells == 105, f'{cells} cells')


def saved(at, *numbers):
    """What `rows` prints of these numbers, each with the tape that was offered for it."""
    tapes = {12: 'flood.tape', 13: 'harvest.tape', 14: 'flood.tape'}
    return HEAD + ''.join(f'{number} 1.1 1.1 {at.read(tapes[number]).hex()}\n' for number in numbers)


def three_lives(at):
    """The pairs that three lives of a station leave, each killed as it had released one number more."""
    at.ends(CREATE, 0, NEW)
    pairs = []
    for number, tape in ((12, 'flood.tape'), (13, 'harvest.tape'), (14, 'flood.tape')):
        killed_in_life(at, number, tape)
        pairs.append(pair_at(at))
    lay(at, None, None)
    return pairs


def neighbours_log(at):
    """The log of another station, which released another tape under number 12 and was killed."""
    at.write('eight.toml', at.read('one.toml').replace(b'circuit = 7', b'circuit = 8').replace(b'station1.db', b'eight.db'))
    at.ends('create eight.toml', 0, 'made eight.db: station 1 of 1 circuit 8 layout 2\n')
    killed_in_life(at, 12, 'harvest.tape', 'eight.toml')
    log = at.read('eight.db-wal')
    for name in ('eight.toml', 'eight.db', 'eight.db-wal'):
        os.remove(at.path(name))
    return log


def taken(at, words, listed):
    """A pair is taken, with all that it had."""
    at.ends(words, 0, {PLAIN: '', ROWS: listed, UPGRADE: 'layout 2\n'}[words])
    stage.wants(at.read('station1.db')[60] == AT_REST, f'{words} has not left it at rest')
    at.ends(ROWS, 0, listed)


def refused(at, words, told):
    """A pair is refused, and stays as it was."""
    before = at.seen()
    at.ends(words, 3, '', told)
    stage.wants(at.seen() == before, f'{words} was refused, and has changed something')


def each_mark_beside_each_log(at):
    """A file that was never marked, one at rest and one in use, beside each log: a log that is missing, or of another time, or that
    was cut off within its first frame, is noticed."""
    (_, older), (file, own), (_, newer) = three_lives(at)
    other = neighbours_log(at)
    stage.wants(file[60] == IN_USE, 'it is not in use')
    lay(at, file, own)
    at.ends(ROWS, 0, saved(at, 12, 13))
    resting, rest_log = pair_at(at)
    stage.wants(resting[60] == AT_REST, 'it is not at rest')
    unmarked = file[:60] + bytes(4) + file[64:]
    first, both, all_three = (saved(at, *numbers) for numbers in ((12,), (12, 13), (12, 13, 14)))
    # Of a file without a mark nothing is known: beside a log of another station it shows what that has saved, as it always did.
    others = HEAD + f'12 1.1 1.1 {at.read("harvest.tape").hex()}\n'
    cells = {
        'unmarked': (unmarked, {
            'none': (None, first), 'empty': (b'', first), 'its header': (own[:32], first), 'cut': (own[:41], first),
            'own': (own, both), 'older': (older, first), 'newer': (newer, all_three), 'another': (other, others)}),
        'at rest': (resting, {
            'none': (None, both), 'empty': (b'', both), 'its header': (rest_log[:32], both), 'cut': (own[:41], both),
            'own': (rest_log, both), 'older': (older, OTHER_LOG), 'newer': (newer, OTHER_LOG), 'another': (other, OTHER_LOG)}),
        'in use': (file, {
            'none': (None, WITHOUT_LOG), 'empty': (b'', WITHOUT_LOG), 'its header': (own[:32], OTHER_LOG), 'cut': (own[:41], OTHER_LOG),
            'own': (own, both), 'older': (older, OTHER_LOG), 'newer': (newer, OTHER_LOG), 'another': (other, OTHER_LOG)}),
    }
    tried = 0
    for file, logs in cells.values():
        for log, comes_to in logs.values():
            for words in COMMANDS:
                lay(at, file, log)
                if words in (CREATE, FIRST):
                    refused(at, words, MADE)
                elif comes_to.startswith('store: '):
                    refused(at, words, comes_to)
                else:
                    taken(at, words, comes_to)
                tried += 1
    stage.wants(tried == 120, f'{tried} cells')


def a_copy_without_its_log(at):
    """A copy of the file alone is taken after a good end, and is refused in a life and after a kill."""
    at.ends(CREATE, 0, NEW)
    at.configure('copy.toml', 'copy.db')
    at.write('copy.db', at.read('station1.db'))
    at.ends('rows copy.db', 0, HEAD)
    killed_in_life(at, 12, 'flood.tape')
    os.remove(at.path('copy.db-wal'))
    at.write('copy.db', at.read('station1.db'))
    for words in ('rows copy.db', 'upgrade copy.db', 'serve copy.toml --turns 1'):
        refused(at, words, WITHOUT_LOG)
    at.ends('serve one.toml --turns 1', 0)
    at.write('copy.db', at.read('station1.db'))
    at.ends('rows copy.db', 0, SAVED)


def starts_at_once(at):
    """Of several starts at once each comes to its end or is told that another has the file, and what was released is kept."""
    at.ends(CREATE, 0, NEW)
    released = set()
    for first in range(20, 60, 8):
        starts = []
        for number in range(first, first + 8):
            with open(at.path(f'printed{number}'), 'wb') as printed, open(at.path(f'told{number}'), 'wb') as told:
                words = f'serve one.toml --turns 1 --number {number} --tape flood.tape'
                starts.append((number, at.start(words, stdout=printed, stderr=told)))
        for number, start in starts:
            status, told = start.wait(stage.SECONDS), at.read(f'told{number}').decode()
            stage.wants((status, told) in ((0, ''), (3, HELD), (4, 'socket: cannot bind\n')), f'{number} ended with {status}, {told!r}')
            if at.read(f'printed{number}').startswith(b'release '):
                released.add(number)
    stage.wants(released, 'nothing was released')
    status, listed, _ = at.run(ROWS)
    found = {int(line.split()[0]) for line in listed.splitlines()[1:]}
    stage.wants(status == 0 and released <= found, f'{ROWS}: {status}, {sorted(released - found)} are lost')
    stage.wants(at.read('station1.db')[60] == AT_REST, 'it is not at rest')


def ends_crossed(at, words, after):
    """How a command ends that looks at a row file as it is, and finds its log as another process has left both after that: its status, and the
    faults that it told. It is held back as it opens the log, by a lease on that."""
    with open(at.path('station1.db-wal'), 'rb+', buffering=0) as log:
        try:
            fcntl.fcntl(log, fcntl.F_SETLEASE, fcntl.F_WRLCK)
        except OSError as error:
            raise stage.Skipped('the file system grants no lease') from error
        start = at.start(words, stderr=subprocess.PIPE)
        stage.within(lambda: fcntl.fcntl(log, fcntl.F_GETLEASE) != fcntl.F_WRLCK, f'{words} opens the log', LEASE)
        at.write('station1.db', after[0])
        log.truncate(0)
        log.write(after[1])
    return start.wait(stage.SECONDS), start.stderr.read().decode()


def crossed_starts(at):
    """Another process comes between a start's looks at the file and at its log: the start is told that another has the file, and never that the
    log is not its own."""
    at.ends(CREATE, 0, NEW)
    at.ends(PLAIN, 0)
    at_rest = pair_at(at)
    killed_in_life(at, 12, 'flood.tape')
    first = pair_at(at)
    killed_in_life(at, 13, 'harvest.tape')
    second = pair_at(at)
    # The kernel tells the holder of a lease by this signal that it is asked for, which ends a process that did not say otherwise.
    told_by = signal.signal(signal.SIGIO, signal.SIG_IGN)
    try:
        for before, after in ((at_rest, first), (first, second), ((None, b''), first), ((first[0], b''), second)):
            for words in (PLAIN, ROWS, UPGRADE):
                lay(at, *before)
                ended = ends_crossed(at, words, after)
                stage.wants(ended == (3, HELD), f'{words} ended with {ended}')
                stage.wants(pair_at(at) == after, f'{words} was refused, and has changed something')
                at.ends(ROWS, 0, saved(at, 12) if after is first else saved(at, 12, 13))
    finally:
        signal.signal(signal.SIGIO, told_by)


def a_database_of_another_program(at):
    """A database without these tables is refused, and its user version stays, whatever it is."""
    try:
        import sqlite3
    except ImportError as error:
        raise stage.Skipped('no sqlite3 in this Python') from error
    for version in (0, 1, 7, 20251127):
        if os.path.exists(at.path('other.db')):
            os.remove(at.path('other.db'))
        other = sqlite3.connect(at.path('other.db'))
        other.execute('CREATE TABLE note (id INTEGER PRIMARY KEY, title TEXT)')
        other.execute(f'PRAGMA user_version = {version}')
        other.commit()
        other.close()
        held = at.read('other.db')
        at.ends('rows other.db', 3, '', UNMADE)
        at.ends('upgrade other.db', 3, '', UNMADE)
        stage.wants(at.read('other.db') == held, f'the database of version {version} has changed')


def other_files(at):
    """After an error of the user: each ends with a text, and none has changed."""
    at.ends(CREATE, 0, NEW)
    at.ends('check station1.db widths.toml flood.tape', 1, '', 'table: not toml\n')
    at.ends('check codes.toml widths.toml station1.db', 1, '', 'tape: bad frame at 0\n')
    os.mkdir(at.path('folder'))
    os.mkfifo(at.path('fifo'))
    os.symlink('nowhere.db', at.path('astray.db'))
    os.symlink('codes.toml', at.path('table.db'))
    before = at.seen()
    for name, told in (
            ('codes.toml', NO_DATABASE), ('flood.tape', NO_DATABASE), ('folder', NOT_OPENED), ('fifo', NOT_OPENED),
            ('astray.db', NOT_OPENED), ('table.db', NO_DATABASE), ('flood.tape/rows.db', NOT_OPENED), ('/dev/null', NOT_OPENED),
            ('file:rows.db', MISSING), (':memory:', MISSING)):
        at.ends(['rows', name], 3, '', told)
        at.ends(['upgrade', name], 3, '', told)
        if told != MISSING:
            at.configure('other.toml', name)
            status, told = (1, 'folders: the row file is the table\n') if name in ('codes.toml', 'table.db') else (3, told)
            at.ends('serve other.toml --turns 1', status, '', told)
            at.ends('serve other.toml --turns 1 --create', status, '', told)
            at.ends('create other.toml', status, '', told)
            os.remove(at.path('other.toml'))
    stage.wants(at.seen() == before, 'something has changed')
    for name in ('file:rows.db', ':memory:', 'no_folder/rows.db'):
        at.configure('other.toml', name)
        at.ends('create other.toml', 3, '', NOT_OPENED)
        os.remove(at.path('other.toml'))
    stage.wants(at.seen() == before, 'something was made')


def a_link_to_rows(at):
    """A link leads to the row file and to its log, which lies beside that."""
    os.mkdir(at.path('disk'))
    at.configure('disk.toml', 'disk/rows.db')
    at.ends('create disk.toml', 0, 'made disk/rows.db: station 1 of 1 circuit 7 layout 2\n')
    os.symlink('disk/rows.db', at.path('station1.db'))
    at.ends('serve one.toml --turns 1 --number 12 --tape flood.tape', 0, RELEASE)
    at.ends('rows disk/rows.db', 0, SAVED)
    at.ends(CREATE, 3, '', MADE)
    at.write('disk/rows.db', old_rows.BARE)
    at.write('disk/rows.db-wal', old_rows.LOG)
    at.ends(ROWS, 0, SAVED)
    stage.wants(at.read('station1.db-wal') is None, 'a log lies beside the link')


def rows_of_earlier_programs(at):
    """Row files as earlier programs left them, killed or at rest. Their rows are listed, a station goes on with the story that it has, whatever it is
    offered for the number, and the files are upgraded."""
    for (program, layout, left), pair in old_rows.EARLIER.items():
        for words, wanted, ballot in ((ROWS, SAVED, '1.1'), (AGAIN, RELEASE, '2.1'), (UPGRADE, 'layout 2\n', '1.1')):
            lay(at, *pair)
            came = at.run(words)
            stage.wants(came == (0, wanted, ''), f'{words} over rows of layout {layout} that {program} left {left}: {came}')
            at.ends(ROWS, 0, SAVED.replace('1.1', ballot))


def a_log_that_is_none(at):
    """What stands under the log's name and is no file is refused with the file."""
    at.ends(CREATE, 0, NEW)
    os.mkdir(at.path('station1.db-wal'))
    for words in (PLAIN, ROWS, UPGRADE):
        at.ends(words, 3, '', NOT_OPENED)
    os.remove(at.path('station1.db'))
    at.ends(CREATE, 3, '', NOT_OPENED)
    stage.wants(at.read('station1.db') is None, 'it was made')


def permission_refused(at):
    """A file, or a folder, that this user may not read or write."""
    how = stage.as_nobody()
    os.chmod(at.folder, 0o755)
    at.ends(CREATE, 0, NEW)
    os.chmod(at.path('station1.db'), 0)
    os.mkdir(at.path('shut'))
    at.configure('shut.toml', 'shut/rows.db')
    os.chmod(at.path('shut'), 0o555)
    before = at.seen()
    for words in (CREATE, PLAIN, ROWS, UPGRADE):
        at.ends(words, 3, '', NOT_OPENED, **how)
    at.ends('create shut.toml', 3, '', NOT_OPENED, **how)
    at.ends('serve shut.toml --turns 1 --create', 3, '', NOT_OPENED, **how)
    at.ends('serve shut.toml --turns 1', 3, '', MISSING, **how)
    os.chmod(at.path('station1.db'), 0o444)
    for words in (PLAIN, ROWS, UPGRADE):
        at.ends(words, 3, '', NOT_OPENED, **how)
    os.chmod(at.path('station1.db'), 0)
    stage.wants(at.seen().keys() == before.keys() and os.listdir(at.path('shut')) == [], 'something was made')
    os.chmod(at.path('shut'), 0o755)


# how long a making waits for another, in seconds
WAITS = 5


@contextlib.contextmanager
def locked(at):
    """Holds the lock that a making in the folder takes."""
    folder = os.open(at.folder, os.O_RDONLY)
    try:
        fcntl.flock(folder, fcntl.LOCK_EX)
        yield
    finally:
        os.close(folder)


def a_making_under_way(at):
    """A making waits for another in its folder, and then says so."""
    with locked(at):
        at.ends(CREATE, 3, '', BEING_MADE)
    ends = []
    while ends.count(3) < 5 and 0 not in ends:
        with locked(at):
            began = time.monotonic()
            waiting = at.start(CREATE)
            time.sleep(0.3)
            stage.wants(waiting.poll() is None or time.monotonic() - began > WAITS, 'it does not wait')
        # It ends with 3 where this process was kept from letting the lock go in time.
        ends.append(waiting.wait(stage.SECONDS))
    stage.wants(ends[-1] == 0, f'it is not made once the other one has ended: {ends}')
    at.ends(ROWS, 0, HEAD)


def makings_at_once(at):
    """Of several makings at once one makes the file; those of other files in the folder go through, unless they had to wait too long."""
    at.configure('two.toml', 'two.db')
    with open(at.path('told'), 'wb') as err:
        makings = [at.start(words, stderr=err) for words in (CREATE, CREATE, FIRST, CREATE, 'create two.toml')]
        ends = [making.wait(stage.SECONDS) for making in makings]
    stage.wants(sorted(ends[:4]) == [0, 3, 3, 3], f'they ended with {ends}')
    if ends[4] != 0:
        stage.wants(ends[4] == 3 and BEING_MADE in at.read('told').decode(), f'{ends}: {at.read("told")}')
        at.ends('create two.toml', 0, 'made two.db: station 1 of 1 circuit 7 layout 2\n')
    at.ends('rows two.db', 0, HEAD)
    at.ends(ROWS, 0, HEAD)
    stage.wants(not [name for name in os.listdir(at.folder) if 'making' in name], 'something was left')


def is_cut(at, seconds):
    """Whether a making that is killed after so many seconds came to no end. Where it was made it is whole, and the next start of its kind goes
    through."""
    lay(at, None, None)
    making = at.start(CREATE)
    time.sleep(seconds)
    making.kill()
    status = making.wait()
    if at.read('station1.db') is None:
        at.ends(PLAIN, 3, '', MISSING)
        at.ends(CREATE, 0, NEW)
    at.ends(PLAIN, 0)
    at.ends(ROWS, 0, HEAD)
    stage.wants(not [name for name in os.listdir(at.folder) if 'making' in name], 'something was left')
    return status != 0


def killed_makings(at):
    """A making that is killed leaves nothing at the path, or all of the file."""
    began = time.monotonic()
    at.ends(CREATE, 0, NEW)
    span = time.monotonic() - began
    cuts = [is_cut(at, moment * span / 16) for moment in range(20)]
    # A making that is killed at once hardly comes to its end.
    stage.wants(any(cuts) or any(is_cut(at, 0) for _ in range(20)), 'none was killed before its end')


def a_file_of_two_names(at):
    """What the database refuses it refuses here too."""
    at.ends(CREATE, 0, NEW)
    os.link(at.path('station1.db'), at.path('other.db'))
    at.ends(ROWS, 3, '', NOT_OPENED)
    os.remove(at.path('other.db'))
    at.ends(ROWS, 0, HEAD)


def a_kill(at):
    """What a station has released before a kill it finds at its next start, as whoever asks for it."""
    file, log = killed_rows(at)
    lay(at, file, log)
    at.ends('serve one.toml --turns 1 --seek 12', 0, RELEASE)
    at.ends('serve one.toml --turns 1 --number 12 --tape harvest.tape', 0, RELEASE)
    status, out, _ = at.run(ROWS)
    stage.wants(status == 0 and out.startswith(HEAD + '12 ') and out.endswith(' 01020301030204\n'), f'{ROWS}: {out}')


PLAYS = [
    each_file_beside_each_log, each_mark_beside_each_log, a_copy_without_its_log, starts_at_once, crossed_starts, a_database_of_another_program,
    other_files, a_link_to_rows, rows_of_earlier_programs, a_log_that_is_none, permission_refused, a_making_under_way, makings_at_once, killed_makings, a_file_of_two_names,
    a_kill,
]

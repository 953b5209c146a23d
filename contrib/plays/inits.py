"""Plants that `init` makes: their modes and their bytes, the one key, what is left alone, and a new circuit after a lost station."""
import os
import random
import re
import shutil
import subprocess

import stage

# The configuration of a station with a key, as it is made.
TEXT = """# Station 2 of circuit 7, as circuitd init made it.

# the circuit's number, and which member this station is
circuit = 7
member = 2

# what it reads tapes by, and where it keeps its saved rows: paths from the folder that the program is started in
table = "codes.toml"
widths = "widths.toml"
rows = "station.db"

# where stories are handed over, where it puts what the circuit has agreed on, and where it tells how it stands
[folders]
offers = "offers"
releases = "releases"
status = "status.txt"

# the key of the circuit: all its stations have the same
[wire]
key = "circuit.key"

# where each member listens: the very address that the others reach it by
[[station]]
member = 1
ip = "10.0.7.1"
port = 7001

[[station]]
member = 2
host = "desk-2.example"
port = 7002
"""

MODES = {'': 0o750, 'offers': 0o750, 'releases': 0o750, 'codes.toml': 0o640, 'widths.toml': 0o640, 'circuit.key': 0o600, 'station.toml': 0o640}
SETTING = '--table codes.toml --widths widths.toml'
PLACES = '--stations 10.0.7.1:7001,desk-2.example:7002'
KEY = '000102030405060708090a0b0c0d0e0f101112131415161718191a1b1c1d1e1f'
CANT = 'key: circuit.key is not the same at all of these plants, or another than --key names\n'


def mode(at, name):
    """Who may use a file."""
    return os.lstat(at.path(name)).st_mode & 0o7777


def made(at, words, **how):
    """What `init` tells where it ends well."""
    ran = at.run(f'init {words}', **how)
    stage.wants(ran[0] == 0 and not ran[2], f'init {words} ended with {ran}')
    return ran[1].splitlines()


def put_key(at, name, text, mask=0o600):
    """A file of keys."""
    at.write(name, text.encode())
    os.chmod(at.path(name), mask)


def what_is_made(at):
    """Each file has its bytes, and its mode whatever the umask leaves; a mask takes away from it. What a user may not make is told."""
    for mask, folder in ((0, 'free'), (0o22, 'usual'), (0o77, 'own')):
        made(at, f'{folder} --circuit 7 --member 2 {PLACES} {SETTING} --new-key', umask=mask)
        for name, allowed in MODES.items():
            stage.wants(mode(at, f'{folder}/{name}') == allowed & ~mask, f'{folder}/{name} has mode {mode(at, folder + "/" + name):o}')
        stage.wants(at.read(f'{folder}/station.toml').decode() == TEXT, 'the configuration is as it is to be')
        for name in ('codes.toml', 'widths.toml'):
            stage.wants(at.read(f'{folder}/{name}') == at.read(name), f'{name} is a copy')
        key = at.read(f'{folder}/circuit.key')
        stage.wants(len(key) == 65 and key.endswith(b'\n') and set(key[:64]) <= set(b'0123456789abcdef'), 'the key is a line of digits')
    keys = {at.read(f'{folder}/circuit.key') for folder in ('free', 'usual', 'own')}
    stage.wants(len(keys) == 3, 'each key is drawn anew')
    nobody = stage.as_nobody()
    if nobody:
        os.chmod(at.folder, 0o755)
        at.ends(f'init theirs --circuit 7 --member 2 {PLACES} {SETTING}', 1, '', 'cannot make theirs\n', **nobody)


def the_examples(at):
    """The three plants of the examples are as `init --all` makes them."""
    made(at, f'plants --circuit 7 --all --new-key --stations 127.0.0.1:7001,127.0.0.1:7002,127.0.0.1:7003 {SETTING}')
    for member in (1, 2, 3):
        with open(os.path.join(stage.EXAMPLES, 'plants', f'plant{member}', 'station.toml'), 'rb') as file:
            stage.wants(at.read(f'plants/plant{member}/station.toml') == file.read(), f'plant {member} is that of the examples')


def what_is_left(at):
    """What stands is left with its bytes, its mode and its time; a link, a fifo or a folder under the name of a file too."""
    words = f'alton --circuit 7 --member 2 {PLACES} {SETTING}'
    made(at, words)
    at.write('alton/station.toml', b'circuit = 7\n')
    for name, allowed in (('alton', 0o770), ('alton/offers', 0o2770), ('alton/codes.toml', 0o600)):
        os.chmod(at.path(name), allowed)
    os.remove(at.path('alton/widths.toml'))
    os.mkfifo(at.path('alton/widths.toml'))
    before = {name: os.lstat(at.path(f'alton/{name}')) for name in os.listdir(at.path('alton'))}
    lines = made(at, words)
    stage.wants(lines == ['left alton', 'left alton/offers', 'left alton/releases', 'left alton/codes.toml', 'left alton/widths.toml: it differs',
                          'left alton/station.toml: it differs'], f'{lines}')
    after = {name: os.lstat(at.path(f'alton/{name}')) for name in os.listdir(at.path('alton'))}
    same = [(a.st_mode, a.st_ino, a.st_size, a.st_mtime_ns) for a in before.values()] == [(a.st_mode, a.st_ino, a.st_size, a.st_mtime_ns) for a in after.values()]
    stage.wants(same and before.keys() == after.keys(), 'all is as it was')
    stage.wants(mode(at, 'alton/offers') == 0o2770, 'so are modes')
    # A link leads to the same bytes; one that leads nowhere stands there all the same.
    os.remove(at.path('alton/widths.toml'))
    os.remove(at.path('alton/station.toml'))
    os.symlink('../widths.toml', at.path('alton/widths.toml'))
    os.symlink('nowhere', at.path('alton/station.toml'))
    lines = made(at, words)
    stage.wants(lines[-2:] == ['left alton/widths.toml', 'left alton/station.toml: it differs'] and not os.path.exists(at.path('alton/nowhere')), f'{lines}')
    # Something else under the name of a folder ends it.
    os.rmdir(at.path('alton/offers'))
    at.write('alton/offers', b'')
    at.ends(f'init {words}', 1, 'left alton\n', 'cannot make alton/offers\n')


def one_key(at):
    """All plants of a circuit have one key, also where a call was cut off in the middle and came again; keys that differ are refused."""
    words = f'plants --circuit 7 --all --stations a:7001,b:7001,c:7001 {SETTING}'
    made(at, f'{words} --new-key')
    keys = [at.read(f'plants/plant{member}/circuit.key') for member in (1, 2, 3)]
    stage.wants(len(set(keys)) == 1, 'there is one key')
    for lost in ((1, 3), (2,), (1, 2)):
        for member in lost:
            os.remove(at.path(f'plants/plant{member}/circuit.key'))
        made(at, f'{words} --new-key')
        stage.wants([at.read(f'plants/plant{member}/circuit.key') for member in (1, 2, 3)] == keys, f'without those of {lost} there is one key')
    put_key(at, 'other.key', KEY)
    at.ends(f'init {words} --key other.key', 1, '', CANT)
    shutil.copy(at.path('other.key'), at.path('plants/plant2/circuit.key'))
    at.ends(f'init {words} --new-key', 1, '', CANT)
    os.remove(at.path('plants/plant1/circuit.key'))
    os.remove(at.path('plants/plant3/circuit.key'))
    made(at, f'{words} --key other.key')
    stage.wants(at.read('plants/plant1/circuit.key').decode() == f'{KEY}\n', 'the key of the file')
    # A file of two keys, in capitals, is copied as two lines.
    put_key(at, 'two.key', f'{KEY.upper()}\n{KEY[::-1]}')
    made(at, f'two --circuit 7 --member 1 {PLACES} {SETTING} --key two.key')
    stage.wants(at.read('two/circuit.key').decode() == f'{KEY}\n{KEY[::-1]}\n', 'two keys')
    # What `run` would refuse is refused.
    for text, allowed, why in ((KEY, 0o640, 'others can read it'), (KEY[1:], 0o600, 'bad file')):
        put_key(at, 'bad.key', text, allowed)
        at.ends(f'init three --circuit 7 --member 1 {PLACES} {SETTING} --key bad.key', 1, '', f'key: {why}\n')
        put_key(at, 'plants/plant2/circuit.key', text, allowed)
        at.ends(f'init {words} --new-key', 1, '', f'key: {why}\n')
    os.remove(at.path('plants/plant2/circuit.key'))
    os.mkfifo(at.path('plants/plant2/circuit.key'))
    at.ends(f'init {words} --new-key', 1, '', 'key: cannot read plants/plant2/circuit.key\n')


def without_room(at):
    """A disk that is full, or a file that may not grow, leaves no half file behind."""
    words = f'alton --circuit 7 --member 2 {PLACES} {SETTING}'
    ran = subprocess.run(['sh', '-c', f'trap "" XFSZ; ulimit -f 0; exec "$0" init {words}', at.program], cwd=at.folder, stdout=subprocess.PIPE,
                         stderr=subprocess.PIPE, encoding='utf-8', check=False)
    stage.wants((ran.returncode, ran.stderr) == (1, 'cannot make alton/codes.toml\n'), f'{ran}')
    stage.wants(sorted(os.listdir(at.path('alton'))) == ['offers', 'releases'], 'no file is left')
    made(at, words)


def many(at):
    """Whatever is asked for, `check-config` finds no fault in it, and `create` makes the row file of just this station."""
    draw = random.Random(93)
    for turn in range(200):
        count, circuit, folder = draw.randint(1, 15), draw.randint(0, 65535), at.path(f'p{turn}')
        member = draw.randint(1, count)
        places = [(draw.choice(['127.0.0.{}'.format(draw.randint(1, 254)), 'localhost']), port)
                  for port in draw.sample(range(1, 65536), count)]
        key = draw.choice(['', '--new-key'])
        words = ['init', folder, '--circuit', str(circuit), '--member', str(member), '--stations', ','.join(f'{host}:{port}' for host, port in places)]
        at.ends([*words, *SETTING.split(), *key.split()], 0, ''.join(
            f'made {folder}{name}\n' for name in ('', '/offers', '/releases', '/codes.toml', '/widths.toml', *(['/circuit.key'] if key else []), '/station.toml')))
        here = {'cwd': folder}
        ran = subprocess.run([at.program, 'check-config', 'station.toml'], stdout=subprocess.PIPE, stderr=subprocess.STDOUT, encoding='utf-8', check=False, **here)
        stage.wants(ran.returncode == 0 and 'fault' not in ran.stdout, f'{ran}')
        for place, (host, port) in enumerate(places, 1):
            ip = '127.0.0.1' if host == 'localhost' else host
            stage.wants(f'station {place} at {ip}:{port} ' in ran.stdout, f'station {place} of {ran.stdout}')
        ran = subprocess.run([at.program, 'create', 'station.toml'], stdout=subprocess.PIPE, stderr=subprocess.STDOUT, encoding='utf-8', check=False, **here)
        stage.wants(ran.stdout == f'made station.db: station {member} of {count} circuit {circuit} layout 2\n', f'{ran}')
        shutil.rmtree(folder)


def start(at, folder, *words):
    """Starts the station of a plant in its folder."""
    with open(os.path.join(folder, 'told'), 'ab') as told:
        process = subprocess.Popen([at.program, 'run', 'station.toml', *words], cwd=folder, stdin=subprocess.DEVNULL, stdout=subprocess.DEVNULL, stderr=told)
    at.started.append(process)
    return process


def does(at, folder, words):
    """A command ends well in the folder of a plant."""
    ran = subprocess.run([at.program, *words.split()], cwd=folder, stdout=subprocess.PIPE, stderr=subprocess.STDOUT, encoding='utf-8', timeout=stage.SECONDS, check=False)
    stage.wants(ran.returncode == 0, f'{words} in {folder} ended with {ran}')
    return ran.stdout


def hand_over(at, folder, name):
    """Hands the story of the examples over to a plant."""
    shutil.copy(at.path('flood.tape'), os.path.join(folder, 'offers', f'.{name}'))
    os.rename(os.path.join(folder, 'offers', f'.{name}'), os.path.join(folder, 'offers', name))


def released(folders, number):
    """Waits until a number is released at these plants."""
    for folder in folders:
        path = os.path.join(folder, 'releases', f'{number}.galley')
        stage.within(lambda path=path: os.path.exists(path), f'{path} is there')


def a_lost_disk(at):
    """Three sealed plants; the disk of plant 2 dies. The others end, and a new circuit is made of plant 1, for all: its first story is at all three,
    and what the old circuit released is told as text."""
    stations = ','.join(f'127.0.0.1:{stage.free_port()}' for _ in range(3))
    made(at, f'first --circuit 7 --all --new-key --stations {stations} {SETTING}')
    old = [at.path(f'first/plant{member}') for member in (1, 2, 3)]
    for folder in old:
        does(at, folder, 'check-config station.toml')
        does(at, folder, 'create station.toml')
        start(at, folder)
    for number in (1, 2, 3, 5):
        hand_over(at, old[number % 3], f'{number}.tape')
        released(old, number)
    lost = at.started[1]
    lost.kill()
    lost.wait()
    shutil.rmtree(old[1])
    hand_over(at, old[0], '6.tape')
    released((old[0], old[2]), 6)
    for folder in (old[0], old[2]):
        does(at, folder, 'stop station.toml')
    at.ends('init second --circuit 7 --all --from first/plant1', 1, '', 'init: circuit 7 is the old one: take a number that was never used\n')
    made(at, 'second --circuit 8 --all --from first/plant1')
    new = [at.path(f'second/plant{member}') for member in (1, 2, 3)]
    for folder, member in zip(new, (1, 2, 3)):
        stage.wants(at.read(f'{folder}/circuit.key') == at.read('first/plant1/circuit.key'), 'the key is kept')
        stage.wants(at.read(f'{folder}/before.txt') == b'These 5 numbers of circuit 7 went out at its member 1, or were withdrawn, as its record says.\n'
                    b'A number of the new circuit is another story, even where it is one of these.\n\n1-3\n5-6\n', at.read(f'{folder}/before.txt'))
        stage.wants(does(at, folder, 'create station.toml') == f'made station.db: station {member} of 3 circuit 8 layout 2\n', 'the row file is made')
        start(at, folder)
    hand_over(at, new[1], '1.tape')
    released(new, 1)
    for folder in new:
        does(at, folder, 'stop station.toml')
        stage.wants(not does(at, folder, 'rows station.db').count('circuit 7'), 'the rows are of the new circuit')


def tells_older(at, folder):
    """Whether the status of a plant tells that the rows of member 3 are of layout 1."""
    text = at.read(f'{folder}/status.txt').decode()
    is_told = re.search(r'\nmember 3 heard at .*, its rows are of layout 1\n', text) is not None
    stage.wants(text.endswith(', form 2\n' if is_told else ', form 1\n'), text)
    return is_told


def mixed_layouts(at):
    """`run --create` makes layout 2, so that plants which are made by it or by `create` hear each other. One of layout 1 hears nothing of them, and
    tells so by the member's number; they tell by its number that they hear it, once in the log, and in their status. Once it is upgraded it has
    their story, and they have its."""
    stations = ','.join(f'127.0.0.1:{stage.free_port()}' for _ in range(3))
    made(at, f'plants --circuit 7 --all --new-key --stations {stations} {SETTING}')
    folders = [at.path(f'plants/plant{member}') for member in (1, 2, 3)]
    does(at, folders[0], 'create station.toml')
    does(at, folders[2], 'create station.toml --layout 1')
    for folder, words in zip(folders, ((), ('--create',), ())):
        start(at, folder, *words)
    hand_over(at, folders[0], '12.tape')
    released(folders[:2], 12)
    stage.within(lambda: b'bad-version from member ' in at.read(f'{folders[2]}/told'), 'plant 3 tells that it hears nothing')
    line = [line for line in at.read(f'{folders[2]}/told').decode().splitlines() if line.startswith('bad-version')][0]
    stage.wants(line in [f'bad-version from member {member}: its rows are of layout 2, these of layout 1' for member in (1, 2)], line)
    stage.wants(not os.path.exists(os.path.join(folders[2], 'releases', '12.tape')), 'plant 3 has no story')
    stage.wants(not any(tells_older(at, folder) for folder in folders), 'plant 3 has said nothing')
    hand_over(at, folders[2], '13.tape')
    older = b'old-version from member 3: its rows are of layout 1, these of layout 2\n'
    for folder in folders[:2]:
        stage.within(lambda folder=folder: tells_older(at, folder), f'the status at {folder} tells of plant 3')
        stage.wants(at.read(f'{folder}/told').count(older) == 1, at.read(f'{folder}/told'))
    stage.wants(older not in at.read(f'{folders[2]}/told') and not tells_older(at, folders[2]), 'plant 3 tells it of nobody')
    does(at, folders[2], 'stop station.toml')
    does(at, folders[2], 'upgrade station.db')
    start(at, folders[2])
    released(folders[2:], 12)
    released(folders, 13)
    for folder in folders[:2]:
        stage.within(lambda folder=folder: not tells_older(at, folder), f'the status at {folder} tells it no longer')
        stage.wants(at.read(f'{folder}/told').count(older) == 1, at.read(f'{folder}/told'))
    for folder in folders:
        does(at, folder, 'stop station.toml')


PLAYS = [what_is_made, the_examples, what_is_left, one_key, without_room, many, a_lost_disk, mixed_layouts]

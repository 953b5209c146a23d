#!/usr/bin/env python3
"""Refuses each request for memory of each command in turn, and looks how the command ends.

    bench/refuse.py [--short] PROGRAM

Needs a C compiler (`apt-get install gcc`), which makes the library refuse.c that is loaded before the program. Each case below is
run with its first request refused, then with its second, and so on, until a run meets no refusal. A run ends well in one of these
ways:

- with status 5 and `out of memory`, and what it printed is a front of the case's own text;
- with the case's own text, faults and status, where the program did without what was refused;
- in a rehearsal a station may stop: what was printed before that is a front of the own text, `stopped memory` stands once, the run
  goes on to its end, or to the delivery of a datagram that was never sent, and all releases of a number have one tape.

After each run of a station its file is read by `rows`, with ample memory: it has the rows from before the run or those that the run
saves on its way, or it is refused where the run was to make it; what was released is saved. Printed are for each case the requests,
and how many runs ended in which way. The status is 1 where a run ended otherwise.

With --short the commands that draw and those of a station's run are left out, but for `rows`: `check`, `answer`, `rehearse` and `rows` are over
in half a minute, and the test command runs them. All of them take a quarter of an hour.
"""
import dataclasses
import os
import re
import select
import shutil
import socket
import subprocess
import sys
import tempfile

import proved

HERE = os.path.dirname(os.path.abspath(__file__))
EXAMPLES = os.path.join(HERE, '..', 'examples')
DRAWINGS = os.path.join(HERE, '..', 'docs')
MEMORY = 'out of memory\n'
STORY = '01020301030204'
GALLEY = '0001 J 0 0 a b _4 a _4 b\n'
RELEASE = f'release 12 {STORY}\n{GALLEY}'

# Datagrams of circuit 7: 1 asks 2 to promise 1.1 for number 12, to vote, is asked again by 1 and by 3, and by 1 too late.
PREPARE = '544e0101000701020000000c0000000101'
ANSWERS = [
    (PREPARE, '544e0102000702010000000c000000010100'),
    ('544e0103000701020000000c00000001010003010204', '544e0104000702010000000c00000001010003010204'),
    (PREPARE, 'silent'),
    ('544e0101000703020000000c0000000103', '544e0102000702030000000c00000001030100000001010003010204'),
    (PREPARE, '544e0105000702010000000c00000001010000000103'),
]

# The same in version 2: the flood story, whose frames are packed; the same with a pad bit, asked by 3; a withdrawal takes its
# place; 1 asks too late, and then at a later ballot, and learns of the withdrawal.
ANSWERS_TWO = [
    (PREPARE, '544e0202000702010000000c000000010100'),
    ('544e0203000701020000000c000000010100070420c10c2100', '544e0204000702010000000c000000010100070420c10c2100'),
    ('544e0203000701020000000c000000010100070420c10c2101', 'refused bad-pad'),
    ('544e0201000703020000000c0000000103', '544e0202000702030000000c000000010301000000010100070420c10c2100'),
    ('544e0203000703020000000c00000001030000', '544e0204000702030000000c00000001030000'),
    (PREPARE, '544e0205000702010000000c00000001010000000103'),
    ('544e0201000701020000000c0000000201', '544e0202000702010000000c00000002010100000001030000'),
]

THREE_RELEASE = (
    f'members 3\noffer 1 12 {STORY}\ndeliver 1\ndeliver 3\ndeliver 6\ndeliver 4\ndeliver 8\ndeliver 9\ndeliver 7\n',
    f"""1 began 1.1
 #1 prepare 1>2 12 1.1
 #2 prepare 1>3 12 1.1
2 promised 1.1
 #3 promise 2>1 12 1.1
1 proposed 1.1
 #4 accept 1>2 12 1.1
 #5 accept 1>3 12 1.1
 #6 accepted 1>2 12 1.1
 #7 accepted 1>3 12 1.1
2 heard 1.1
2 voted 1.1
 #8 accepted 2>1 12 1.1
 #9 accepted 2>3 12 1.1
 {RELEASE}1 heard 1.1
 {RELEASE}3 heard 1.1
3 heard 1.1
 {RELEASE}""")

VOTE_IS_REPORTED = (
    f'members 3\noffer 1 12 {STORY}\ndeliver 1\ndeliver 3\ndeliver 4\noffer 3 12 01020301030b04\n'
    'deliver 11\ndeliver 12\ndeliver 14\ndeliver 18\n',
    f"""1 began 1.1
 #1 prepare 1>2 12 1.1
 #2 prepare 1>3 12 1.1
2 promised 1.1
 #3 promise 2>1 12 1.1
1 proposed 1.1
 #4 accept 1>2 12 1.1
 #5 accept 1>3 12 1.1
 #6 accepted 1>2 12 1.1
 #7 accepted 1>3 12 1.1
2 voted 1.1
 #8 accepted 2>1 12 1.1
 #9 accepted 2>3 12 1.1
3 began 1.3
 #10 prepare 3>1 12 1.3
 #11 prepare 3>2 12 1.3
2 promised 1.3
 #12 promise 2>3 12 1.3
3 proposed 1.3
 #13 accept 3>1 12 1.3
 #14 accept 3>2 12 1.3
 #15 accepted 3>1 12 1.3
 #16 accepted 3>2 12 1.3
2 voted 1.3
 #17 accepted 2>1 12 1.3
 #18 accepted 2>3 12 1.3
3 heard 1.3
 {RELEASE}""")

# The first once more, of a withdrawal, and the second in version 2; and what version 1 does not have.
THREE_WITHDRAW = (
    THREE_RELEASE[0].replace(f'offer 1 12 {STORY}', 'wire 2\nwithdraw 1 12'),
    THREE_RELEASE[1].replace(RELEASE, 'release 12 void\n'))
VOTE_IS_REPORTED_PACKED = (VOTE_IS_REPORTED[0].replace('members 3\n', 'members 3\nwire 2\n'), VOTE_IS_REPORTED[1])
TOO_OLD = ('members 3\nwire 1\nwithdraw 1 12\n', '1 refused wire-too-old\n')
# A member goes over, armed and unarmed, and withdraws a number that it had a story for.
GOES_OVER = (
    f'members 1\noffer 1 3 {STORY}\nbalk 1 unsaved\nupgrade 1\nupgrade 1\nwithdraw 1 12\nseek 1 3\n',
    f'1 proposed 1.1\n release 3 {STORY}\n{GALLEY}1 armed unsaved\n1 stopped store\n1 upgraded\n1 proposed 1.1\n release 12 void\n'
    f'1 proposed 2.1\n release 3 {STORY}\n{GALLEY}')

# A tape, its galley, its fault.
TAPES = [
    ([1, 2, 3, 1, 3, 2, 4], GALLEY, ''),
    ([8, 1, 10, 9, 2, 7, 4], '0001 L 0 17 ^a ~2 b\n', ''),
    ([8, 1, 7, 4, 1, 7, 4], '0001 L 0 25 ^a\n0002 L 0 25 ^a\n', ''),
    ([1, 7, 5, 7, 4], '0001 C 12 13 a\n', ''),
    ([1, 3, 1, 7, 4], '0001 L 0 18 a _2 a\n', ''),
    ([1, 1, 1, 1, 1, 1, 4], '0001 J 0 0 a a a a a a\n', ''),
    ([1, 1, 1, 1, 1, 4], '', 'fault: loose 5 at 5 line 1\n'),
]
LISTING = """o..... 1
.o.... 2
oo.... 3
o..... 1
oo.... 3
.o.... 2
..o... 4
"""
# What stands in the first entry of the code table or in the widths, what stands there instead, and the fault.
FIRST_ENTRY = 'frame = 0\nunshift = "@ignore"\nshift = "@ignore"'
TABLES = [
    (FIRST_ENTRY, 'frame = 64\nunshift = "@ignore"\nshift = "@ignore"', 'table entry 1: bad frame\n'),
    (FIRST_ENTRY, 'frame = 0\nunshift = "@font"\nshift = "@ignore"', 'table entry 1: bad meaning\n'),
    (FIRST_ENTRY, 'frame = 0\nunshift = "@shift"\nshift = "a"', 'table entry 1: case code differs\n'),
]
WIDTHS = [
    ('band_min = 2', 'band_min = 7', 'widths: bands crossed\n'),
    ('measure = 30', 'measure = 0', 'widths: out of range measure\n'),
    ('em = 10\n', '', 'widths: missing em\n'),
]


@dataclasses.dataclass
class Case:
    """A command and its own end."""
    name: str
    words: list
    given: str = ''
    out: str = ''
    err: str = ''
    status: int = 0
    # of a station's run: the file of saved rows that it begins with, its own file, and what `rows` may print of that later
    begins: str = ''
    rows: str = ''
    left: tuple = ()
    # what is done as another member while it runs
    peer: object = None


class Wrong(Exception):
    """A run that ended as none may end."""


class Peer:
    """Member 2 of a circuit of two: it promises, votes and tells of its vote."""

    def __init__(self, own, other):
        self.socket, self.other = own, other

    def run(self, process):
        """Answers until the process has ended, and takes away what is left then."""
        ended = os.pidfd_open(process.pid)
        while self.socket in select.select([self.socket, ended], [], [])[0]:
            self.answer(self.socket.recv(5000))
        os.close(ended)

    def answer(self, came):
        kind, header = came[3], came[4:6] + bytes([2, 1]) + came[8:17]
        if kind in (1, 3):
            answer = b'TN\x01' + bytes([kind + 1]) + header + (b'\0' if kind == 1 else came[17:])
            self.socket.sendto(answer, self.other)


def config(member, ports):
    stations = ''.join(
        f'[[station]]\nmember = {m}\nip = "127.0.0.1"\nport = {port}\n' for m, port in enumerate(ports, 1))
    return (f'circuit = 7\nmember = {member}\ntable = "codes.toml"\nwidths = "widths.toml"\nrows = "own.db"\n{stations}')


def udp():
    own = socket.socket(socket.AF_INET, socket.SOCK_DGRAM)
    own.bind(('127.0.0.1', 0))
    return own


def free_port():
    with udp() as probe:
        return probe.getsockname()[1]


class Sweep:
    def __init__(self, program, work):
        self.program, self.work = program, work
        self.library = os.path.join(work, 'refuse.so')
        made = subprocess.run(['cc', '-shared', '-fPIC', '-O2', '-o', self.library, f'{HERE}/refuse.c', '-ldl'])
        if made.returncode != 0:
            sys.exit('refuse.py: no library: apt-get install gcc')

    def path(self, name):
        return os.path.join(self.work, name)

    def write(self, name, text):
        with open(self.path(name), 'wb') as file:
            file.write(text if isinstance(text, bytes) else text.encode())

    def run(self, case, place):
        """Runs a case with this request refused, or none at 0. Whether it met a refusal, its status, output and faults."""
        end, told = os.pipe()
        added = {'LD_PRELOAD': self.library, 'REFUSE': str(place), 'REFUSED': str(told)} if place else {}
        process = subprocess.Popen(
            [self.program, *case.words], cwd=self.work, env={**os.environ, **added}, pass_fds=[told],
            stdin=subprocess.PIPE, stdout=subprocess.PIPE, stderr=subprocess.PIPE)
        os.close(told)
        if case.peer:
            case.peer.run(process)
        out, err = process.communicate(case.given.encode(), timeout=60)
        refused = os.read(end, 1) != b''
        os.close(end)
        return refused, process.returncode, out.decode(), err.decode()

    def lay_file(self, case):
        """The file of saved rows as the case begins with it, and the log beside it."""
        for name in os.listdir(self.work):
            if name.startswith('own.db'):
                os.remove(self.path(name))
        for name in os.listdir(self.work):
            if case.begins and name.startswith(case.begins):
                shutil.copy(self.path(name), self.path(name.replace(case.begins, 'own.db')))

    def read_file(self, case, out):
        """Looks what a station's run has left: its rows, and a vote for what it released."""
        run = subprocess.run([self.program, 'rows', 'own.db'], cwd=self.work, capture_output=True, text=True, timeout=60)
        found = run.stdout if run.returncode == 0 else run.stderr
        if found not in case.left:
            raise Wrong(f'it left {found!r}')
        released = re.search(r'^release \d+( \S+\n)', out, re.MULTILINE)
        if released and released[1] not in found:
            raise Wrong(f'it released what it did not save: {found!r}')

    def see(self, case, place):
        """Whether a run met a refusal, and how it ended."""
        if case.left:
            self.lay_file(case)
        refused, status, out, err = self.run(case, place)
        try:
            way = judge(case, refused, status, out, err)
            if case.left:
                self.read_file(case, out)
        except Wrong as wrong:
            print(f'{case.name}, request {place}: {wrong}: status {status}, {err!r}, {out!r}')
            way = 'wrong'
        return refused, way


def judge(case, refused, status, out, err):
    if (status, out, err) == (case.status, case.out, case.err):
        return 'own'
    if not refused:
        raise Wrong('it ends otherwise though nothing was refused')
    if status == 5 and err == MEMORY:
        if not case.out.startswith(out):
            raise Wrong('it printed no front of its text')
        return 'memory'
    if case.words[0] == 'rehearse':
        return judge_stop(case, status, out, err)
    raise Wrong('it ends otherwise')


def judge_stop(case, status, out, err):
    """The rehearsal went on though one of its stations stopped."""
    stops = re.findall(r'^\d+ stopped memory$', out, re.MULTILINE)
    if len(stops) != 1 or not case.out.startswith(out[:out.index(stops[0])]):
        raise Wrong('no station stopped for memory where it had to')
    if (status, err) != (0, '') and (status != 1 or not re.fullmatch(r'script line \d+: no such datagram\n', err)):
        raise Wrong('it ends otherwise')
    if any(len(set(re.findall(rf'^ release {number} (\S+)', out, re.MULTILINE))) > 1 for number in (3, 12)):
        raise Wrong('TWO STORIES of a number')
    return 'went on'


def setting_cases(sweep):
    """Of `check`, whose tapes set or not, and whose files have a fault each."""
    cases = []
    for place, (frames, out, err) in enumerate(TAPES):
        sweep.write(f'{place}.tape', bytes(frames))
        words = ['check', 'codes.toml', 'widths.toml', f'{place}.tape']
        cases.append(Case(f'check {bytes(frames).hex()}', words, out=out, err=err, status=1 if err else 0))
    words = ['check', 'codes.toml', 'widths.toml', '0.tape', '--holes']
    cases.insert(1, Case('check with its listing', words, out=LISTING + GALLEY))
    tables = [('code = 3', 'table: no codes\n')]
    with open(sweep.path('codes.toml')) as file:
        codes = file.read()
    tables += [(replaced(codes, old, new), fault) for old, new, fault in TABLES]
    for place, (text, fault) in enumerate(tables):
        sweep.write(f'codes{place}.toml', text)
        words = ['check', f'codes{place}.toml', 'widths.toml', '0.tape']
        cases.append(Case(fault.strip(), words, err=fault, status=1))
    with open(sweep.path('widths.toml')) as file:
        widths = file.read()
    for place, (old, new, fault) in enumerate(WIDTHS):
        sweep.write(f'widths{place}.toml', replaced(widths, old, new))
        words = ['check', 'codes.toml', f'widths{place}.toml', '0.tape']
        cases.append(Case(fault.strip(), words, err=fault, status=1))
    return cases


def replaced(text, old, new):
    if text.count(old) != 1:
        sys.exit(f'refuse.py: {old!r} stands {text.count(old)} times')
    return text.replace(old, new)


def draw_cases(sweep):
    """Of `draw`, of a tape that sets and of one that does not, as drawings and as pages."""
    cases = []
    for name, drawing, fault in (('flood', 'story', ''), ('overset', 'overset', 'fault: overset 1 at 7 line 1')):
        shutil.copy(os.path.join(EXAMPLES, f'{name}.tape'), sweep.work)
        with open(os.path.join(DRAWINGS, f'{drawing}.svg')) as file:
            # the pages draw from the folder above the examples
            svg = file.read().replace('examples/', '')
        words, end = ['draw', 'codes.toml', 'widths.toml', f'{name}.tape'], (f'{fault}\n', 1) if fault else ('', 0)
        # a page for a browser is what is printed where no memory is refused
        page = subprocess.run([sweep.program, *words, '--html'], cwd=sweep.work, capture_output=True, text=True).stdout
        cases.append(Case(f'draw {name}', words, out=svg, err=end[0], status=end[1]))
        cases.append(Case(f'draw {name} as a page', [*words, '--html'], out=page, err=end[0], status=end[1]))
    return cases


def answer_cases():
    words = ['answer', '7', '2']
    given, told = zip(*ANSWERS)
    given_two, told_two = zip(*ANSWERS_TWO)
    return [
        Case('answer', words, PREPARE, f'{ANSWERS[0][1]}\n'),
        Case('answer, short', words, PREPARE[:-2], 'refused short\n'),
        Case('answer, long', words, PREPARE + '00', 'refused long\n'),
        Case('answer, five lines', words, '\n'.join(given), '\n'.join(told) + '\n'),
        Case('answer, version 2 to version 1', words, ANSWERS_TWO[1][0], 'refused bad-version\n'),
        Case('answer --wire 2', [*words, '--wire', '2'], '\n'.join(given_two), '\n'.join(told_two) + '\n'),
    ]


def rehearse_cases(sweep):
    cases = []
    scripts = (
        ('three release', THREE_RELEASE), ('a vote is reported', VOTE_IS_REPORTED), ('three withdraw', THREE_WITHDRAW),
        ('a packed vote', VOTE_IS_REPORTED_PACKED), ('too old', TOO_OLD), ('goes over', GOES_OVER))
    for name, (script, out) in scripts:
        sweep.write(f'{name}.script', script)
        cases.append(Case(f'rehearse, {name}', ['rehearse', 'codes.toml', 'widths.toml', f'{name}.script'], out=out))
    return cases


def make_rows(sweep):
    """The saved rows of member 2 of 3, made by what members 1 and 3 ask of it, and those of a station alone."""
    with udp() as first, udp() as third:
        port = free_port()
        sweep.write('made.toml', config(2, [first.getsockname()[1], port, third.getsockname()[1]]).replace('own', 'made'))
        process = subprocess.Popen([sweep.program, 'serve', 'made.toml', '--turns', '400', '--create'], cwd=sweep.work)
        asked = [(first, '544e010100070102000000030000000101'),
                 (first, '544e0103000701020000000c00000001010003010204'),
                 (third, '544e0101000703020000000c0000000103')]
        for own, datagram in asked:
            own.settimeout(0.1)
            while not is_answered(own, bytes.fromhex(datagram), port, process):
                pass
        process.kill()
        process.wait()
    # one that ends by itself leaves all in the file
    subprocess.run([sweep.program, 'serve', 'made.toml', '--turns', '1'], cwd=sweep.work, check=True)
    for name in os.listdir(sweep.work):
        if name.startswith('made.db'):
            shutil.copy(sweep.path(name), sweep.path(name.replace('made.db', 'over.db')))
    subprocess.run([sweep.program, 'upgrade', 'over.db'], cwd=sweep.work, check=True, stdout=subprocess.DEVNULL)
    sweep.write('alone.toml', config(1, [free_port()]).replace('own', 'alone'))
    offer = ['--create', '--number', '12', '--tape', 'flood.tape']
    subprocess.run([sweep.program, 'serve', 'alone.toml', '--turns', '1', *offer], cwd=sweep.work, check=True,
                   stdout=subprocess.DEVNULL)


def is_answered(own, datagram, port, process):
    """Whether the station answers a request; it may not listen yet."""
    if process.poll() is not None:
        sys.exit('refuse.py: the station that makes the saved rows ended')
    own.sendto(datagram, ('127.0.0.1', port))
    try:
        # what answers a request is of the next kind, and other members' votes come too
        while own.recv(5000)[3] != datagram[3] + 1:
            pass
    except TimeoutError:
        return False
    return True


# What `rows` prints of the saved rows that are made.
ROWS = 'station 2 of 3 circuit 7\n3 1.1 - -\n12 1.3 1.1 010204\n'


def rows_case():
    return Case('rows', ['rows', 'made.db'], out=ROWS)


def store_cases(sweep):
    """Of `rows` and of a station's run: alone, over rows and without, and beside another."""
    make_rows(sweep)
    text = ROWS
    sweep.write('own.toml', config(1, [free_port()]))
    peer, port = udp(), free_port()
    sweep.write('two.toml', config(1, [port, peer.getsockname()[1]]))
    offer = ['--create', '--number', '12', '--tape', 'flood.tape']
    alone, two = 'station 1 of 1 circuit 7\n', 'station 1 of 2 circuit 7\n'
    voted, withdrawn = f'12 1.1 1.1 {STORY}\n', '12 1.1 1.1 void\n'
    none = (
        'store: refused\nno such file: look for it and its log; only a station that never ran is made, by circuitd create\n',
    )
    return [
        rows_case(),
        Case('upgrade', ['upgrade', 'own.db'], out='layout 2\n', begins='made.db', left=(text,)),
        Case('upgrade of layout 2', ['upgrade', 'own.db'], out='layout 2\n', begins='over.db', left=(text,)),
        Case('rows of layout 2', ['rows', 'over.db'], out=text),
        Case('serve, a search', ['serve', 'own.toml', '--turns', '1', '--seek', '12'], out=RELEASE, begins='alone.db',
             left=(alone + voted, alone + f'12 2.1 2.1 {STORY}\n')),
        Case('create', ['create', 'own.toml'], out='made own.db: station 1 of 1 circuit 7 layout 2\n', left=(*none, alone)),
        Case('serve, made, an offer', ['serve', 'own.toml', '--turns', '1', *offer], out=RELEASE,
             left=(*none, alone, alone + voted)),
        Case('serve, made, a withdrawal', ['serve', 'own.toml', '--turns', '1', '--create', '--withdraw', '12'],
             err='refused wire-too-old\n', status=1, left=(*none, alone)),
        Case('serve, layout 2, a withdrawal', ['serve', 'own.toml', '--turns', '1', '--create', '--layout', '2', '--withdraw', '12'],
             out='release 12 void\n', left=(*none, alone, alone + withdrawn)),
        Case('serve, made, beside another', ['serve', 'two.toml', '--turns', '6', *offer], out=RELEASE,
             left=(*none, two, two + '12 1.1 - -\n', two + voted), peer=Peer(peer, ('127.0.0.1', port))),
    ]


def main():
    is_short = sys.argv[1:2] == ['--short']
    if len(sys.argv) != 2 + is_short:
        sys.exit(__doc__)
    totals = dict.fromkeys(('requests', 'memory', 'own', 'went on', 'wrong'), 0)
    with tempfile.TemporaryDirectory() as work:
        for name in ('codes.toml', 'widths.toml', 'flood.tape'):
            shutil.copy(os.path.join(EXAMPLES, name), work)
        sweep = Sweep(proved.program(sys.argv[-1]), work)
        cases = [*setting_cases(sweep), *answer_cases(), *rehearse_cases(sweep)]
        if is_short:
            make_rows(sweep)
            cases.append(rows_case())
        else:
            cases += [*draw_cases(sweep), *store_cases(sweep)]
        print(f'{"":32}' + ''.join(f'{name:>10}' for name in totals), flush=True)
        for case in cases:
            counts = count(sweep, case)
            print(f'{case.name:32}' + ''.join(f'{counts[name]:10}' for name in totals), flush=True)
            for name in totals:
                totals[name] += counts[name]
    print(f'{"all":32}' + ''.join(f'{number:10}' for number in totals.values()))
    return 1 if totals['wrong'] else 0


def count(sweep, case):
    """How many requests a case makes, and how many runs ended in which way where one was refused."""
    counts = dict.fromkeys(('requests', 'memory', 'own', 'went on', 'wrong'), 0)
    if sweep.see(case, 0) != (False, 'own'):
        sys.exit('refuse.py: the program does not do what it has to with ample memory')
    while True:
        refused, way = sweep.see(case, counts['requests'] + 1)
        if not refused:
            counts['wrong'] += way == 'wrong'
            return counts
        counts['requests'] += 1
        counts[way] += 1


if __name__ == '__main__':
    sys.exit(main())

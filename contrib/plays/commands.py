"""Each command, as it ends well and with each status: what it prints, on either stream, byte for byte."""
import os
import resource
import shutil
import subprocess
import sys

import stage
from stage import GALLEY, HEAD, IN_USE, MADE, MISSING, NOT_OPENED, NO_DATABASE, RELEASE

SCRIPT = b'members 3\noffer 1 12 01020301030204\n'
BEGAN = '1 began 1.1\n #1 prepare 1>2 12 1.1\n #2 prepare 1>3 12 1.1\n'
PREPARE = b'544e0101000701020000000c0000000101\n'
PROMISE = '544e0102000702010000000c000000010100\n'
WITHDRAWAL = b'544e0203000701020000000c00000001010000\n'
WITHDRAWN = '544e0204000702010000000c00000001010000\n'
ROWS = HEAD + '12 1.1 1.1 01020301030204\n'
UNKNOWN = """error: unrecognized subcommand 'sing'

Usage: circuitd <COMMAND>

For more information, try '--help'.
"""
ALONE = """error: the following required arguments were not provided:
  --create

Usage: circuitd run --create --layout <L> <CONFIG>

For more information, try '--help'.
"""


def all_done(at):
    """Status 0."""
    at.write('one.script', SCRIPT)
    at.ends('--version', 0, 'circuitd 0.3.0\n')
    at.ends('answer 7 2', 0, PROMISE, given=PREPARE)
    at.ends('answer 7 2 --wire 2', 0, WITHDRAWN, given=WITHDRAWAL)
    at.ends('check codes.toml widths.toml flood.tape', 0, GALLEY)
    at.ends('rehearse codes.toml widths.toml one.script', 0, BEGAN)
    at.ends('create one.toml --layout 1', 0, 'made station1.db: station 1 of 1 circuit 7 layout 1\n')
    at.ends('serve one.toml --turns 1 --number 12 --tape flood.tape', 0, RELEASE)
    at.ends('rows station1.db', 0, ROWS)
    # After a good end a copy of the file alone has all.
    shutil.copy(at.path('station1.db'), at.path('copy.db'))
    at.ends('rows copy.db', 0, ROWS)
    at.ends('upgrade station1.db', 0, 'layout 2\n')
    at.ends('serve one.toml --turns 1 --withdraw 13', 0, 'release 13 void\n')
    at.ends('rows station1.db', 0, ROWS + '13 1.1 1.1 void\n')


def first_starts(at):
    """A first start makes the row file and goes on, at layout 1 where none is named; the command `create` at layout 2."""
    at.ends('serve one.toml --turns 1 --create --number 12 --tape flood.tape', 0, RELEASE)
    at.ends('serve one.toml --turns 1 --withdraw 13', 1, '', 'refused wire-too-old\n')
    at.configure('two.toml', 'two.db')
    at.ends('serve two.toml --turns 1 --create --layout 2 --withdraw 13', 0, 'release 13 void\n')
    at.configure('three.toml', 'three.db')
    at.ends('create three.toml', 0, 'made three.db: station 1 of 1 circuit 7 layout 2\n')
    at.ends('serve three.toml --turns 1 --withdraw 13', 0, 'release 13 void\n')


def faulty_inputs(at):
    """Status 1."""
    at.ends('check codes.toml widths.toml overset.tape', 1, '', 'fault: overset 1 at 7 line 1\n')
    at.ends('check widths.toml codes.toml flood.tape', 1, '', 'table: no codes\n')
    at.ends('check codes.toml widths.toml no.tape', 1, '', 'cannot read no.tape\n')
    at.ends('create no.toml', 1, '', 'cannot read no.toml\n')
    at.ends('create codes.toml', 1, '', 'config: missing circuit\n')
    at.ends('create one.toml', 0, 'made station1.db: station 1 of 1 circuit 7 layout 2\n')
    at.ends('serve one.toml --turns 1 --number 0 --tape flood.tape', 1, '', 'refused bad-number\n')


def usage(at):
    """Status 2."""
    at.ends('sing', 2, '', UNKNOWN)
    at.ends('serve one.toml --turns 1 --number 12', 2, '', 'usage: --number and --tape go together\n')
    at.ends('serve one.toml --turns 1 --layout 2', 2, '', 'usage: --layout goes with --create\n')
    at.ends('run one.toml --layout 2', 2, '', ALONE)
    status, out, err = at.run('create --help')
    stage.wants((status, err) == (2, '') and out.startswith('Makes the row file'), f'the help of create: {out}{err}')


def words_that_are_no_text(at):
    """Status 2, with a line."""
    for words in ([b'rows', b'station\xff.db'], [b'\xc3'], [b'check', b'codes.toml', b'widths.toml', b'\x80.tape']):
        at.ends(words, 2, '', 'usage: an argument is not UTF-8\n')


def refused_rows(at):
    """Status 3."""
    os.mkdir(at.path('folder'))
    at.ends('serve one.toml --turns 1', 3, '', MISSING)
    at.ends('run one.toml', 3, '', MISSING)
    at.ends('rows station1.db', 3, '', MISSING)
    at.ends('upgrade station1.db', 3, '', MISSING)
    at.ends('create one.toml', 0, 'made station1.db: station 1 of 1 circuit 7 layout 2\n')
    for words in ('create one.toml', 'serve one.toml --turns 1 --create', 'run one.toml --create'):
        at.ends(words, 3, '', MADE)
    at.ends('rows flood.tape', 3, '', NO_DATABASE)
    at.ends('rows folder', 3, '', NOT_OPENED)
    serving = at.start('serve one.toml --turns 1000000')
    # Not by a look at the row file, which would itself have it open when the station starts.
    stage.within(at.serves, 'a station that serves has bound its port')
    at.ends('rows station1.db', 3, '', IN_USE)
    at.ends('upgrade station1.db', 3, '', IN_USE)
    at.ends('serve one.toml --turns 1', 3, '', IN_USE)
    serving.kill()
    serving.wait()
    at.ends('rows station1.db', 0, HEAD)


def a_port_that_is_taken(at):
    """Status 4; the row file is made by then, and the next start is a plain one."""
    with stage.udp() as other:
        other.bind(('127.0.0.1', at.port))
        at.ends('serve one.toml --turns 1 --create', 4, '', 'socket: cannot bind\n')
        at.ends('run one.toml', 4, '', 'socket: cannot bind\n')
    at.ends('serve one.toml --turns 1', 0)


def refused_memory(at):
    """Status 5: a process that may have no more than it needs to start is refused what it asks for."""
    at.write('long.toml', b'#' * 1_000_000)
    told = set()
    for most in range(2, 40):
        limit = most * 1_000_000

        def few():
            resource.setrlimit(resource.RLIMIT_AS, (limit, limit))

        try:
            ran = at.run('check long.toml widths.toml flood.tape', preexec_fn=few)
        except (OSError, subprocess.SubprocessError):
            continue
        told.add(ran)
        if ran == (5, '', 'out of memory\n'):
            at.ends('check long.toml widths.toml flood.tape', 1, '', 'table: no codes\n')
            return
    raise stage.Wrong(f'no bound on its memory ends it with 5: {sorted(told)}')


def manual_pages(at):
    """The manual pages are those of the program's help, a page for each command; each tells how it ends."""
    subprocess.run([sys.executable, os.path.join(stage.TOP, 'contrib', 'manpage.py'), at.program, at.path('man')], check=True)
    kept = os.path.join(stage.TOP, 'contrib', 'man')
    stage.wants(sorted(os.listdir(at.path('man'))) == sorted(os.listdir(kept)), 'contrib/man has the pages that contrib/manpage.py writes, and no others')
    for name in os.listdir(kept):
        with open(os.path.join(kept, name), 'rb') as page:
            text = page.read()
        stage.wants(at.read(f'man/{name}') == text, f'contrib/man/{name} is not what contrib/manpage.py writes')
        stage.wants(b'.SH EXIT STATUS\n.TP\n.B 0\n' in text, f'{name} tells how it ends')


PLAYS = [
    all_done, first_starts, faulty_inputs, usage, words_that_are_no_text, refused_rows, a_port_that_is_taken, refused_memory,
    manual_pages,
]

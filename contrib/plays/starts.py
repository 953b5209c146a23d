"""What `serve` starts from, over files, a row file and a socket of this machine, and how it starts again."""
import os

from stage import HEAD, MADE, MISSING, NO_DATABASE, RELEASE, STATION, udp, wants

OFFER = '--number 12 --tape flood.tape'
FIRST = HEAD + '12 1.1 1.1 01020301030204\n'
LATER = HEAD + '12 2.1 2.1 01020301030204\n'
WITHDRAWN = 'release 13 void\n' + RELEASE
VOID = LATER + '13 1.1 1.1 void\n'


def saved(at, text):
    """The row file has these rows."""
    at.ends('rows station1.db', 0, text)


def rows_of_its_own(at):
    """A row file is made once, where that is asked for, and is taken up by its own station alone, which finds its story in it."""
    at.ends(f'serve one.toml --turns 1 {OFFER}', 3, '', MISSING)
    wants(at.read('station1.db') is None, 'the look made a row file')
    at.ends(f'serve one.toml --turns 1 --create {OFFER}', 0, RELEASE)
    saved(at, FIRST)
    at.ends(f'serve one.toml --turns 1 --create {OFFER}', 3, '', MADE)
    saved(at, FIRST)
    # The number keeps its story at a ballot of the second start.
    at.ends('serve one.toml --turns 1 --seek 12', 0, RELEASE)
    saved(at, LATER)
    # Its rows are of layout 1, which knows of no withdrawal, and the search behind it is not made.
    at.ends('serve one.toml --turns 1 --withdraw 13 --seek 12', 1, '', 'refused wire-too-old\n')
    saved(at, LATER)
    other = STATION.format(rows='station1.db', port=at.port).replace('circuit = 7', 'circuit = 8')
    at.write('other.toml', other.encode())
    at.ends('serve other.toml --turns 1 --seek 12', 3, '', 'store: wrong station\n')
    saved(at, LATER)


def an_upgrade_between_two_starts(at):
    """The rows stay, and a number is withdrawn then; a second upgrade changes nothing."""
    at.ends('upgrade station1.db', 3, '', MISSING)
    at.ends(f'serve one.toml --turns 1 --create --layout 1 {OFFER}', 0, RELEASE)
    saved(at, FIRST)
    at.ends('upgrade station1.db', 0, 'layout 2\n')
    at.ends(f'serve one.toml --turns 1 --layout 2 {OFFER}', 2, '', 'usage: --layout goes with --create\n')
    saved(at, FIRST)
    at.ends('upgrade station1.db', 0, 'layout 2\n')
    at.ends('serve one.toml --turns 1 --withdraw 13 --seek 12', 0, WITHDRAWN)
    saved(at, VOID)
    at.ends(f'serve one.toml --turns 1 --create --layout 2 {OFFER}', 3, '', MADE)
    saved(at, VOID)


def rows_of_layout_2(at):
    """Rows that are made at layout 2 take a withdrawal at once, and an upgrade leaves them as they are."""
    at.ends(f'serve one.toml --turns 1 --create --layout 2 {OFFER}', 0, RELEASE)
    saved(at, FIRST)
    at.ends('serve one.toml --turns 1 --withdraw 13 --seek 12', 0, WITHDRAWN)
    saved(at, VOID)
    at.ends('upgrade station1.db', 0, 'layout 2\n')
    at.ends(f'serve one.toml --turns 1 --create {OFFER}', 3, '', MADE)
    saved(at, VOID)


def faults_in_order(at):
    """Each start stumbles over the next file, and the last over the row file; the port is told behind it."""
    text = STATION.format(rows='new.db', port=at.port).replace('codes', 'new_codes').replace('widths.toml', 'new_widths.toml')
    words = 'serve new.toml --turns 1 --create --number 12 --tape new.tape'
    codes, widths, tape = (at.read(name) for name in ('codes.toml', 'widths.toml', 'flood.tape'))
    at.write('new.db', b'no database of rows, but a text that someone put in its place')
    at.ends(words, 1, '', 'cannot read new.toml\n')
    at.write('new.toml', b'circuit')
    at.ends(words, 1, '', 'config: not toml\n')
    at.write('new.toml', text.encode())
    at.ends(words, 1, '', 'cannot read new_codes.toml\n')
    at.write('new_codes.toml', b'code = 3')
    at.ends(words, 1, '', 'table: no codes\n')
    at.write('new_codes.toml', codes)
    at.ends(words, 1, '', 'cannot read new_widths.toml\n')
    at.write('new_widths.toml', b'measure = 0')
    at.ends(words, 1, '', 'widths: out of range measure\n')
    at.write('new_widths.toml', widths)
    at.ends(words, 1, '', 'cannot read new.tape\n')
    at.write('new.tape', b'')
    at.ends(words, 1, '', 'tape: empty\n')
    at.write('new.tape', tape)
    with udp() as held:
        held.bind(('127.0.0.1', at.port))
        at.ends(words, 3, '', NO_DATABASE)
        os.remove(at.path('new.db'))
        at.ends(words, 4, '', 'socket: cannot bind\n')


def a_number_goes_with_a_tape(at):
    """One without the other is usage, and nothing is read."""
    for words in ('--number 12', '--tape flood.tape'):
        at.ends(f'serve none.toml --turns 1 {words}', 2, '', 'usage: --number and --tape go together\n')


PLAYS = [rows_of_its_own, an_upgrade_between_two_starts, rows_of_layout_2, faults_in_order, a_number_goes_with_a_tape]

"""What an operator does with a plant beside running it: its configuration is checked, and its station is ended."""
import os
import stat

import stage

PLACES = 'station 1 at 127.0.0.1:{port} is this one, on this host\n'
VOTES = 'odd: no folders are named: it only votes, and nothing but a kill ends it\n'
UNMADE = 'there is no {rows} yet: circuitd create makes it, for a station that never ran\n'
OTHER = '[[station]]\nmember = {member}\nip = "{ip}"\nport = 7001\n'
# addresses that are no host's here: two for documentation, one of a private network, one of none, one of a group
FIRST, SECOND, PRIVATE, NONE, GROUP = '192.0.2.1', '198.51.100.2', '172.31.255.254', '0.0.0.0', '224.0.0.1'


def changed(at, name, *changes):
    """A copy of the configuration of a station alone, with changes of its text and more stations behind it."""
    text = at.read('one.toml').decode()
    for old, new in changes:
        text = text.replace(old, new)
    at.write(name, text.encode())


def nothing_is_touched(at):
    """A check makes no file and changes none, and holds no lock that a station wants."""
    at.plant('one.toml', 'station.db')
    before, names = at.seen(), os.listdir(at.path('offers'))
    at.ends('check-config one.toml', 0, PLACES.format(port=at.port))
    stage.wants(at.seen() == before and os.listdir(at.path('offers')) == names, 'the folder is as it was')
    at.start('run one.toml')
    stage.within(at.serves, 'the station is up')
    at.ends('check-config one.toml', 0, PLACES.format(port=at.port))


def what_is_odd(at):
    """An even count, addresses that are reached from elsewhere than the first, or from nowhere; no folders, no row file."""
    at.write('more.toml', at.read('one.toml') + OTHER.format(member=2, ip='127.0.0.2').encode())
    here = PLACES.format(port=at.port) + 'station 2 at 127.0.0.2:7001 is on this host too\n'
    even = 'odd: 2 stations bear no more absences than 1\n'
    at.ends('check-config more.toml', 0, here + even + VOTES + UNMADE.format(rows='station1.db'))
    others = ''.join(OTHER.format(member=member, ip=ip) for member, ip in enumerate((SECOND, PRIVATE, GROUP, FIRST), 2))
    at.write('far.toml', at.read('one.toml').replace(b'127.0.0.1', FIRST.encode()) + others.replace(FIRST, '203.0.113.5').encode())
    at.ends('check-config far.toml', 1, f'fault: station 1 at {FIRST}:{at.port} is this one, and that is no address of this host\n'
            f'station 2 at {SECOND}:7001 is on another host\nstation 3 at {PRIVATE}:7001 is on another host\n'
            'odd: station 3 has a private address, and station 1 a public one\n'
            f'station 4 at {GROUP}:7001 is on this host too\nodd: station 4 has no host\'s address\n'
            'station 5 at 203.0.113.5:7001 is on another host\n' + VOTES + UNMADE.format(rows='station1.db'))


def what_is_at_fault(at):
    """Each fault of what a configuration names is told; where it has faults itself, these alone."""
    at.plant('one.toml', 'station.db')
    changed(at, 'two.toml', ('codes.toml', 'none.toml'), ('widths.toml', 'codes.toml'), ('"releases"', '"offers"'))
    at.ends('check-config two.toml', 1, PLACES.format(port=at.port) + 'fault: cannot read none.toml\nfault: widths: missing measure\n'
            'fault: folders: offers and releases are one folder\n')
    changed(at, 'three.toml', ('"offers"', '"nowhere"'), ('"releases"', '"codes.toml"'))
    at.ends('check-config three.toml', 1, PLACES.format(port=at.port) + 'fault: folders: cannot read offers: it is not there\n'
            'fault: folders: cannot read releases: it is no folder\n'
            'fault: folders: releases is the table\n')
    changed(at, 'four.toml', ('circuit = 7', 'circuit = 70000'))
    at.ends('check-config four.toml', 1, 'fault: config: out of range circuit\n')
    changed(at, 'five.toml', ('circuit = 7', 'circuit = 70000'), ('member = 1\ntable', 'member = 2\ntables'), ('"widths.toml"', '3'),
            ('rows', 'row'), ('offers =', 'offer ='), ('port = ', 'port = 7'))
    at.ends('check-config five.toml', 1, 'fault: config: out of range circuit\nfault: config: missing table\nfault: config: wrong type widths\n'
            'fault: config: missing rows\nfault: config: missing offers\nfault: config: bad station 1\n')
    changed(at, 'six.toml', ('member = 1\ntable', 'member = 2\ntable'))
    at.ends('check-config six.toml', 1, 'fault: config: out of range member\n')
    at.write('seven.toml', b'circuit = [')
    at.ends('check-config seven.toml', 1, 'fault: config: not toml\n')
    at.write('eight.toml', b'\xff')
    at.ends('check-config eight.toml', 1, '', 'config: not toml\n')
    at.ends('check-config none.toml', 1, '', 'cannot read none.toml\n')


def what_a_story_needs(at):
    """A table that ends no line, and a measure that no matrix fits: the narrowest matrix just fits, and not by one unit less."""
    at.plant('one.toml', 'station.db')
    at.write('table.toml', b'code = [ { frame = 1, unshift = "a", shift = "b" }, { frame = 2, unshift = "@return", shift = "c" } ]')
    changed(at, 'two.toml', ('codes.toml', 'table.toml'), ('widths.toml', 'narrow.toml'))
    ends = PLACES.format(port=at.port) + 'odd: the table has no elevate code: no line can be ended\n'
    widths = 'measure = {}\nband_min = 1\nband_max = 2\nthin = 1\nen = 1\nem = 1\n[matrix]\na = 9\nb = 7\nd = 1\n'
    at.write('narrow.toml', widths.format(7).encode())
    at.ends('check-config two.toml', 0, ends)
    at.write('narrow.toml', widths.format(6).encode())
    at.ends('check-config two.toml', 0, ends + 'odd: no matrix of the table fits the measure of 6\n')


def a_station_is_stopped(at):
    """A station ends well by `stop`, which has ended only once its row file is closed; the file that it laid is taken away at the next start."""
    at.plant('one.toml', 'station.db')
    for _ in range(2):
        station = at.start('run one.toml')
        stage.within(at.serves, 'the station is up')
        stage.within(lambda: not os.path.exists(at.path('offers/stop')), 'a file `stop` of before is gone')
        at.stop('one.toml')
        os.rename(at.path('station.db-wal'), at.path('log'))
        at.ends('rows station.db', 0, stage.HEAD)
        stage.within(lambda: station.poll() == 0, 'it ended well')
    # One that the station passes over, and one that is no plain file, are replaced.
    station = at.start('run one.toml')
    stage.within(at.serves, 'the station is up')
    stage.within(lambda: not os.path.exists(at.path('offers/stop')), 'a file `stop` of before is gone')
    os.mkfifo(at.path('offers/stop'))
    at.stop('one.toml')
    stage.within(lambda: station.poll() == 0, 'it ended well')
    stage.wants(stat.S_ISREG(os.lstat(at.path('offers/stop')).st_mode), 'the file is a plain one')


def nothing_to_stop(at):
    """Where no station is up it ends well at once; what can't be done is told."""
    at.plant('two.toml', 'station.db')
    at.ends('stop two.toml', 0)
    at.ends('stop one.toml', 1, '', 'stop: the configuration names no folders\n')
    at.ends('stop none.toml', 1, '', 'cannot read none.toml\n')
    os.remove(at.path('offers/stop'))
    os.rmdir(at.path('offers'))
    at.ends('stop two.toml', 1, '', 'folders: cannot write offers: it is not there\n')
    os.makedirs(at.path('offers/stop'))
    at.ends('stop two.toml', 1, '', 'folders: cannot write offers: the host failed\n')


PLAYS = [nothing_is_touched, what_is_odd, what_is_at_fault, what_a_story_needs, a_station_is_stopped, nothing_to_stop]

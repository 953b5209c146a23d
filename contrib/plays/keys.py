"""The file of keys that a configuration names, how `serve`, `run` and `check-config` refuse one, and hosts by name."""
import os

from stage import RELEASE, STATION, udp, wants

KEY = '000102030405060708090a0b0c0d0e0f101112131415161718191a1b1c1d1e1f\n'
OTHER = 'ff' * 32 + '\n'
OTHERS_CAN = 'key: others can read it\n'
BAD = 'key: bad file\n'
WIRE = '[wire]\nkey = "{key}"\n[[station]]'
OFFER = '--number 12 --tape flood.tape'


def sealed(at, name, key='circuit.key', wire=WIRE):
    """Puts the configuration of a station alone there, with a key."""
    text = STATION.format(rows='station1.db', port=at.port)
    at.write(name, text.replace('[[station]]', wire.format(key=key)).encode())


def key_file(at, text, mode=0o600, name='circuit.key'):
    """Puts a file of keys there, of this mode."""
    at.write(name, text.encode())
    os.chmod(at.path(name), mode)


def refused(at, fault):
    """`serve` and `run` refuse it, before all else that they start from."""
    at.ends(f'serve one.toml --turns 1 --create {OFFER}', 1, '', fault)
    at.ends('run one.toml --create', 1, '', fault)
    wants(at.read('station1.db') is None, 'a row file was made')


def other_files_are_refused(at):
    """One that is not there, that is no file, that others can open, that holds something else; and one that is taken."""
    sealed(at, 'one.toml')
    refused(at, 'key: cannot read circuit.key\n')
    os.mkdir(at.path('circuit.key'))
    refused(at, 'key: cannot read circuit.key\n')
    os.rmdir(at.path('circuit.key'))
    # A pipe that nobody writes to is not waited for.
    os.mkfifo(at.path('circuit.key'), 0o600)
    refused(at, 'key: cannot read circuit.key\n')
    os.remove(at.path('circuit.key'))
    for mode in (0o640, 0o620, 0o604, 0o602, 0o610, 0o777):
        key_file(at, KEY, mode)
        refused(at, OTHERS_CAN)
    # Who may open it comes before what it holds.
    key_file(at, 'a key', 0o644)
    refused(at, OTHERS_CAN)
    for text in ('', 'a key', KEY[1:], '0' + KEY, KEY.replace('00', '0g'), KEY + KEY + KEY, KEY + '\n', KEY.replace('\n', '\r\n'), KEY * 20_000):
        key_file(at, text)
        refused(at, BAD)
    for text in (KEY, KEY[:-1], KEY.upper(), KEY + OTHER, KEY + OTHER[:-1]):
        key_file(at, text)
        at.ends('serve one.toml --turns 1 --number 0 --tape none.tape', 1, '', 'cannot read none.tape\n')
    key_file(at, KEY, 0o400)
    at.ends(f'serve one.toml --turns 1 --create {OFFER}', 0, RELEASE)


def behind_the_configuration(at):
    """Its faults stand behind those of the configuration, and before those of the other files."""
    key_file(at, 'a key')
    sealed(at, 'one.toml', wire='[wire]\nkeys = "{key}"\n[[station]]')
    refused(at, 'config: missing key\n')
    sealed(at, 'one.toml', wire='[wire]\nkey = 1\n[[station]]')
    refused(at, 'config: wrong type key\n')
    sealed(at, 'one.toml')
    at.write('one.toml', at.read('one.toml').replace(b'codes.toml', b'none.toml'))
    refused(at, BAD)
    key_file(at, KEY)
    refused(at, 'cannot read none.toml\n')


def told_by_check_config(at):
    """`check-config` tells of it beside the others; `create` and `stop` do not read it."""
    sealed(at, 'one.toml')
    for prepare, fault in ((None, 'key: cannot read circuit.key'), (lambda: key_file(at, KEY, 0o644), OTHERS_CAN.strip()),
                           (lambda: key_file(at, 'a key'), BAD.strip())):
        if prepare:
            prepare()
        status, out, err = at.run('check-config one.toml')
        wants((status, err) == (1, '') and f'fault: {fault}\n' in out, f'check-config: {status} {out}{err}')
    at.ends('create one.toml', 0, 'made station1.db: station 1 of 1 circuit 7 layout 2\n')
    at.ends('stop one.toml', 1, '', 'stop: the configuration names no folders\n')
    key_file(at, KEY)
    status, out, err = at.run('check-config one.toml')
    wants((status, err) == (0, '') and 'fault' not in out, f'check-config: {status} {out}{err}')


def hosts_by_name(at):
    """A name is looked up; one without an address is a fault at its entry; an entry has an address or a name, and not both."""
    text = STATION.format(rows='station1.db', port=at.port)
    at.write('one.toml', text.replace('ip = "127.0.0.1"', 'host = "localhost"').encode())
    at.ends(f'serve one.toml --turns 1 --create {OFFER}', 0, RELEASE)
    status, out, err = at.run('check-config one.toml')
    wants((status, err) == (0, '') and f'station 1 at 127.0.0.1:{at.port} is this one, on this host\n' in out, f'check-config: {out}{err}')
    at.write('one.toml', text.replace('ip = "127.0.0.1"', 'host = "nowhere.invalid"').encode())
    fault = 'config: station 1: host: no address\n'
    at.ends('serve one.toml --turns 1', 1, '', fault)
    at.ends('run one.toml', 1, '', fault)
    at.ends('check-config one.toml', 1, f'fault: {fault}')
    # What talks to no station looks nothing up.
    at.ends('stop one.toml', 1, '', 'stop: the configuration names no folders\n')
    for both in ('host = "localhost"\nip = "127.0.0.1"', 'host = 1', ''):
        at.write('one.toml', text.replace('ip = "127.0.0.1"', both).encode())
        at.ends('serve one.toml --turns 1', 1, '', 'config: bad station 1\n')


def a_port_behind_a_key(at):
    """The socket comes last, also with a key."""
    key_file(at, KEY)
    sealed(at, 'one.toml')
    with udp() as held:
        held.bind(('127.0.0.1', at.port))
        at.ends(f'serve one.toml --turns 1 --create {OFFER}', 4, '', 'socket: cannot bind\n')


PLAYS = [other_files_are_refused, behind_the_configuration, told_by_check_config, hosts_by_name, a_port_behind_a_key]

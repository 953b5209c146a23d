"""What a service manager is told, as systemd is: a datagram to the socket that NOTIFY_SOCKET names, by `run` alone."""
import os
import socket
import subprocess

import stage

UP = 'READY=1\nSTATUS=station 1 of 1 circuit 7 layout 2\n'


def listening(at, name):
    """A socket of this name, which waits so long for a datagram."""
    heard = socket.socket(socket.AF_UNIX, socket.SOCK_DGRAM)
    heard.bind(name)
    heard.settimeout(stage.SECONDS)
    return heard


def with_status(at):
    """A plant with a status file."""
    at.plant('one.toml', 'station.db')
    text = at.read('one.toml').replace(b'releases = "releases"\n', b'releases = "releases"\nstatus = "status.txt"\n')
    at.write('one.toml', text)


def told_when_up(at):
    """`run` tells when it is up, and how it is as often as its status is written; the name of the socket may begin with `@`."""
    with_status(at)
    for name, address in ((at.path('notify'), at.path('notify')), (f'@circuitd-{os.getpid()}', f'\0circuitd-{os.getpid()}')):
        with listening(at, address) as heard:
            station = at.start('run one.toml', env=os.environ | {'NOTIFY_SOCKET': name})
            stage.wants(heard.recv(4096).decode() == UP, 'it tells that it is up')
            stage.wants(at.serves(), 'it is up then')
            stage.wants(heard.recv(4096).decode().startswith('STATUS=released '), 'it tells how it is')
            at.stop('one.toml')
            stage.within(lambda: station.poll() == 0, 'it ended well')


def told_by_run_alone(at):
    """No other command tells anything; nor does a station that does not start."""
    with_status(at)
    away = at.read('one.toml').replace(b'127.0.0.1', b'192.0.2.1').replace(b'station.db', b'away.db')
    at.write('away.toml', away)
    env = {'env': os.environ | {'NOTIFY_SOCKET': at.path('notify')}}
    with listening(at, at.path('notify')) as heard:
        at.ends('run away.toml --create', 4, '', 'socket: cannot bind\n', **env)
        at.ends('serve one.toml --turns 1', 0, **env)
        at.ends('check-config one.toml', 0, stdout=subprocess.DEVNULL, **env)
        at.ends('stop one.toml', 0, **env)
        heard.settimeout(0.2)
        try:
            raise stage.Wrong(f'something was told: {heard.recv(4096)}')
        except TimeoutError:
            pass


def nobody_listens(at):
    """A socket at which nobody listens, that is full, or whose name is none keeps no station from running."""
    with_status(at)
    full = listening(at, at.path('full'))
    sender = socket.socket(socket.AF_UNIX, socket.SOCK_DGRAM)
    sender.setblocking(False)
    try:
        while True:
            sender.sendto(b'x' * 1000, at.path('full'))
    except BlockingIOError:
        pass
    for name in ('', 'x', '/', '@', '/nowhere/notify', '/' + 'x' * 200, '@' + 'x' * 107, at.path('one.toml'), at.path('full')):
        station = at.start('run one.toml', env=os.environ | {'NOTIFY_SOCKET': name})
        stage.within(at.serves, f'it is up with {name}')
        at.stop('one.toml')
        stage.within(lambda: station.poll() == 0, 'it ended well')
    full.close()
    sender.close()


PLAYS = [told_when_up, told_by_run_alone, nobody_listens]

"""Plants that are up together, and what is laid among their offers."""
import os
import time

import stage

CONFIG = """circuit = 7
member = {member}
table = "codes.toml"
widths = "widths.toml"
rows = "plant{member}.db"
[folders]
offers = "offers{member}"
releases = "releases{member}"
{stations}"""


STORIES = 300
# So many ballots a number are enough where all is released within so many seconds. Where it takes longer, the machine is busy with other work, and
# in each second more of it as many ballots may be begun again: of the 16 numbers that are under way at each of three plants, thrice.
BALLOTS, QUICK, AGAIN = 2, 10, 3 * 16 * 3


def write_config(at, own, ports):
    """The configuration of one plant, whose list has these ports in order, and its folders."""
    stations = ''.join(f'[[station]]\nmember = {member}\nip = "127.0.0.1"\nport = {port}\n' for member, port in enumerate(ports, 1))
    at.write(f'plant{own}.toml', CONFIG.format(member=own, stations=stations).encode())
    os.mkdir(at.path(f'offers{own}'))
    os.mkdir(at.path(f'releases{own}'))


def configure(at):
    """Three plants that are not up yet, and the port of each."""
    ports = [stage.free_port() for _ in range(3)]
    for member in (1, 2, 3):
        write_config(at, member, ports)
    return ports


def bring_up(at, ports, members, words='--verbose', making='--create --layout 2'):
    """Starts these, for the first time where nothing else is said, each with a log, of all where nothing else is said, waits until they are
    up, and gives their processes. One after the other: a making waits five seconds for another in its folder, and no longer."""
    started = []
    for member in members:
        with open(at.path(f'log{member}'), 'wb') as log:
            started.append(at.start(f'run plant{member}.toml {making} {words}', stderr=log))
        at.port = ports[member - 1]
        stage.within(at.serves, lambda member=member: f'plant {member} is up: {at.read(f"log{member}")}')
    return started


def three(at):
    """Three plants that are up, each with a log."""
    bring_up(at, configure(at), (1, 2, 3))


def lay(at, member, name, data):
    """Lays a file among the offers of a plant: under another name first, as the manual says."""
    at.write(f'offers{member}/.{name}', data)
    os.rename(at.path(f'offers{member}/.{name}'), at.path(f'offers{member}/{name}'))


def a_search_beside_its_tape(at):
    """A search for a number does not keep a tape of that number, at the same plant, from being offered."""
    three(at)
    lay(at, 2, '12.seek', b'')
    lay(at, 2, '12.tape', at.read('flood.tape'))
    for member in (1, 2, 3):
        stage.within(lambda: at.read(f'releases{member}/12.galley') == stage.GALLEY.encode(), f'plant {member} has the story')
    sent = at.path('offers2/sent')
    stage.within(lambda: os.path.isdir(sent) and sorted(os.listdir(sent)) == ['12.seek', '12.tape'], 'both were sent')


def lists_that_differ(at):
    """A plant tells that another takes it for another member, and that another speaks as a member that does not listen there."""
    first, second, third, nobody = [stage.free_port() for _ in range(4)]
    write_config(at, 1, (first, second, third))
    write_config(at, 3, (second, first, third))
    write_config(at, 4, (first, nobody, third, second))
    bring_up(at, (first, second, third, second), (1, 3, 4))
    lay(at, 3, '12.tape', at.read('flood.tape'))
    lay(at, 4, '13.tape', at.read('flood.tape'))
    for line in (b'refused not-for-me\n', b'datagrams that name another sender, last from 127.0.0.1:%d\n' % second):
        stage.within(lambda: line in at.read('log1'), f'{line} is told')


def burst(at, members):
    """Stories that are laid at these plants all at once: each plant has all of them, and they took few ballots."""
    three(at)
    tape, began = at.read('flood.tape'), time.monotonic()
    for number in range(1, STORIES + 1):
        lay(at, members[number % len(members)], f'{number}.tape', tape)
    wanted = {f'{number}.{kind}' for number in range(1, STORIES + 1) for kind in ('tape', 'galley')}
    for member in (1, 2, 3):
        stage.within(lambda: wanted <= set(os.listdir(at.path(f'releases{member}'))), f'plant {member} has each story')
    seconds = time.monotonic() - began
    ballots = sum(line.split()[1:2] == [b'began'] for member in (1, 2, 3) for line in at.read(f'log{member}').splitlines())
    most = BALLOTS * STORIES + AGAIN * max(0, seconds - QUICK)
    stage.wants(STORIES <= ballots <= most, f'{ballots} ballots for {STORIES} stories in {seconds} seconds')


def a_burst_at_one_plant(at):
    """No plant lacks a story of many that are laid at one of three at once."""
    burst(at, (2,))


def a_burst_at_each_plant(at):
    """Nor of many that are laid at all three."""
    burst(at, (1, 2, 3))


PLAYS = [a_search_beside_its_tape, lists_that_differ, a_burst_at_one_plant, a_burst_at_each_plant]
